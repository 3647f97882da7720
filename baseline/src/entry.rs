//! Entries of the operations table: sheet × 2^48 + kind × 2^40 + job × 2^32 + key.

use crate::journal::Procedure;

pub const INSERTED: u64 = 1;
pub const ALREADY_THERE: u64 = 2;
pub const DELETED: u64 = 3;
pub const ALREADY_GONE: u64 = 4;
pub const SEEN: u64 = 5;
pub const NOT_SEEN: u64 = 6;

/// Who asked for an operation: a job, for a sheet.
#[derive(Clone, Copy, Debug, PartialEq, Eq)]
pub struct Origin {
    pub job: u8,
    pub sheet: u16,
}

pub fn entry(kind: u64, Origin { job, sheet }: Origin, key: u32) -> u64 {
    u64::from(sheet) << 48 | kind << 40 | u64::from(job) << 32 | u64::from(key)
}

pub fn kind(entry: u64) -> u64 {
    entry >> 40 & 0xFF
}

pub fn origin(entry: u64) -> Origin {
    Origin {
        job: job(entry),
        sheet: (entry >> 48) as u16,
    }
}

pub fn job(entry: u64) -> u8 {
    (entry >> 32) as u8
}

pub fn key(entry: u64) -> u32 {
    entry as u32
}

pub fn kind_of(procedure: Procedure, found: bool) -> u64 {
    match (procedure, found) {
        (Procedure::Insert, false) => INSERTED,
        (Procedure::Insert, true) => ALREADY_THERE,
        (Procedure::Delete, true) => DELETED,
        (Procedure::Delete, false) => ALREADY_GONE,
        (Procedure::Member, true) => SEEN,
        (Procedure::Member, false) => NOT_SEEN,
    }
}

pub fn changes_its_tile(entry: u64) -> bool {
    matches!(kind(entry), INSERTED | DELETED)
}

/// Entries of kind 3: by the first rule each reserves a place, for the delete may be undone.
pub fn deletes(entries: &[u64]) -> usize {
    entries.iter().filter(|&&e| kind(e) == DELETED).count()
}

/// Whether a new operation commutes with the recovery of an unfinished one on the same tile. On
/// another tile it always does.
pub fn commutes(new_kind: u64, unfinished_kind: u64) -> bool {
    match unfinished_kind {
        INSERTED => matches!(new_kind, ALREADY_GONE | NOT_SEEN),
        DELETED => matches!(new_kind, ALREADY_THERE | SEEN),
        _ => true,
    }
}
