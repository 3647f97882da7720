//! Whether lent tables are sound. What is costly is to hold each entry that changed its tile
//! against those behind it: by the first rule none of them may have that tile, and `chains` has
//! the second rule. It is decided in several ways.

use crate::chains;
use crate::entry::{changes_its_tile, deletes, job, key, kind, INSERTED, NOT_SEEN};
use crate::journal::JOB_RECORD;
use crate::levels::{hold_by_pass, hold_by_stretches, Levels};
use crate::rule::Rule;
use crate::session::{Session, Tables, JOBS, MOST_JOURNAL, MOST_OPERATIONS, MOST_TILES};
use crate::tile::is_key;
use crate::tuned;
use std::collections::HashSet;

/// How what is asked of later entries is decided; `Tuned` is a check of its own, made for speed.
#[derive(Clone, Copy, Debug, PartialEq, Eq)]
pub enum Check {
    Pairs,
    Sets,
    Filter,
    Tuned,
}

impl Check {
    pub const ALL: [Check; 4] = [Check::Pairs, Check::Sets, Check::Filter, Check::Tuned];
}

/// One way to decide it, for each rule, and whether the levels are counted right.
struct Decided {
    levels_hold: fn(&Levels, &[u32]) -> bool,
    changed_last: fn(&[u64]) -> bool,
    reserved_if_chained: fn(&[u32], &[u64]) -> Option<usize>,
}

const PAIRS: Decided = Decided {
    levels_hold: hold_by_pass,
    changed_last: changed_last_by_pairs,
    reserved_if_chained: chains::reserved_by_pairs,
};

const SETS: Decided = Decided {
    levels_hold: hold_by_pass,
    changed_last: changed_last_by_set,
    reserved_if_chained: chains::reserved_by_map,
};

const FILTER: Decided = Decided {
    levels_hold: hold_by_stretches,
    changed_last: changed_last_by_filter,
    reserved_if_chained: chains::reserved_by_nearest,
};

pub fn is_sound(check: Check, session: &Session, tables: &Tables) -> bool {
    lengths_fit(tables.tiles, tables.operations)
        && session.tiles <= tables.tiles.len()
        && session.operations <= tables.operations.len()
        && journal_has_room(session, tables.journal)
        && match check {
            Check::Pairs => tables_hold(session, tables, PAIRS),
            Check::Sets => tables_hold(session, tables, SETS),
            Check::Filter => tables_hold(session, tables, FILTER),
            Check::Tuned => tuned::tables_hold(session, tables.tiles, tables.operations),
        }
}

/// Whether a start with these tables gives a sound session. It clears the operations table, so
/// that only its length counts.
pub fn can_start(
    check: Check,
    tiles: &[u32],
    count: usize,
    operations: &[u64],
    journal: &[u8],
) -> bool {
    lengths_fit(tiles, operations)
        && count <= tiles.len()
        && journal.len() <= MOST_JOURNAL
        && match check {
            Check::Tuned => tuned::tiles_hold(tiles, count),
            _ => tiles_hold(tiles, count),
        }
}

fn lengths_fit(tiles: &[u32], operations: &[u64]) -> bool {
    (1..=MOST_TILES).contains(&tiles.len()) && (1..=MOST_OPERATIONS).contains(&operations.len())
}

fn journal_has_room(session: &Session, journal: &[u8]) -> bool {
    journal.len() <= MOST_JOURNAL
        && session.journal <= journal.len()
        && JOB_RECORD * session.open_jobs() <= journal.len() - session.journal
}

fn tables_hold(session: &Session, tables: &Tables, decided: Decided) -> bool {
    let (entries, unused) = tables.operations.split_at(session.operations);
    let used = &tables.tiles[..session.tiles];
    tiles_hold(tables.tiles, session.tiles)
        && (decided.levels_hold)(&session.levels, used)
        && entries.iter().all(|&e| entry_fits(&session.marks, e))
        && unused.iter().all(|&e| e == 0)
        && reserved_if_settled(session.rule, used, entries, decided) == Some(session.spoken)
        && session.tiles + session.spoken <= tables.tiles.len()
}

/// How many places the entries reserve; none if they do not fit the tiles or each other.
fn reserved_if_settled(
    rule: Rule,
    tiles: &[u32],
    entries: &[u64],
    decided: Decided,
) -> Option<usize> {
    match rule {
        Rule::Alone => {
            let are_as_left = entries.iter().all(|&e| is_as_left(tiles, e));
            let is_settled = are_as_left && (decided.changed_last)(entries);
            Some(deletes(entries)).filter(|_| is_settled)
        }
        Rule::Together => (decided.reserved_if_chained)(tiles, entries),
    }
}

fn tiles_hold(tiles: &[u32], count: usize) -> bool {
    let (used, unused) = tiles.split_at(count);
    used.iter().all(|&k| is_key(k))
        && used.windows(2).all(|pair| pair[0] < pair[1])
        && unused.iter().all(|&k| k == 0)
}

fn entry_fits(marks: &[bool; JOBS], entry: u64) -> bool {
    (INSERTED..=NOT_SEEN).contains(&kind(entry))
        && marks.get(usize::from(job(entry))) == Some(&true)
        && is_key(key(entry))
}

/// Whether the entry's tile is as it left it, if it changed it.
pub fn is_as_left(tiles: &[u32], entry: u64) -> bool {
    !changes_its_tile(entry)
        || tiles.binary_search(&key(entry)).is_ok() == (kind(entry) == INSERTED)
}

fn changed_last_by_pairs(entries: &[u64]) -> bool {
    (0..entries.len()).all(|at| !changes_its_tile(entries[at]) || is_last(entries, at))
}

/// Whether no entry behind this one has its tile.
fn is_last(entries: &[u64], at: usize) -> bool {
    let own = key(entries[at]);
    !entries[at + 1..].iter().any(|&e| key(e) == own)
}

fn changed_last_by_set(entries: &[u64]) -> bool {
    let mut seen = HashSet::with_capacity(entries.len());
    entries.iter().rev().all(|&e| {
        let is_new = seen.insert(key(e));
        is_new || !changes_its_tile(e)
    })
}

fn changed_last_by_filter(entries: &[u64]) -> bool {
    let mut seen = KeyFilter::new();
    (0..entries.len()).rev().all(|at| {
        let was_seen = seen.insert(key(entries[at]));
        !was_seen || !changes_its_tile(entries[at]) || is_last(entries, at)
    })
}

/// One bit for each slot of a hash: a key whose bit is not set was never inserted.
pub(crate) struct KeyFilter {
    words: [u64; 1_024],
}

impl KeyFilter {
    pub(crate) fn new() -> KeyFilter {
        KeyFilter { words: [0; 1_024] }
    }

    /// Sets the key's bit, and answers whether it was set before.
    pub(crate) fn insert(&mut self, key: u32) -> bool {
        let slot = slot(key);
        let word = &mut self.words[slot / 64];
        let bit = 1 << (slot % 64);
        let was_set = *word & bit != 0;
        *word |= bit;
        was_set
    }
}

/// Keys are multiplied by this odd number, near 2^32 divided by the golden ratio.
pub const SPREAD: u32 = 2_654_435_761;

/// The slot of a key, of 65,536.
pub fn slot(key: u32) -> usize {
    (key.wrapping_mul(SPREAD) >> 16) as usize
}
