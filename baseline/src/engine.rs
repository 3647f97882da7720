//! What an admitted operation and the end of a job do to the tables; the calls and the replay
//! share it.

use crate::at_once::undo_at_once;
use crate::chains;
use crate::entry::{
    changes_its_tile, commutes, entry, job, key, kind, kind_of, origin, Origin, DELETED, INSERTED,
    NOT_SEEN,
};
use crate::journal::Procedure;
use crate::reply::Refusal;
use crate::rule::Rule;
use crate::session::Session;

/// From so many changes on, undoing them at once is the faster way.
const MANY: usize = 100;

/// An operation that may be performed, and where its tile is or would be.
pub struct Admitted {
    kind: u64,
    key: u32,
    place: usize,
    was_deleted: bool,
}

impl Admitted {
    pub fn answer(&self) -> bool {
        self.kind != NOT_SEEN
    }
}

pub fn admit(
    session: &Session,
    tiles: &[u32],
    operations: &[u64],
    own_job: u8,
    procedure: Procedure,
    new_key: u32,
) -> Result<Admitted, Refusal> {
    let entries = &operations[..session.operations];
    let search = tiles[..session.tiles].binary_search(&new_key);
    let new_kind = kind_of(procedure, search.is_ok());
    let mut was_deleted = false;
    for &e in entries.iter().filter(|&&e| key(e) == new_key) {
        if holds(session.rule, own_job, new_kind, e) {
            return Err(Refusal::Held(origin(e)));
        }
        was_deleted |= kind(e) == DELETED;
    }
    // an absent tile that was deleted has a place reserved; by the first rule it is held
    let needed = usize::from(new_kind == INSERTED && !was_deleted);
    if lacks_places(session, tiles.len(), needed) {
        return Err(Refusal::NoTileRoom);
    }
    if entries.len() == operations.len() {
        return Err(Refusal::NoOperationRoom);
    }
    let place = search.unwrap_or_else(|place| place);
    Ok(Admitted {
        kind: new_kind,
        key: new_key,
        place,
        was_deleted,
    })
}

/// Whether an unfinished entry on its tile holds a new operation.
pub fn holds(rule: Rule, own_job: u8, new_kind: u64, unfinished: u64) -> bool {
    match rule {
        Rule::Alone => !commutes(new_kind, kind(unfinished)),
        Rule::Together => job(unfinished) != own_job && changes_its_tile(unfinished),
    }
}

/// Whether fewer tile places than are needed are neither used nor reserved.
pub fn lacks_places(session: &Session, places: usize, needed: usize) -> bool {
    session.tiles + session.spoken + needed > places
}

pub fn perform(
    session: &mut Session,
    tiles: &mut [u32],
    operations: &mut [u64],
    origin: Origin,
    admitted: Admitted,
) {
    let Admitted {
        kind,
        key,
        place,
        was_deleted,
    } = admitted;
    operations[session.operations] = entry(kind, origin, key);
    session.operations += 1;
    match kind {
        INSERTED => {
            insert_at(session, tiles, place, key);
            session.spoken -= usize::from(was_deleted);
        }
        DELETED => {
            remove_at(session, tiles, place);
            session.spoken += 1;
        }
        _ => {}
    }
}

fn insert_at(session: &mut Session, tiles: &mut [u32], place: usize, key: u32) {
    tiles.copy_within(place..session.tiles, place + 1);
    tiles[place] = key;
    session.count_in(key);
}

fn remove_at(session: &mut Session, tiles: &mut [u32], place: usize) {
    let key = tiles[place];
    tiles.copy_within(place + 1..session.tiles, place);
    session.count_out(key);
    tiles[session.tiles] = 0;
}

/// Undoes what a job changed: at once where that is much, which asks for two passes over the tiles.
pub fn undo(session: &mut Session, tiles: &mut [u32], operations: &[u64], ending: u8) {
    let entries = &operations[..session.operations];
    // both are asked, so that the count can be vectorised
    let is_own = |&&e: &&u64| (job(e) == ending) & changes_its_tile(e);
    if entries.iter().filter(is_own).count() < MANY {
        undo_each(session, tiles, operations, ending);
    } else {
        undo_at_once(session, tiles, operations, ending);
    }
}

/// Runs the recoveries of a job's entries, newest first.
pub fn undo_each(session: &mut Session, tiles: &mut [u32], operations: &[u64], ending: u8) {
    let entries = &operations[..session.operations];
    for &e in entries.iter().rev().filter(|&&e| job(e) == ending) {
        match (kind(e), tiles[..session.tiles].binary_search(&key(e))) {
            (INSERTED, Ok(place)) => remove_at(session, tiles, place),
            (DELETED, Err(place)) => insert_at(session, tiles, place, key(e)),
            _ => {}
        }
    }
}

/// Takes a job's entries away, with the places that they reserve, and closes it.
pub fn close(session: &mut Session, operations: &mut [u64], ending: u8) {
    let used = session.operations;
    let taken_back = match session.rule {
        Rule::Alone => 0,
        Rule::Together => chains::taken_back(&operations[..used], ending),
    };
    let mut kept = 0;
    let mut deletes = 0;
    for at in 0..used {
        let entry = operations[at];
        if job(entry) == ending {
            deletes += usize::from(kind(entry) == DELETED);
        } else {
            operations[kept] = entry;
            kept += 1;
        }
    }
    session.spoken -= deletes - taken_back;
    operations[kept..used].fill(0);
    session.operations = kept;
    session.marks[usize::from(ending)] = false;
}
