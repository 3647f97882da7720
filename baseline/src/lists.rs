//! The operations of a rectangle: judged as a whole, and performed in one pass. Its tiles differ,
//! so that each is judged on the tables as they stand.

use crate::engine::{holds, lacks_places};
use crate::entry::{
    changes_its_tile, entry, key, kind, kind_of, origin, Origin, DELETED, INSERTED,
};
use crate::journal::Procedure;
use crate::rectangle::Listed;
use crate::reply::Refusal;
use crate::session::Session;

/// What a tile of the list meets.
struct Met {
    kind: u64,
    holder: Option<Origin>,
    was_deleted: bool,
}

impl Met {
    /// A tile that was deleted has a place reserved; by the first rule it is held.
    fn needs_place(&self) -> bool {
        self.kind == INSERTED && !self.was_deleted
    }

    fn takes_reserved(&self) -> bool {
        self.kind == INSERTED && self.was_deleted
    }
}

/// Entries to be made, of which none is held or lacks room.
pub struct AdmittedList {
    entries: Vec<u64>,
    /// So many of them insert a tile that has a place reserved.
    takes_reserved: usize,
}

pub fn admit_all(
    session: &Session,
    tiles: &[u32],
    operations: &[u64],
    origin: Origin,
    procedure: Procedure,
    list: &Listed,
) -> Result<AdmittedList, Refusal> {
    let (entries, unused) = operations.split_at(session.operations);
    let met = met_by(session, tiles, entries, origin.job, procedure, list);
    if let Some(holder) = met.iter().find_map(|tile| tile.holder) {
        return Err(Refusal::Held(holder));
    }
    let needed = met.iter().filter(|tile| tile.needs_place()).count();
    if lacks_places(session, tiles.len(), needed) {
        return Err(Refusal::NoTileRoom);
    }
    if unused.len() < list.keys.len() {
        return Err(Refusal::NoOperationRoom);
    }
    let tiles = met.iter().zip(&list.keys);
    let admitted = tiles.map(|(tile, &key)| entry(tile.kind, origin, key));
    Ok(AdmittedList {
        entries: admitted.collect(),
        takes_reserved: met.iter().filter(|tile| tile.takes_reserved()).count(),
    })
}

/// What the tiles of the list meet, found by one pass over the entries.
fn met_by(
    session: &Session,
    tiles: &[u32],
    entries: &[u64],
    own_job: u8,
    procedure: Procedure,
    list: &Listed,
) -> Vec<Met> {
    let used = &tiles[..session.tiles];
    let as_found = |key: &u32| Met {
        kind: kind_of(procedure, used.binary_search(key).is_ok()),
        holder: None,
        was_deleted: false,
    };
    let mut met: Vec<Met> = list.keys.iter().map(as_found).collect();
    for &e in entries {
        if let Some(place) = list.place_of(key(e)) {
            let tile = &mut met[place];
            if tile.holder.is_none() && holds(session.rule, own_job, tile.kind, e) {
                tile.holder = Some(origin(e));
            }
            tile.was_deleted |= kind(e) == DELETED;
        }
    }
    met
}

/// Makes the entries, all of one procedure, and does to the tiles what they say.
pub fn perform_all(
    session: &mut Session,
    tiles: &mut [u32],
    operations: &mut [u64],
    procedure: Procedure,
    admitted: AdmittedList,
) {
    let entries = admitted.entries;
    operations[session.operations..][..entries.len()].copy_from_slice(&entries);
    session.operations += entries.len();
    let changing = entries.iter().filter(|&&e| changes_its_tile(e));
    let mut changed: Vec<u32> = changing.map(|&e| key(e)).collect();
    changed.sort_unstable();
    match procedure {
        Procedure::Insert => {
            insert_all(session, tiles, &changed);
            session.spoken -= admitted.takes_reserved;
        }
        Procedure::Delete => {
            remove_all(session, tiles, &changed);
            session.spoken += changed.len();
        }
        Procedure::Member => {}
    }
}

/// Puts absent keys in, which are in order: from the last to the first, those above it move up.
fn insert_all(session: &mut Session, tiles: &mut [u32], keys: &[u32]) {
    let mut above = session.tiles;
    for (at, &new_key) in keys.iter().enumerate().rev() {
        let place = tiles[..above].partition_point(|&other| other < new_key);
        tiles.copy_within(place..above, place + at + 1);
        tiles[place + at] = new_key;
        above = place;
        session.count_in(new_key);
    }
}

/// Takes present keys out, which are in order: those between each and the next move down.
fn remove_all(session: &mut Session, tiles: &mut [u32], keys: &[u32]) {
    let used = session.tiles;
    let mut from = 0;
    for (removed, &old_key) in keys.iter().enumerate() {
        let place = from + tiles[from..used].partition_point(|&other| other < old_key);
        tiles.copy_within(from..place, from - removed);
        from = place + 1;
        session.count_out(old_key);
    }
    tiles.copy_within(from..used, from - keys.len());
    tiles[session.tiles..used].fill(0);
}
