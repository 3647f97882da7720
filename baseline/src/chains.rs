//! What the second rule asks of the entries. On a tile that was changed, the last that changed it
//! says whether it is there, those that changed it alternate between the two kinds, and all behind
//! the first of them have its job. Each way to decide it answers how many places are reserved: one
//! for each absent tile that an unfinished delete may bring back, whose last change is that delete.

use crate::entry::{changes_its_tile, job, key, kind, DELETED, INSERTED};
use crate::soundness::{is_as_left, slot};
use std::collections::HashMap;

pub fn reserved_by_pairs(tiles: &[u32], entries: &[u64]) -> Option<usize> {
    let mut reserved = 0;
    for (at, &change) in entries.iter().enumerate() {
        if !changes_its_tile(change) {
            continue;
        }
        let later = || entries[at + 1..].iter().filter(|&&e| key(e) == key(change));
        let next = later().find(|&&e| changes_its_tile(e));
        let goes_on = match next {
            Some(&next) => kind(next) != kind(change),
            None => is_as_left(tiles, change),
        };
        if !goes_on || later().any(|&e| job(e) != job(change)) {
            return None;
        }
        reserved += usize::from(next.is_none() && kind(change) == DELETED);
    }
    Some(reserved)
}

pub fn reserved_by_map(tiles: &[u32], entries: &[u64]) -> Option<usize> {
    let mut last_changes: HashMap<u32, u64> = HashMap::with_capacity(entries.len());
    for &e in entries {
        let change = last_changes.get(&key(e));
        if change.map_or(false, |&change| !goes_on(change, e)) {
            return None;
        }
        if changes_its_tile(e) {
            last_changes.insert(key(e), e);
        }
    }
    let deletes = last_changes.values().filter(|&&e| kind(e) == DELETED);
    let are_as_left = last_changes.values().all(|&e| is_as_left(tiles, e));
    Some(deletes.count()).filter(|_| are_as_left)
}

/// The good baseline. From the last entry to the first: the nearest later one that decides goes on
/// from a change, and what is behind that one was looked at before.
pub fn reserved_by_nearest(tiles: &[u32], entries: &[u64]) -> Option<usize> {
    let mut nearest = Nearest::new();
    let mut reserved = 0;
    for (at, &e) in entries.iter().enumerate().rev() {
        let later = &entries[nearest.replace(key(e), at).min(entries.len())..];
        if !changes_its_tile(e) {
            continue;
        }
        match later.iter().find(|&&later| decides(e, later)) {
            Some(&later) if goes_on(e, later) => {}
            None if is_as_left(tiles, e) => reserved += usize::from(kind(e) == DELETED),
            _ => return None,
        }
    }
    Some(reserved)
}

/// Whether a later entry tells if what follows a change is sound: one that is on its tile, and is
/// of another job or changed it as well.
pub fn decides(change: u64, later: u64) -> bool {
    key(later) == key(change) && (job(later) != job(change) || changes_its_tile(later))
}

/// Whether a later entry on the tile of a change may stand there.
pub fn goes_on(change: u64, later: u64) -> bool {
    job(later) == job(change) && kind(later) != kind(change)
}

/// How many of a job's deletes in sound tables reserve no place, for it inserted the tile again.
pub fn taken_back(entries: &[u64], owner: u8) -> usize {
    // both are asked, so that the count can be vectorised
    let is_delete = |&&e: &&u64| (job(e) == owner) & (kind(e) == DELETED);
    let deletes = entries.iter().filter(is_delete).count();
    if deletes == 0 {
        return 0;
    }
    let mut deleted = KeySet::with_room_for(deletes);
    let mut taken_back = 0;
    for &e in entries.iter().filter(|&&e| job(e) == owner) {
        match kind(e) {
            DELETED => deleted.insert(key(e)),
            INSERTED => taken_back += usize::from(deleted.contains(key(e))),
            _ => {}
        }
    }
    taken_back
}

/// For each slot of a hash the place that was put in last: going from the last entry to the first,
/// no entry before it has a key of that slot.
struct Nearest {
    places: [u16; Nearest::SLOTS],
}

impl Nearest {
    const SLOTS: usize = 1 << 14;

    fn new() -> Nearest {
        Nearest {
            places: [u16::MAX; Nearest::SLOTS],
        }
    }

    /// Puts a place in, and answers the one before it: past all others if there was none.
    fn replace(&mut self, key: u32, at: usize) -> usize {
        let place = &mut self.places[slot(key) % Nearest::SLOTS];
        usize::from(std::mem::replace(place, at as u16))
    }
}

/// The keys that were put in, each in the first slot that was free from its own on.
struct KeySet {
    slots: Vec<u32>,
}

impl KeySet {
    const FREE: u32 = 0;

    /// At most half of the slots will be taken.
    fn with_room_for(keys: usize) -> KeySet {
        let slots = vec![KeySet::FREE; (2 * keys).next_power_of_two()];
        KeySet { slots }
    }

    /// Puts a valid key in, if it is not there.
    fn insert(&mut self, key: u32) {
        let at = self.place_of(key);
        self.slots[at] = key;
    }

    fn contains(&self, key: u32) -> bool {
        self.slots[self.place_of(key)] == key
    }

    /// Where a valid key is or would be.
    fn place_of(&self, key: u32) -> usize {
        let last = self.slots.len() - 1;
        let mut at = slot(key) & last;
        while ![KeySet::FREE, key].contains(&self.slots[at]) {
            at = (at + 1) & last;
        }
        at
    }
}
