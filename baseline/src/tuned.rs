//! The soundness check tuned by hand: no early exit where a loop can be vectorised, keys tested by
//! a table of masks, and one pass over the entries, from the last to the first.

use crate::chains::{decides, goes_on};
use crate::entry::{changes_its_tile, job, key, kind, DELETED, INSERTED, NOT_SEEN};
use crate::levels::hold_by_stretches;
use crate::rule::Rule;
use crate::session::{Session, MOST_OPERATIONS};
use crate::soundness::{is_as_left, slot, KeyFilter};

/// For each zoom the bits that no key of it has; all of them where the zoom is not served.
const FOREIGN_BITS: [u32; 16] = foreign_bits();

const fn foreign_bits() -> [u32; 16] {
    let mut foreign = [u32::MAX; 16];
    let mut zoom = 4;
    while zoom <= 14 {
        let below_side = (1 << zoom) - 1;
        foreign[zoom] = !(15 << 28 | below_side << 14 | below_side);
        zoom += 1;
    }
    foreign
}

fn is_key(key: u32) -> bool {
    key & FOREIGN_BITS[(key >> 28) as usize] == 0 && key != 0
}

pub fn tables_hold(session: &Session, tiles: &[u32], operations: &[u64]) -> bool {
    let (entries, unused) = operations.split_at(session.operations);
    if !tiles_hold(tiles, session.tiles) || unused.iter().fold(0, |all, &e| all | e) != 0 {
        return false;
    }
    let used = &tiles[..session.tiles];
    if !hold_by_stretches(&session.levels, used) {
        return false;
    }
    let reserved = match session.rule {
        Rule::Alone => reserved_if_last(session, used, entries),
        Rule::Together => reserved_if_chained(session, used, entries),
    };
    reserved == Some(session.spoken) && session.tiles + session.spoken <= tiles.len()
}

pub fn tiles_hold(tiles: &[u32], count: usize) -> bool {
    let (used, unused) = tiles.split_at(count);
    let mut wrong = 0;
    let mut last = 0;
    for &key in used {
        wrong |= key & FOREIGN_BITS[(key >> 28) as usize] | u32::from(key <= last);
        last = key;
    }
    wrong == 0 && unused.iter().fold(0, |all, &key| all | key) == 0
}

fn fits(session: &Session, entry: u64) -> bool {
    (INSERTED..=NOT_SEEN).contains(&kind(entry))
        && session.marks.get(usize::from(job(entry))) == Some(&true)
        && is_key(key(entry))
}

/// How many places the entries reserve by the first rule; none if an entry is not sound.
fn reserved_if_last(session: &Session, tiles: &[u32], entries: &[u64]) -> Option<usize> {
    let mut seen = KeyFilter::new();
    let mut reserved = 0;
    let mut wrong = false;
    for (at, &entry) in entries.iter().enumerate().rev() {
        if !fits(session, entry) {
            return None;
        }
        let was_seen = seen.insert(key(entry));
        if changes_its_tile(entry) {
            // asked at the end: a branch for each search was measured to be slower
            wrong |= !is_as_left(tiles, entry);
            if was_seen && !is_last(entries, at) {
                return None;
            }
            reserved += usize::from(kind(entry) == DELETED);
        }
    }
    Some(reserved).filter(|_| !wrong)
}

/// The same by the second rule.
fn reserved_if_chained(session: &Session, tiles: &[u32], entries: &[u64]) -> Option<usize> {
    let mut links = Links::new();
    let mut reserved = 0;
    let mut wrong = false;
    for (at, &entry) in entries.iter().enumerate().rev() {
        if !fits(session, entry) {
            return None;
        }
        let later = links.put(key(entry), at);
        if !changes_its_tile(entry) {
            continue;
        }
        match links.find(later, entries, |later| decides(entry, later)) {
            Some(later) => wrong |= !goes_on(entry, later),
            None => {
                wrong |= !is_as_left(tiles, entry);
                reserved += usize::from(kind(entry) == DELETED);
            }
        }
    }
    Some(reserved).filter(|_| !wrong)
}

/// Whether no entry behind this one has its tile; it looks at all, several at a time.
fn is_last(entries: &[u64], at: usize) -> bool {
    let own = key(entries[at]);
    let later = entries[at + 1..].iter();
    !later.fold(false, |found, &e| found | (key(e) == own))
}

/// The entries that were put in, linked for each slot of a hash, the nearest first.
struct Links {
    firsts: [u16; Links::SLOTS],
    nexts: [u16; MOST_OPERATIONS],
}

impl Links {
    const SLOTS: usize = 1 << 12;
    const NONE: u16 = u16::MAX;

    fn new() -> Links {
        Links {
            firsts: [Links::NONE; Links::SLOTS],
            nexts: [Links::NONE; MOST_OPERATIONS],
        }
    }

    /// Puts an entry in, and answers where those begin that its slot had before.
    fn put(&mut self, key: u32, at: usize) -> u16 {
        let first = &mut self.firsts[slot(key) % Links::SLOTS];
        let before = std::mem::replace(first, at as u16);
        self.nexts[at] = before;
        before
    }

    /// The first entry of a slot from there on that is the one.
    fn find(&self, mut at: u16, entries: &[u64], is_it: impl Fn(u64) -> bool) -> Option<u64> {
        while at != Links::NONE {
            let entry = entries[usize::from(at)];
            if is_it(entry) {
                return Some(entry);
            }
            at = self.nexts[usize::from(at)];
        }
        None
    }
}
