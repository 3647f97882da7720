//! How many tiles each level has: the counts that a session keeps, and how they are made anew.

use crate::tile::{zoom_of_key, ZOOMS};
use std::array::from_fn;

pub const LEVELS: usize = 11;

/// The tiles of each zoom, from the lowest.
pub type Levels = [usize; LEVELS];

/// Which count is that of a zoom, if the zoom is served.
pub fn place_of_zoom(zoom: u8) -> Option<usize> {
    let zoom = u32::from(zoom);
    ZOOMS.contains(&zoom).then(|| level_at(zoom))
}

/// Which count a valid key is in.
pub fn level_of(key: u32) -> usize {
    level_at(zoom_of_key(key))
}

fn level_at(served_zoom: u32) -> usize {
    (served_zoom - ZOOMS.start()) as usize
}

pub fn hold_by_pass(levels: &Levels, tiles: &[u32]) -> bool {
    let mut counted = [0; LEVELS];
    for &tile in tiles {
        counted[level_of(tile)] += 1;
    }
    counted == *levels
}

/// The good baseline. Tiles ascend, and so do their levels: what begins and ends with tiles of one
/// level is all of it.
pub fn hold_by_stretches(levels: &Levels, ascending: &[u32]) -> bool {
    let mut rest = ascending;
    for (level, &count) in levels.iter().enumerate() {
        if count > rest.len() {
            return false;
        }
        let (stretch, others) = rest.split_at(count);
        let mut ends = [stretch.first(), stretch.last()].into_iter().flatten();
        if ends.any(|&tile| level_of(tile) != level) {
            return false;
        }
        rest = others;
    }
    rest.is_empty()
}

/// The end of each level is looked for behind the one before.
pub fn counted(ascending: &[u32]) -> Levels {
    let mut rest = ascending;
    from_fn(|level| {
        let count = rest.partition_point(|&tile| level_of(tile) == level);
        rest = &rest[count..];
        count
    })
}
