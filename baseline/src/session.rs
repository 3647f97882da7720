//! The session record and the lent tables.

use crate::levels::{counted, level_of, place_of_zoom, Levels};
use crate::rule::Rule;

pub const JOBS: usize = 64;
pub const MOST_TILES: usize = 4_096;
pub const MOST_OPERATIONS: usize = 1_024;
pub const MOST_JOURNAL: usize = 65_536;

/// The rule, a mark for each open job, how much of each table is used, how many of the tiles each
/// level has, and how many places are spoken for by unfinished deletes.
#[derive(Clone, Copy, Debug, PartialEq, Eq)]
pub struct Session {
    pub rule: Rule,
    pub marks: [bool; JOBS],
    pub tiles: usize,
    pub operations: usize,
    pub journal: usize,
    pub levels: Levels,
    pub spoken: usize,
}

impl Session {
    /// No job open, and nothing used but these tiles, which ascend.
    pub fn fresh(rule: Rule, tiles: &[u32]) -> Session {
        Session {
            rule,
            marks: [false; JOBS],
            tiles: tiles.len(),
            operations: 0,
            journal: 0,
            levels: counted(tiles),
            spoken: 0,
        }
    }

    /// A tile came.
    pub fn count_in(&mut self, key: u32) {
        self.tiles += 1;
        self.levels[level_of(key)] += 1;
    }

    /// A tile went.
    pub fn count_out(&mut self, key: u32) {
        self.tiles -= 1;
        self.levels[level_of(key)] -= 1;
    }

    /// The tiles of a zoom, for the pack screen; a zoom that is not served has none.
    pub fn tiles_of_zoom(&self, zoom: u8) -> usize {
        place_of_zoom(zoom).map_or(0, |level| self.levels[level])
    }

    pub fn open_jobs(&self) -> usize {
        self.marks.iter().filter(|&&open| open).count()
    }

    pub fn is_open(&self, job: u8) -> bool {
        self.marks[usize::from(job)]
    }
}

/// The tables as a caller lends them.
pub struct Tables<'a> {
    pub tiles: &'a mut [u32],
    pub operations: &'a mut [u64],
    pub journal: &'a mut [u8],
}
