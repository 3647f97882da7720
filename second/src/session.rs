//! The session record and the lent tables, as plain numbers.

use crate::rule::Rule;
use crate::tile::{level_place, LEVELS_SERVED};

pub const JOBS: usize = 64;
pub const MOST_TILES: usize = 4096;
pub const MOST_OPERATIONS: usize = 1024;
pub const MOST_JOURNAL: usize = 65_536;

/// The three lent buffers. Anything may stand in them.
#[derive(Clone, Debug, Default, PartialEq, Eq)]
pub struct Tables {
    pub tiles: Vec<u32>,
    pub operations: Vec<u64>,
    pub journal: Vec<u8>,
}

impl Tables {
    pub fn lent(tiles: usize, operations: usize, journal: usize) -> Tables {
        Tables {
            tiles: vec![0; tiles],
            operations: vec![0; operations],
            journal: vec![0; journal],
        }
    }
}

/// One open mark for each job, the three counts of what is used, the rule, and the counts that
/// are kept so that nobody has to count.
#[derive(Clone, Debug, PartialEq, Eq)]
pub struct Session {
    pub open: [bool; JOBS],
    pub tiles: u32,
    pub operations: u32,
    pub journal: u32,
    pub rule: Rule,
    /// The tiles of each level, from the lowest zoom on.
    pub levels: [u32; LEVELS_SERVED],
    /// The tile places that unfinished deletes may need back, besides those in use.
    pub spoken: u32,
}

impl Session {
    pub fn empty() -> Session {
        Session {
            open: [false; JOBS],
            tiles: 0,
            operations: 0,
            journal: 0,
            rule: Rule::EachAlone,
            levels: [0; LEVELS_SERVED],
            spoken: 0,
        }
    }

    /// How many tiles of a zoom there are, for the pack screen; 0 for a zoom that is none.
    pub fn tiles_of_zoom(&self, zoom: u8) -> u32 {
        level_place(zoom).map_or(0, |place| self.levels[place])
    }
}

/// A count as a length. A count that does not fit is past every length anyway.
pub fn length_of(count: u32) -> usize {
    usize::try_from(count).unwrap_or(usize::MAX)
}

/// A length as a count. Lent lengths are far below the most that a count can say.
pub fn count_of(length: usize) -> u32 {
    u32::try_from(length).unwrap_or(u32::MAX)
}
