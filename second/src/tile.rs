//! Tiles, the keys that stand for them, and the way to them from a column and a row.

use crate::edition::Edition;
use std::ops::RangeInclusive;

const LOWEST_ZOOM: u32 = 4;
const HIGHEST_ZOOM: u32 = 14;

/// The zooms that are served, a level each.
pub const ZOOMS: RangeInclusive<u8> = LOWEST_ZOOM as u8..=HIGHEST_ZOOM as u8;
pub const LEVELS_SERVED: usize = (HIGHEST_ZOOM - LOWEST_ZOOM + 1) as usize;

const ZOOM_STEP: u32 = 268_435_456;
const COLUMN_STEP: u32 = 16_384;

/// A tile of the world. The fields stand in the order of the key's digits, so the derived order
/// of tiles is the order of their keys.
#[derive(Clone, Copy, Debug, PartialEq, Eq, PartialOrd, Ord)]
pub struct Tile {
    zoom: u32,
    column: u32,
    row: u32,
}

/// The number of columns, and of rows, of a level; none for a level that is not served.
pub fn side_of(zoom: u32) -> Option<u32> {
    if (LOWEST_ZOOM..=HIGHEST_ZOOM).contains(&zoom) {
        Some(1 << zoom)
    } else {
        None
    }
}

/// The place of a zoom's count among the counts of all levels; none for a zoom that is none.
pub fn level_place(zoom: u8) -> Option<usize> {
    let mut zooms = ZOOMS;
    zooms.position(|served| served == zoom)
}

/// What an address leads to: a tile, and how many whole turns round the world lie between its
/// column and the tile's, below 0 westward.
#[derive(Clone, Copy, Debug, PartialEq, Eq)]
pub struct Reached {
    pub tile: Tile,
    pub turns: i32,
}

impl Reached {
    /// Every column is accepted and taken round the world; the row is counted as the edition does.
    pub fn at(edition: Edition, zoom: u8, column: i32, row: i32) -> Option<Reached> {
        let zoom = u32::from(zoom);
        let side = side_of(zoom)?;
        let row = edition.north_row(row, side)?;
        let (turns, column) = round_the_world(column, side)?;
        let tile = Tile { zoom, column, row };
        Some(Reached { tile, turns })
    }
}

/// The whole turns that a column makes, and the column of the level that it is then.
fn round_the_world(column: i32, side: u32) -> Option<(i32, u32)> {
    // In 64 bits the remainder is never negative and the smallest column has no overflow.
    let (column, side) = (i64::from(column), i64::from(side));
    let turns = i32::try_from(column.div_euclid(side)).ok()?;
    let column = u32::try_from(column.rem_euclid(side)).ok()?;
    Some((turns, column))
}

impl Tile {
    /// The tile in a row counted from the north, however often its column goes round.
    pub fn at(zoom: u8, column: i32, row: i32) -> Option<Tile> {
        Reached::at(Edition::FromNorth, zoom, column, row).map(|reached| reached.tile)
    }

    /// The tile a key stands for; none for a number that is no key.
    pub fn from_key(key: u32) -> Option<Tile> {
        let zoom = key / ZOOM_STEP;
        let column = key % ZOOM_STEP / COLUMN_STEP;
        let row = key % COLUMN_STEP;
        let side = side_of(zoom)?;
        if column < side && row < side {
            Some(Tile { zoom, column, row })
        } else {
            None
        }
    }

    pub fn key(self) -> u32 {
        self.zoom * ZOOM_STEP + self.column * COLUMN_STEP + self.row
    }

    pub fn zoom(self) -> u32 {
        self.zoom
    }

    /// The place of its level's count.
    pub fn level_place(self) -> usize {
        (self.zoom - LOWEST_ZOOM) as usize
    }

    /// The number of columns, and of rows, of its level.
    pub fn side(self) -> u32 {
        1 << self.zoom
    }

    pub fn column(self) -> u32 {
        self.column
    }

    /// Counted from the north.
    pub fn row(self) -> u32 {
        self.row
    }
}
