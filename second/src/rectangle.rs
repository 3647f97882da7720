//! Rectangles of tiles, as one call gives them.

use crate::address::{address_step, Address};
use crate::operation::Procedure;
use crate::reply::{Refusal, Span};
use crate::tile::{Reached, Tile};

/// The most tiles of a rectangle.
pub const MOST_LISTED: usize = 256;

/// What a call does with every tile of a rectangle.
#[derive(Clone, Copy, Debug, PartialEq, Eq)]
pub enum Sweep {
    Insert,
    Delete,
}

pub const SWEEPS: [Sweep; 2] = [Sweep::Insert, Sweep::Delete];

impl Sweep {
    pub fn procedure(self) -> Procedure {
        match self {
            Sweep::Insert => Procedure::Insert,
            Sweep::Delete => Procedure::Delete,
        }
    }
}

/// From a west to an east column and from a top to a bottom row, all four included. The columns
/// are taken round the world; the rows are counted as the edition does, so that from the south the
/// top row has the larger number.
#[derive(Clone, Copy, Debug, PartialEq, Eq)]
pub struct Rectangle {
    pub edition: u8,
    pub zoom: u8,
    pub west: i32,
    pub east: i32,
    pub top: i32,
    pub bottom: i32,
}

/// The tiles of a rectangle west to east, in each column from top to bottom, and the turns of its
/// west and of its east column.
#[derive(Clone, Debug, PartialEq, Eq)]
pub struct List {
    pub tiles: Vec<Tile>,
    pub turns: Span,
}

impl Rectangle {
    pub fn tiles(self) -> Result<Vec<Tile>, Refusal> {
        self.list().map(|list| list.tiles)
    }

    pub fn list(self) -> Result<List, Refusal> {
        // The edition and both rows are tested here, before anything else is judged.
        let first = self.corner(self.west, self.top)?;
        let last = self.corner(self.east, self.bottom)?;
        let (top, bottom) = (first.tile.row(), last.tile.row());
        let width = extent(i64::from(self.west), i64::from(self.east));
        let height = extent(i64::from(top), i64::from(bottom));
        let listed = |count: u64| (1..=MOST_LISTED as u64).contains(&count);
        // The width is judged first, so that the product is small.
        if width > u64::from(first.tile.side()) || !listed(width * height) {
            return Err(Refusal::WrongRectangle);
        }
        let columns = self.west..=self.east;
        let tiles = columns.flat_map(|column| {
            let rows = top..=bottom;
            rows.filter_map(move |row| Tile::at(self.zoom, column, i32::try_from(row).ok()?))
        });
        Ok(List {
            tiles: tiles.collect(),
            turns: Span {
                first: first.turns,
                last: last.turns,
            },
        })
    }

    fn corner(self, column: i32, row: i32) -> Result<Reached, Refusal> {
        let Rectangle { edition, zoom, .. } = self;
        address_step(Address {
            edition,
            zoom,
            column,
            row,
        })
    }
}

/// How many numbers there are from the first to the last. Between signed 32-bit numbers that may
/// be more than 32 bits can say.
fn extent(first: i64, last: i64) -> u64 {
    u64::try_from(last - first + 1).unwrap_or(0)
}
