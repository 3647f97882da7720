//! Blocks of tiles for jobs with many entries. Below each of them lie tiles that only another job
//! changes, and tiles that nobody does.

use crate::random::Random;
use crate::rectangle::Rectangle;
use crate::scripts::addresses::{last_row, EDITIONS};
use crate::scripts::deeds::{Deed, Found};
use crate::scripts::rectangles::sized;
use crate::tile::Tile;

/// The lowest zoom at which the widest block fits, and any block with what lies below it.
pub const LOWEST_ZOOM: usize = 6;
const MOST_NORTH: usize = 40;

/// Rows below a block: one that stays, two that another job changes, of which the first is there
/// at the beginning, and one that stays free.
const STAYING: i32 = 0;
const OTHERS: [i32; 2] = [1, 2];
const FREE: i32 = 3;

pub struct Block {
    zoom: u8,
    west: i32,
    north: i32,
    width: i32,
    height: i32,
    deed: Deed,
}

impl Block {
    /// A block that comes to about so many entries.
    pub fn of(random: &mut Random, zoom: u8, west: i32, entries: usize, deed: Deed) -> Block {
        let tiles = (entries / deed.1.len()).max(1) as i32;
        let height = random.pick(&[4, 8, 16]).min(tiles);
        Block {
            zoom,
            west,
            north: random.between(0, MOST_NORTH) as i32,
            width: tiles / height,
            height,
            deed,
        }
    }

    pub fn words(&self) -> &'static [&'static str] {
        self.deed.1
    }

    /// The tile places that the block and what lies below it need at most.
    pub fn places(&self) -> usize {
        (self.width * (self.height + FREE)) as usize
    }

    /// So many rows from one of them on, in either edition.
    fn rows(&self, random: &mut Random, first: i32, height: i32) -> Rectangle {
        let edition = random.pick(&EDITIONS);
        let north = self.north + first;
        let row = if edition == 1 {
            last_row(self.zoom) - (north + height - 1)
        } else {
            north
        };
        sized(edition, self.zoom, (self.west, row), self.width, height)
    }

    pub fn whole(&self, random: &mut Random) -> Rectangle {
        self.rows(random, 0, self.height)
    }

    /// The tiles of the block in the order of their keys.
    pub fn tiles(&self, random: &mut Random) -> Vec<Tile> {
        let mut tiles = self.whole(random).tiles().unwrap_or_default();
        tiles.sort();
        tiles
    }

    /// What is there before the job begins.
    pub fn beginning(&self, random: &mut Random) -> Vec<Rectangle> {
        let found = match self.deed.0 {
            Found::Nothing => 0,
            Found::Half => self.height / 2,
            Found::All => self.height,
        };
        let below = self.rows(random, self.height + STAYING, 2);
        let inside = Some(found).filter(|rows| *rows > 0);
        let inside = inside.map(|rows| self.rows(random, 0, rows));
        inside.into_iter().chain([below]).collect()
    }

    fn below(&self, random: &mut Random, row: i32) -> Option<Tile> {
        let column = self.west + random.below(self.width as usize) as i32;
        Tile::at(self.zoom, column, self.north + self.height + row)
    }

    /// A tile that another job may change.
    pub fn others_tile(&self, random: &mut Random) -> Option<Tile> {
        let row = random.pick(&OTHERS);
        self.below(random, row)
    }

    /// A tile that no job changes.
    pub fn unchanged_tile(&self, random: &mut Random) -> Option<Tile> {
        let row = random.pick(&[STAYING, FREE]);
        self.below(random, row)
    }
}
