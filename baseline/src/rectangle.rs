//! Rectangles of tiles, from a west to an east column and from a top to a bottom row.

use crate::journal::Procedure;
use crate::reply::Refusal;
use crate::tile::{Address, FROM_SOUTH};
use std::iter::from_fn;

pub const MOST_LISTED: usize = 256;

/// What is done to each tile.
#[derive(Clone, Copy, Debug, PartialEq, Eq)]
pub enum Change {
    Insert = 1,
    Delete = 2,
}

impl Change {
    pub const ALL: [Change; 2] = [Change::Insert, Change::Delete];

    pub fn procedure(self) -> Procedure {
        match self {
            Change::Insert => Procedure::Insert,
            Change::Delete => Procedure::Delete,
        }
    }
}

#[derive(Clone, Copy, Debug, PartialEq, Eq)]
pub struct Rectangle {
    pub edition: u8,
    pub zoom: u8,
    pub west: i32,
    pub east: i32,
    pub top: i32,
    pub bottom: i32,
}

impl Rectangle {
    /// Its tiles from west to east, in each column from top to bottom.
    pub fn addresses(self) -> impl Iterator<Item = Address> {
        let columns = self.west..=self.east;
        columns.flat_map(move |column| self.rows().map(move |row| self.address(column, row)))
    }

    /// Its rows from top to bottom: from the south, they count down.
    fn rows(self) -> impl Iterator<Item = i32> {
        let counts_down = self.edition == FROM_SOUTH;
        let mut rows = match counts_down {
            true => self.bottom..=self.top,
            false => self.top..=self.bottom,
        };
        from_fn(move || match counts_down {
            true => rows.next_back(),
            false => rows.next(),
        })
    }

    fn address(self, column: i32, row: i32) -> Address {
        Address {
            edition: self.edition,
            zoom: self.zoom,
            column,
            row,
        }
    }

    /// The keys of its tiles, if it is on a level and has each tile once, and not too many.
    pub fn list(self) -> Result<Listed, Refusal> {
        let (first, turns) = self.corner(self.west, self.top)?;
        let (last, last_turns) = self.corner(self.east, self.bottom)?;
        let (width, height) = (extent(self.west, self.east), extent(first.row, last.row));
        let is_wider = width > 1 << self.zoom;
        if width < 1 || height < 1 || is_wider || width * height > MOST_LISTED as i64 {
            return Err(Refusal::Misshapen);
        }
        Ok(Listed {
            keys: self.addresses().filter_map(Address::key).collect(),
            corner: first,
            height: height as i32,
            turns: [turns, last_turns],
        })
    }

    /// The address of a corner's key, and its turns.
    fn corner(self, column: i32, row: i32) -> Result<(Address, i32), Refusal> {
        let (key, turns) = self.address(column, row).key_and_turns()?;
        Ok((Address::of_key(key), turns))
    }
}

/// How many there are from the first to the last, which may be more than 32 bits hold.
fn extent(first: i32, last: i32) -> i64 {
    i64::from(last) - i64::from(first) + 1
}

/// The keys of a rectangle in their order, and the turns of its first column and of its last.
pub struct Listed {
    pub keys: Vec<u32>,
    pub turns: [i32; 2],
    corner: Address,
    height: i32,
}

impl Listed {
    /// Where a valid key stands in the list.
    pub fn place_of(&self, key: u32) -> Option<usize> {
        let tile = Address::of_key(key);
        let columns = (tile.column - self.corner.column).rem_euclid(1 << tile.zoom);
        let rows = tile.row - self.corner.row;
        let is_beside = tile.zoom == self.corner.zoom && (0..self.height).contains(&rows);
        let place = (columns * self.height + rows) as usize;
        Some(place).filter(|&place| is_beside && place < self.keys.len())
    }
}
