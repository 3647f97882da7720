//! Tile addresses and their keys, which hold rows from the north only.

use crate::reply::Refusal;

/// The edition of an address whose row counts from the south, and of one from the north.
pub const FROM_SOUTH: u8 = 1;
pub const FROM_NORTH: u8 = 2;

pub const ZOOMS: std::ops::RangeInclusive<u32> = 4..=14;
const ZOOM_SHIFT: u32 = 28;
const COLUMN_SHIFT: u32 = 14;
const LOW_BITS: u32 = (1 << COLUMN_SHIFT) - 1;

#[derive(Clone, Copy, Debug, PartialEq, Eq)]
pub struct Address {
    pub edition: u8,
    pub zoom: u8,
    pub column: i32,
    pub row: i32,
}

impl Address {
    /// The address of a valid key, from the north.
    pub fn of_key(key: u32) -> Address {
        Address {
            edition: FROM_NORTH,
            zoom: zoom_of_key(key) as u8,
            column: (key >> COLUMN_SHIFT & LOW_BITS) as i32,
            row: (key & LOW_BITS) as i32,
        }
    }

    /// The key, if the address has one.
    pub fn key(self) -> Option<u32> {
        self.key_and_turns().map(|(key, _)| key).ok()
    }

    /// The key, with the column taken round the world, and how often it goes round, below 0
    /// westward.
    pub fn key_and_turns(self) -> Result<(u32, i32), Refusal> {
        let zoom = u32::from(self.zoom);
        if !matches!(self.edition, FROM_SOUTH | FROM_NORTH) {
            return Err(Refusal::NoEdition);
        }
        if !ZOOMS.contains(&zoom) || !(0..1 << zoom).contains(&self.row) {
            return Err(Refusal::OutOfRange);
        }
        let side = 1 << zoom;
        let row = match self.edition {
            FROM_SOUTH => turned_row(self.zoom, self.row),
            _ => self.row,
        };
        let column = self.column.rem_euclid(side) as u32;
        let key = zoom << ZOOM_SHIFT | column << COLUMN_SHIFT | row as u32;
        Ok((key, self.column.div_euclid(side)))
    }
}

/// A row of a level counted from its other end; what is no row of it may wrap.
pub fn turned_row(zoom: u8, row: i32) -> i32 {
    ((1i32 << zoom) - 1).wrapping_sub(row)
}

pub fn zoom_of_key(key: u32) -> u32 {
    key >> ZOOM_SHIFT
}

/// Whether a number is the key of some address.
pub fn is_key(key: u32) -> bool {
    let zoom = zoom_of_key(key);
    let side = 1 << zoom;
    ZOOMS.contains(&zoom) && (key >> COLUMN_SHIFT & LOW_BITS) < side && (key & LOW_BITS) < side
}
