//! Rows counted from the south, and editions that count from nowhere.

use super::random::Random;
use crate::rectangle::Rectangle;
use crate::tile::{turned_row, Address, FROM_NORTH, FROM_SOUTH};

/// The same tile, counted from the south.
pub fn from_south(of: Address) -> Address {
    Address {
        edition: FROM_SOUTH,
        row: turned_row(of.zoom, of.row),
        ..of
    }
}

/// The same tiles, counted from the south.
pub fn rows_from_south(of: Rectangle) -> Rectangle {
    Rectangle {
        edition: FROM_SOUTH,
        top: turned_row(of.zoom, of.top),
        bottom: turned_row(of.zoom, of.bottom),
        ..of
    }
}

/// A valid key's address, as often from the south as from the north.
pub fn address_of(random: &mut Random, key: u32) -> Address {
    let address = Address::of_key(key);
    if random.one_in(2) {
        from_south(address)
    } else {
        address
    }
}

/// Either of the two, or one beside them or at the end of a byte.
pub fn any_edition(random: &mut Random) -> u8 {
    random.pick(&[0, FROM_SOUTH, FROM_NORTH, 3, 255])
}
