//! Addresses as calls give them, and the address step.

use crate::edition::Edition;
use crate::reply::Refusal;
use crate::tile::{Reached, Tile};

/// Any byte may stand for the edition and for the zoom.
#[derive(Clone, Copy, Debug, PartialEq, Eq)]
pub struct Address {
    pub edition: u8,
    pub zoom: u8,
    pub column: i32,
    pub row: i32,
}

impl Address {
    /// The tile there; none where the address step refuses.
    pub fn tile(self) -> Option<Tile> {
        address_step(self).ok().map(|reached| reached.tile)
    }
}

/// The address step: the tile, which has the key, and the turns to it, or refusal 14 or 5.
pub fn address_step(address: Address) -> Result<Reached, Refusal> {
    let edition = Edition::from_number(address.edition).ok_or(Refusal::UnknownEdition)?;
    let Address {
        zoom, column, row, ..
    } = address;
    Reached::at(edition, zoom, column, row).ok_or(Refusal::OutsideRange)
}
