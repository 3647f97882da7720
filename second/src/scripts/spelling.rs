//! Calls as lines, and tiles as addresses.

use crate::address::Address;
use crate::operation::Origin;
use crate::random::Random;
use crate::rectangle::Rectangle;
use crate::scripts::addresses::either_edition;
use crate::tile::Tile;

/// The numbers of an address, as every line with one has them.
fn numbers(place: Address) -> String {
    let Address {
        edition,
        zoom,
        column,
        row,
    } = place;
    format!("{edition} {zoom} {column} {row}")
}

pub fn address_line(place: Address) -> String {
    format!("address {}", numbers(place))
}

pub fn operation_line(word: &str, origin: Origin, place: Address) -> String {
    let Origin { job, sheet } = origin;
    format!("{} {} {} {}", word, job, sheet, numbers(place))
}

pub fn rectangle_line(word: &str, origin: Origin, rectangle: Rectangle) -> String {
    let Origin { job, sheet } = origin;
    let Rectangle {
        edition,
        zoom,
        west,
        east,
        top,
        bottom,
    } = rectangle;
    format!("{word} {job} {sheet} {edition} {zoom} {west} {east} {top} {bottom}")
}

/// An address of the tile in either edition.
pub fn address_of(random: &mut Random, tile: Tile) -> Address {
    let from_north = Address {
        edition: 2,
        zoom: tile.zoom() as u8,
        column: tile.column() as i32,
        row: tile.row() as i32,
    };
    either_edition(random, from_north)
}
