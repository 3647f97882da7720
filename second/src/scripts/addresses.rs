//! Few tiles with many spellings in both editions, most of them where the world closes.

use crate::address::Address;
use crate::random::Random;
use crate::tile::Tile;

const SEAM_COLUMNS: [i32; 13] = [
    -1,
    0,
    15,
    16,
    -16,
    -17,
    31,
    1,
    70_000,
    i32::MIN,
    i32::MAX,
    i32::MIN + 15,
    i32::MAX - 15,
];

pub const LEVELS: [u8; 11] = [4, 5, 6, 7, 8, 9, 10, 11, 12, 13, 14];

pub const EDITIONS: [u8; 2] = [1, 2];

/// The addresses one episode speaks of.
pub struct Pool {
    addresses: Vec<Address>,
}

pub fn last_row(zoom: u8) -> i32 {
    (1 << zoom) - 1
}

/// A byte that stands for no edition.
pub fn no_edition(random: &mut Random) -> u8 {
    let stray = random.byte().max(3);
    random.pick(&[0, 3, 255, 128, stray])
}

/// The address of the same tile in the other edition.
pub fn in_other_edition(address: Address) -> Address {
    Address {
        edition: 3 - address.edition,
        row: last_row(address.zoom) - address.row,
        ..address
    }
}

pub fn either_edition(random: &mut Random, address: Address) -> Address {
    if random.one_in(2) {
        address
    } else {
        in_other_edition(address)
    }
}

/// Columns of a level where a turn begins or ends, also the first turn and the last.
pub fn ends_of_turns(zoom: u8) -> [i32; 12] {
    let side = last_row(zoom) + 1;
    [
        i32::MIN,
        i32::MIN + (side - 1),
        i32::MIN + side,
        -side - 1,
        -side,
        -1,
        0,
        side - 1,
        side,
        i32::MAX - side,
        i32::MAX - (side - 1),
        i32::MAX,
    ]
}

fn edge_column(random: &mut Random, zoom: u8) -> i32 {
    if random.one_in(2) {
        random.pick(&ends_of_turns(zoom))
    } else {
        random.pick(&SEAM_COLUMNS)
    }
}

/// Any level, and half of the time the smallest, where the same tiles are met most often.
pub fn some_level(random: &mut Random) -> u8 {
    if random.one_in(2) {
        4
    } else {
        random.pick(&LEVELS)
    }
}

fn any_served(random: &mut Random) -> Address {
    let zoom = some_level(random);
    let row = match random.below(4) {
        0 => 0,
        1 => last_row(zoom),
        _ => 5,
    };
    let from_north = Address {
        edition: 2,
        zoom,
        column: edge_column(random, zoom),
        row,
    };
    either_edition(random, from_north)
}

/// Any column and any row of any level.
pub fn anywhere(random: &mut Random) -> Address {
    let zoom = random.pick(&LEVELS);
    Address {
        edition: random.pick(&EDITIONS),
        zoom,
        column: random.word() as i32,
        row: i32::try_from(random.below(1 << zoom)).unwrap_or(0),
    }
}

/// An address that is refused by its edition, its zoom or its row, or by several of them.
pub fn refused(random: &mut Random) -> Address {
    let mut address = any_served(random);
    let wrong = random.pick(&[1, 1, 2, 2, 3, 3, 4, 5, 6, 7]);
    if wrong & 1 != 0 {
        let side = last_row(address.zoom) + 1;
        address.row = random.pick(&[-1, side, side + 1, 16_384, i32::MIN, i32::MAX]);
    }
    if wrong & 2 != 0 {
        address.zoom = random.pick(&[0, 1, 3, 15, 16, 31, 32, 36, 255]);
    }
    if wrong & 4 != 0 {
        address.edition = no_edition(random);
    }
    address
}

impl Pool {
    /// A pool that names few tiles: one or two addresses, and the same rows all round the seam, in
    /// both editions.
    pub fn few(random: &mut Random) -> Pool {
        let first = any_served(random);
        let mut addresses = vec![first];
        for _ in 0..random.between(1, 5) {
            let column = edge_column(random, first.zoom);
            addresses.push(either_edition(random, Address { column, ..first }));
        }
        if random.one_in(2) {
            addresses.push(any_served(random));
        }
        Pool { addresses }
    }

    /// Mostly one of the pool, now and then one that is refused or a stray one.
    pub fn any(&self, random: &mut Random) -> Address {
        match random.below(24) {
            0 => refused(random),
            1 => any_served(random),
            2 => anywhere(random),
            _ => random.pick(&self.addresses),
        }
    }

    /// The tiles the pool names, in order.
    pub fn tiles(&self) -> Vec<Tile> {
        let named = self.addresses.iter();
        let mut tiles: Vec<Tile> = named.filter_map(|address| address.tile()).collect();
        tiles.sort();
        tiles.dedup();
        tiles
    }

    /// A random part of the tiles the pool names.
    pub fn some_tiles(&self, random: &mut Random) -> Vec<Tile> {
        let mut tiles = self.tiles();
        tiles.retain(|_| random.one_in(2));
        tiles
    }
}

/// The n-th tile of a long ascending run, for filling tables.
pub fn nth_tile(n: usize) -> Option<Tile> {
    let column = i32::try_from(n / 64).ok()?;
    let row = i32::try_from(n % 64).ok()?;
    Tile::at(7, column, row)
}
