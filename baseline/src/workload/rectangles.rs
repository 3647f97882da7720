//! Rectangles: any near some tiles, and those of the most tiles on tables with room for just them.

use super::counts::recount;
use super::editions::{any_edition, rows_from_south};
use super::packs::Sort;
use super::random::Random;
use super::turns::turned;
use super::world::World;
use crate::entry::key;
use crate::journal::{JOB_RECORD, OPERATION_RECORD};
use crate::rectangle::{Change, Rectangle, MOST_LISTED};
use crate::rule::Rule;
use crate::tile::{Address, FROM_NORTH};
use std::collections::HashSet;

/// One near one of these tiles or at a bound, from either end, or now and then of any edition.
pub fn any_rectangle(random: &mut Random, keys: &[u32]) -> Rectangle {
    let near = near_a_tile(random, keys);
    let from_north = match random.below(4) {
        0 => at_a_bound(random, near),
        _ => near,
    };
    let rectangle = from_either_end(random, from_north);
    let edition = match random.below(16) {
        0 => any_edition(random),
        _ => rectangle.edition,
    };
    Rectangle {
        edition,
        ..rectangle
    }
}

fn from_either_end(random: &mut Random, from_north: Rectangle) -> Rectangle {
    if random.one_in(2) {
        rows_from_south(from_north)
    } else {
        from_north
    }
}

/// A small one near one of these tiles or, beside it, near the seam, and often some turns away.
fn near_a_tile(random: &mut Random, keys: &[u32]) -> Rectangle {
    let tile = Address::of_key(random.pick(keys));
    let (zoom, column, row) = (tile.zoom, tile.column, tile.row);
    // the last columns of two turns: from one of them on, a rectangle goes into the next turn
    let column = random.pick(&[column, column, column, -1, (1 << zoom) - 1]);
    let column = turned(random, zoom, column);
    let mut below = |bound| random.below(bound) as i32;
    let (west, top) = (column.saturating_sub(below(2)), row - below(2));
    Rectangle {
        edition: FROM_NORTH,
        zoom,
        west,
        east: west.saturating_add(below(3)),
        top,
        bottom: top + below(3),
    }
}

fn at_a_bound(random: &mut Random, of: Rectangle) -> Rectangle {
    let (zoom, top, side) = (random.below(17) as u8, of.top, 1 << of.zoom);
    let (first, last) = (i32::MIN, i32::MAX);
    let more = random.below(2) as i32;
    let bounds = [
        Rectangle { zoom, ..of },
        Rectangle { top: -1, ..of },
        with_rows(of, top, side),
        with_rows(of, first, last),
        with_rows(of, top, top - 1),
        with_width(of, 0),
        with_columns(of, first, last),
        with_columns(of, first, first + more),
        with_columns(of, last - more, last),
        // out of the first turn that 32 bits hold, and into the last
        with_columns(of, first + side - 1, first + side),
        with_columns(of, last - side, last - side + 1),
        // 256 and 257 tiles, in one column and in one row
        with_rows(with_width(of, 1), 0, 255 + more),
        with_rows(with_width(of, 256 + more), top, top),
        // as wide as the level and one wider
        with_rows(with_width(Rectangle { zoom: 4, ..of }, 16 + more), 14, 15),
    ];
    random.pick(&bounds)
}

/// From its west column on, as far as 32 bits go.
fn with_width(of: Rectangle, width: i32) -> Rectangle {
    with_columns(of, of.west, of.west.saturating_add(width - 1))
}

fn with_columns(of: Rectangle, west: i32, east: i32) -> Rectangle {
    Rectangle { west, east, ..of }
}

fn with_rows(of: Rectangle, top: i32, bottom: i32) -> Rectangle {
    Rectangle { top, bottom, ..of }
}

/// All tiles of a level.
pub fn level_of(zoom: u8) -> Rectangle {
    let last = (1 << zoom) - 1;
    Rectangle {
        edition: FROM_NORTH,
        zoom,
        west: 0,
        east: last,
        top: 0,
        bottom: last,
    }
}

/// A pack with room for just the most tiles, and a rectangle of so many across the seam, which no
/// entry has and which are all absent before an insert, and all present before a delete.
pub fn roomy_pack(rule: Rule, change: Change, seed: u64) -> (World, Rectangle) {
    let mut world = Sort::Roomy.pack(rule, seed);
    let ends = JOB_RECORD * world.session.open_jobs();
    world
        .journal
        .truncate(OPERATION_RECORD * MOST_LISTED + ends);
    let entries = &world.operations[..world.session.operations];
    let mut avoided: HashSet<u32> = entries.iter().map(|&e| key(e)).collect();
    let used = &mut world.tiles[..world.session.tiles];
    if change == Change::Insert {
        avoided.extend(used.iter());
    }
    let rectangle = square_without(&avoided, seed);
    if change == Change::Delete {
        put_in(used, &avoided, rectangle);
        recount(&mut world);
    }
    (world, rectangle)
}

/// A square across the seam, at one of the levels 8 to 14, with none of these tiles.
fn square_without(avoided: &HashSet<u32>, seed: u64) -> Rectangle {
    let mut random = Random::seeded(seed);
    loop {
        let square = square_on_seam(&mut random, 8 + (seed % 7) as u8);
        let mut keys = square.addresses().filter_map(Address::key);
        if !keys.any(|key| avoided.contains(&key)) {
            return square;
        }
    }
}

fn square_on_seam(random: &mut Random, zoom: u8) -> Rectangle {
    let side = 1 << zoom;
    let (west, top) = (
        -(random.below(15) as i32) - 1,
        random.below(side - 15) as i32,
    );
    let square = with_rows(with_columns(level_of(zoom), west, west + 15), top, top + 15);
    from_either_end(random, square)
}

/// Puts the rectangle's tiles in the place of others that no entry has.
fn put_in(tiles: &mut [u32], entered: &HashSet<u32>, rectangle: Rectangle) {
    let keys: HashSet<u32> = rectangle.addresses().filter_map(Address::key).collect();
    let (mut kept, free): (Vec<u32>, Vec<u32>) = tiles
        .iter()
        .filter(|&tile| !keys.contains(tile))
        .partition(|&tile| entered.contains(tile));
    let left = tiles.len() - keys.len() - kept.len();
    kept.extend((0..left).map(|n| free[n * free.len() / left]));
    kept.extend(keys);
    kept.sort_unstable();
    tiles.copy_from_slice(&kept);
}
