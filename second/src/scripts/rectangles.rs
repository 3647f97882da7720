//! Rectangles in both editions: few tiles near the others, across the seam, and at the edges of
//! what is taken.

use crate::operation::Origin;
use crate::random::Random;
use crate::rectangle::Rectangle;
use crate::scripts::addresses::{anywhere, ends_of_turns, no_edition, some_level, Pool, EDITIONS};
use crate::scripts::spelling::rectangle_line;
use crate::tile::side_of;

/// Zoom, width and height of rectangles with about as many tiles as are taken.
const LARGE_SHAPES: [(u8, i32, i32); 20] = [
    (4, 16, 16),
    (5, 32, 8),
    (5, 8, 32),
    (5, 16, 16),
    (5, 17, 15),
    (5, 16, 17),
    (5, 32, 9),
    (6, 64, 4),
    (6, 64, 5),
    (8, 256, 1),
    (8, 1, 256),
    (9, 256, 1),
    (9, 1, 256),
    (9, 257, 1),
    (9, 1, 257),
    (10, 3, 85),
    (10, 3, 86),
    (14, 128, 2),
    (14, 129, 2),
    (14, 2, 129),
];

/// West and east columns at both ends of 32 bits, and between them.
const FAR_COLUMNS: [(i32, i32); 14] = [
    (i32::MIN, i32::MIN),
    (i32::MIN, i32::MIN + 2),
    (i32::MIN, i32::MIN + 15),
    (i32::MIN, i32::MIN + 16),
    (i32::MAX, i32::MAX),
    (i32::MAX - 2, i32::MAX),
    (i32::MAX - 15, i32::MAX),
    (i32::MAX - 16, i32::MAX),
    (i32::MIN, i32::MAX),
    (i32::MIN + 1, i32::MAX),
    (i32::MIN, i32::MAX - 1),
    (i32::MIN, 0),
    (-1, i32::MAX),
    (i32::MAX, i32::MIN),
];

/// The rectangle between these columns and these rows, each by its smaller and its larger number.
/// From the south the larger row is the top one.
pub fn between(edition: u8, zoom: u8, columns: (i32, i32), rows: (i32, i32)) -> Rectangle {
    let (top, bottom) = if edition == 1 { (rows.1, rows.0) } else { rows };
    Rectangle {
        edition,
        zoom,
        west: columns.0,
        east: columns.1,
        top,
        bottom,
    }
}

/// A rectangle of this size from a column and a row on, which are those of the smallest numbers.
pub fn sized(edition: u8, zoom: u8, from: (i32, i32), width: i32, height: i32) -> Rectangle {
    let end = |first: i32, size: i32| first.saturating_add(size - 1);
    let columns = (from.0, end(from.0, width));
    between(edition, zoom, columns, (from.1, end(from.1, height)))
}

pub fn some_line(random: &mut Random, pool: &Pool, origin: Origin) -> String {
    let word = random.pick(&["insall", "insall", "delall"]);
    let rectangle = some_rectangle(random, pool);
    rectangle_line(word, origin, rectangle)
}

fn some_rectangle(random: &mut Random, pool: &Pool) -> Rectangle {
    match random.below(20) {
        0..=10 => near(random, pool),
        11..=12 => across_the_seam(random),
        _ => at_an_edge(random, pool),
    }
}

/// A rectangle that is just taken, or not for one reason or two.
pub fn at_an_edge(random: &mut Random, pool: &Pool) -> Rectangle {
    match random.below(7) {
        0 => as_wide_as_the_level(random),
        1 => large(random),
        2..=3 => far(random),
        4 => out_of_range(random, pool),
        5 => misread(random, pool),
        _ => empty(random, pool),
    }
}

/// Few tiles, with one of the pool's among them.
fn near(random: &mut Random, pool: &Pool) -> Rectangle {
    let address = pool.any(random);
    let west = address.column.saturating_sub(random.pick(&[0, 0, 1, 2]));
    let east = west.saturating_add(random.pick(&[0, 0, 1, 2, 3]));
    let first = address.row.saturating_sub(random.pick(&[0, 0, 0, 1]));
    let last = first.saturating_add(random.pick(&[0, 0, 1]));
    let rows = if random.one_in(8) {
        (first, last)
    } else {
        // Mostly the rows stay on the level.
        let rows = side_of(u32::from(address.zoom)).unwrap_or(1);
        let last_row = i32::try_from(rows - 1).unwrap_or(i32::MAX);
        (first.max(0), last.min(last_row))
    };
    between(address.edition, address.zoom, (west, east), rows)
}

/// A few more tiles, often across the seam.
pub fn middling(random: &mut Random) -> Rectangle {
    let zoom = random.pick(&[4, 4, 5, 9, 14]);
    let west = random.pick(&[-1, -2, 0, 14, 15, i32::MIN, i32::MAX - 4]);
    let width = random.between(1, 4) as i32;
    let height = random.between(1, 3) as i32;
    let from = (west, random.pick(&[0, 5]));
    sized(random.pick(&EDITIONS), zoom, from, width, height)
}

fn across_the_seam(random: &mut Random) -> Rectangle {
    let zoom = some_level(random);
    let side = 1i32 << zoom;
    let end = random.pick(&ends_of_turns(zoom));
    let west = random.pick(&[end, end.saturating_sub(1), side - 3, 3 * side - 2, -4097]);
    let width = random.between(2, 5) as i32;
    let from = (west, random.pick(&[0, 5]));
    sized(random.pick(&EDITIONS), zoom, from, width, 1)
}

/// As wide as the level, one wider or one narrower, often with as many rows as are taken.
fn as_wide_as_the_level(random: &mut Random) -> Rectangle {
    let zoom = random.pick(&[4, 4, 4, 5, 6, 7, 8]);
    let side = 1i32 << zoom;
    let width = side + random.pick(&[0, 0, 0, 1, -1]);
    let most_rows = 256 / side;
    let height = random.pick(&[1, 1, most_rows, most_rows + 1]);
    let (first, last) = (i32::MIN, i32::MAX - side);
    let west = random.pick(&[0, -1, 7, -side, first, first + 1, last, last + 1, -100_000]);
    sized(random.pick(&EDITIONS), zoom, (west, 0), width, height)
}

pub fn large(random: &mut Random) -> Rectangle {
    let (zoom, width, height) = random.pick(&LARGE_SHAPES);
    let west = random.pick(&[0, -3, 250, 1_000_000, i32::MIN]);
    sized(random.pick(&EDITIONS), zoom, (west, 0), width, height)
}

fn far(random: &mut Random) -> Rectangle {
    let columns = random.pick(&FAR_COLUMNS);
    let zoom = some_level(random);
    let rows = (5, random.pick(&[5, 5, 6]));
    between(random.pick(&EDITIONS), zoom, columns, rows)
}

/// The rows are counted from the other side than the edition does: one below the other they are
/// the wrong way round.
fn misread(random: &mut Random, pool: &Pool) -> Rectangle {
    let address = pool.any(random);
    let from = (address.column, address.row.saturating_sub(1));
    let rectangle = sized(address.edition, address.zoom, from, 1, 2);
    Rectangle {
        top: rectangle.bottom,
        bottom: rectangle.top,
        ..rectangle
    }
}

/// The edition, the zoom or a row is refused; now and then the rectangle is empty as well.
fn out_of_range(random: &mut Random, pool: &Pool) -> Rectangle {
    let mut rectangle = near(random, pool);
    let stray = random.pick(&[-1, i32::MIN, i32::MAX, 16_384, 1 << rectangle.zoom.min(14)]);
    match random.below(5) {
        0 => rectangle.zoom = random.pick(&[0, 3, 15, 32, 255]),
        1 => rectangle.top = stray,
        2 => rectangle.bottom = stray,
        3 => rectangle.edition = no_edition(random),
        _ => {
            rectangle.top = stray;
            rectangle.bottom = stray;
        }
    }
    if random.one_in(4) {
        rectangle.edition = no_edition(random);
    }
    if random.one_in(3) {
        std::mem::swap(&mut rectangle.west, &mut rectangle.east);
    }
    rectangle
}

/// East of its east or below its bottom.
fn empty(random: &mut Random, pool: &Pool) -> Rectangle {
    let mut rectangle = if random.one_in(4) {
        let address = anywhere(random);
        let from = (address.column, address.row);
        sized(address.edition, address.zoom, from, 1, 1)
    } else {
        near(random, pool)
    };
    let steps = random.pick(&[1, 1, 2, 16]);
    if random.one_in(2) {
        rectangle.east = rectangle.west.saturating_sub(steps);
    } else {
        let below = if rectangle.edition == 1 { -1 } else { 1 };
        rectangle.top = rectangle.bottom.saturating_add(below);
    }
    rectangle
}
