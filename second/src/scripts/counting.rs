//! Rows of one level counted from both sides: every row at its edges, by the address step, by
//! operations and by rectangles, and bytes that stand for no edition.

use crate::address::Address;
use crate::rectangle::Rectangle;
use crate::scripts::addresses::{in_other_edition, last_row, no_edition};
use crate::scripts::spelling::address_line;
use crate::scripts::sweeping::sweep_alone;
use crate::scripts::writer::Writer;

pub fn on_level(writer: &mut Writer, zoom: u8) {
    let editions = [1, 2, no_edition(&mut writer.random)];
    // Room for the highest rectangle.
    writer.lend(260, 260, 3200);
    writer.start(0);
    writer.tell("open 1");
    writer.tell("open 2");
    for edition in editions {
        for row in edge_rows(zoom) {
            step_and_operate(writer, edition, zoom, row);
        }
    }
    // The rectangles begin on no tiles, as each of them leaves none.
    writer.tell("abort 1");
    writer.tell("abort 2");
    writer.start(0);
    writer.tell("open 1");
    for edition in editions {
        for rectangle in rectangles(edition, zoom) {
            sweep_alone(writer, rectangle);
        }
    }
}

fn edge_rows(zoom: u8) -> [i32; 9] {
    let last = last_row(zoom);
    [
        i32::MIN,
        -1,
        0,
        1,
        last / 2,
        last - 1,
        last,
        last + 1,
        i32::MAX,
    ]
}

/// The step and an operation, mostly in another column than before; then another job looks for the
/// same tile by its row in the other edition.
fn step_and_operate(writer: &mut Writer, edition: u8, zoom: u8, row: i32) {
    let place = Address {
        edition,
        zoom,
        column: writer.random.word() as i32,
        row,
    };
    writer.tell(address_line(place));
    let word = writer.random.pick(&["ins", "del", "mem"]);
    writer.operate(word, 1, place);
    if place.tile().is_some() {
        writer.operate("mem", 2, in_other_edition(place));
    }
    writer.sum_mostly();
}

/// One column with its top and its bottom row at all edges, in both orders, and as high as the
/// level where so many rows are taken.
fn rectangles(edition: u8, zoom: u8) -> Vec<Rectangle> {
    let last = last_row(zoom);
    let mut rows = vec![
        (0, 0),
        (last, last),
        (0, 1),
        (last - 1, last),
        (-1, 0),
        (last, last + 1),
        (-1, last + 1),
        (i32::MIN, i32::MIN),
        (i32::MIN, i32::MAX),
    ];
    if last < 256 {
        rows.push((0, last));
    }
    let pairs = rows.into_iter();
    let in_both_orders = pairs.flat_map(|(one, other)| [(one, other), (other, one)]);
    let column = |(top, bottom)| Rectangle {
        edition,
        zoom,
        west: -1,
        east: -1,
        top,
        bottom,
    };
    in_both_orders.map(column).collect()
}
