//! Round the world on one level: every column where a turn begins or ends, at both ends of 32 bits
//! too, by the address step, by operations, and by rectangles on one turn and on two.

use crate::address::Address;
use crate::rectangle::Rectangle;
use crate::scripts::addresses::{ends_of_turns, EDITIONS};
use crate::scripts::rectangles::sized;
use crate::scripts::spelling::address_line;
use crate::scripts::sweeping::sweep_alone;
use crate::scripts::writer::Writer;

pub fn on_level(writer: &mut Writer, zoom: u8) {
    // Room for the largest rectangle.
    writer.lend(260, 260, 3200);
    writer.start(0);
    writer.tell("open 1");
    writer.tell("open 2");
    for column in ends_of_turns(zoom) {
        step_and_operate(writer, zoom, column);
    }
    // The rectangles begin on no tiles, as each of them leaves none.
    writer.tell("abort 1");
    writer.tell("abort 2");
    writer.start(0);
    writer.tell("open 1");
    let edition = writer.random.pick(&EDITIONS);
    for rectangle in rectangles(edition, zoom) {
        sweep_alone(writer, rectangle);
    }
}

/// Mostly on another row than before, so that few are held.
fn step_and_operate(writer: &mut Writer, zoom: u8, column: i32) {
    let place = Address {
        edition: writer.random.pick(&EDITIONS),
        zoom,
        column,
        row: writer.random.below(16) as i32,
    };
    writer.tell(address_line(place));
    let word = writer.random.pick(&["ins", "del", "mem"]);
    let job = writer.random.pick(&[1, 2]);
    writer.operate(word, job, place);
    writer.sum_mostly();
}

/// Two columns from each end of a turn, which lie on two turns where it is the last column of one;
/// and as wide as the level, on one turn and on two, where so many columns are taken.
fn rectangles(edition: u8, zoom: u8) -> Vec<Rectangle> {
    let side = 1i32 << zoom;
    let ends = ends_of_turns(zoom).into_iter();
    let pair = |west| sized(edition, zoom, (west, 3), 2, 1);
    let mut rectangles: Vec<Rectangle> = ends.map(pair).collect();
    if side <= 256 {
        let (first, last) = (i32::MIN, i32::MAX - side);
        let wests = [first, first + 1, -1, 0, 1 - side, last, last + 1];
        rectangles.extend(wests.map(|west| sized(edition, zoom, (west, 0), side, 1)));
    }
    rectangles
}
