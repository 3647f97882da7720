//! Turns that are told, on every level and wherever they change, and turns that a refusal keeps
//! back.

use crate::address::Address;
use crate::occasions::named::{applying, names_of, Named};
use crate::occasions::places::{Place, ADDRESS, OPERATION, RECTANGLE};
use crate::rectangle::Rectangle;
use crate::tile::{side_of, ZOOMS};
use std::ops::RangeInclusive;

const FIRST_COLUMN: i64 = i32::MIN as i64;
const LAST_COLUMN: i64 = i32::MAX as i64;

/// The columns where a turn begins or ends.
const COLUMNS: [Named<Column>; 8] = [
    ("the first column", |at| at.column == FIRST_COLUMN),
    ("the last column of turn -2", |at| at.column == -at.side - 1),
    ("the first column of turn -1", |at| at.column == -at.side),
    ("the last column of turn -1", |at| at.column == -1),
    ("the first column of turn 0", |at| at.column == 0),
    ("the last column of turn 0", |at| at.column == at.side - 1),
    ("the first column of turn 1", |at| at.column == at.side),
    ("the last column", |at| at.column == LAST_COLUMN),
];

/// Rectangles on one turn at the ends of 32 bits, and on two turns.
const ENDS: [Named<Ends>; 6] = [
    ("from the first column", |at| at.west == FIRST_COLUMN),
    ("out of the first turn", |at| {
        at.is_across(FIRST_COLUMN + at.side)
    }),
    ("across 0", |at| at.is_across(0)),
    ("out of turn 0", |at| at.is_across(at.side)),
    ("into the last turn", |at| {
        at.is_across(LAST_COLUMN + 1 - at.side)
    }),
    ("to the last column", |at| at.east == LAST_COLUMN),
];

/// As wide as the level and on two turns: on the levels with so few columns that it is taken.
const WIDE: [Named<Ends>; 3] = [
    ("all round, across 0", |at| {
        at.is_all_round() && at.is_across(0)
    }),
    ("all round, out of the first turn", |at| {
        at.is_all_round() && at.is_across(FIRST_COLUMN + at.side)
    }),
    ("all round, into the last turn", |at| {
        at.is_all_round() && at.is_across(LAST_COLUMN + 1 - at.side)
    }),
];

const WIDE_LEVELS: RangeInclusive<u8> = 4..=8;

/// The calls that answer turns, and the numbers by which they are refused.
const REFUSALS: [(&str, &[u8]); 3] = [
    (ADDRESS, &[14, 5]),
    (OPERATION, &[1, 2, 3, 14, 5, 6, 7, 8, 9]),
    (RECTANGLE, &[1, 2, 3, 14, 5, 13, 6, 7, 8, 9]),
];

struct Column {
    side: i64,
    column: i64,
}

struct Ends {
    side: i64,
    west: i64,
    east: i64,
}

impl Ends {
    /// Whether a turn begins at the column, and the rectangle begins before it.
    fn is_across(&self, column: i64) -> bool {
        self.west < column && column <= self.east
    }

    fn is_all_round(&self) -> bool {
        self.east - self.west + 1 == self.side
    }
}

/// What a place shows about turns that is answered by a reply of this number.
pub fn told(place: &Place, number: u8) -> Vec<String> {
    match place {
        Place::Address(call, address) => of_address(call, *address, number),
        Place::Rectangle(rectangle) => of_rectangle(*rectangle, number),
    }
}

fn of_address(call: &str, address: Address, number: u8) -> Vec<String> {
    if number != 0 {
        return kept_back(call, &[address.column], number);
    }
    let known = side_of(u32::from(address.zoom)).map(|side| Column {
        side: i64::from(side),
        column: i64::from(address.column),
    });
    on_level(call, address.zoom, &applying(&COLUMNS, known))
}

fn of_rectangle(rectangle: Rectangle, number: u8) -> Vec<String> {
    let Rectangle {
        zoom, west, east, ..
    } = rectangle;
    if number != 0 {
        return kept_back(RECTANGLE, &[west, east], number);
    }
    let known = || {
        side_of(u32::from(zoom)).map(|side| Ends {
            side: i64::from(side),
            west: i64::from(west),
            east: i64::from(east),
        })
    };
    let names = [applying(&ENDS, known()), applying(&WIDE, known())].concat();
    on_level(RECTANGLE, zoom, &names)
}

fn on_level(call: &str, zoom: u8, names: &[&str]) -> Vec<String> {
    let name = |name: &&str| format!("turns of {} on level {}: {}", call, zoom, name);
    names.iter().map(name).collect()
}

/// A refusal of columns that are on no level, so that whatever turns they make are not 0.
fn kept_back(call: &str, columns: &[i32], number: u8) -> Vec<String> {
    let on_no_level = |column: &i32| !(0..=16_383).contains(column);
    if columns.iter().all(on_no_level) {
        vec![name_kept_back(call, number)]
    } else {
        Vec::new()
    }
}

fn name_kept_back(call: &str, number: u8) -> String {
    format!("turns of {} kept back by reply {}", call, number)
}

pub fn all_names() -> Vec<String> {
    let mut names = Vec::new();
    for zoom in ZOOMS {
        let columns: Vec<&str> = names_of(&COLUMNS).collect();
        names.extend(on_level(ADDRESS, zoom, &columns));
        names.extend(on_level(OPERATION, zoom, &columns));
        let ends: Vec<&str> = names_of(&ENDS).collect();
        names.extend(on_level(RECTANGLE, zoom, &ends));
    }
    for zoom in WIDE_LEVELS {
        let wide: Vec<&str> = names_of(&WIDE).collect();
        names.extend(on_level(RECTANGLE, zoom, &wide));
    }
    for (call, numbers) in REFUSALS {
        names.extend(numbers.iter().map(|number| name_kept_back(call, *number)));
    }
    names
}
