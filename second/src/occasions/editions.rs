//! Editions that there are and that there are not, and in both editions the rows where a level
//! begins and ends, on every level.

use crate::address::Address;
use crate::occasions::named::{applying, names_of, Named};
use crate::occasions::places::{Place, ADDRESS, OPERATION, RECTANGLE};
use crate::rectangle::Rectangle;
use crate::tile::{side_of, ZOOMS};

const CALLS: [&str; 3] = [ADDRESS, OPERATION, RECTANGLE];

/// Bytes that stand for no edition.
const STRANGE: [Named<u8>; 4] = [
    ("0", |byte| *byte == 0),
    ("3", |byte| *byte == 3),
    ("255", |byte| *byte == 255),
    ("any other", |byte| (4..255).contains(byte)),
];

/// Rows of an address that are there.
const ROWS: [Named<Row>; 2] = [
    ("the first row", |at| at.row == 0),
    ("the last row", |at| at.row == at.rows - 1),
];

/// Rows of an address that are not.
const NO_ROWS: [Named<Row>; 4] = [
    ("the row before the first", |at| at.row == -1),
    ("the row behind the last", |at| at.row == at.rows),
    ("the least number for a row", |at| {
        at.row == i64::from(i32::MIN)
    }),
    ("the greatest number for a row", |at| {
        at.row == i64::from(i32::MAX)
    }),
];

/// Rectangles that are taken, by how far north and south they reach.
const RECTANGLES: [Named<Rows>; 4] = [
    ("a rectangle to the north", |at| at.north() == 0),
    ("a rectangle to the south", |at| at.south() == at.rows - 1),
    ("a rectangle of one row", |at| at.top == at.bottom),
    ("a rectangle of two rows", |at| at.north() + 1 == at.south()),
];

const EMPTY_RECTANGLES: [Named<Rows>; 1] = [("a rectangle the wrong way round", |at| {
    at.are_there() && at.north() == at.south() + 1
})];

/// Rectangles whose top or bottom row is not there.
const NO_RECTANGLES: [Named<Rows>; 5] = [
    ("a rectangle from north of the level", |at| {
        at.north() == -1 && at.south() >= 0
    }),
    ("a rectangle to south of the level", |at| {
        at.south() == at.rows && at.north() < at.rows
    }),
    ("a rectangle that begins south of the level", |at| {
        at.north() == at.rows && at.south() < at.rows
    }),
    ("a rectangle that ends north of the level", |at| {
        at.south() == -1 && at.north() >= 0
    }),
    ("a rectangle from and to the least number", |at| {
        at.top == i64::from(i32::MIN) && at.bottom == at.top
    }),
];

struct Row {
    rows: i64,
    row: i64,
}

/// The rows of a rectangle, as its edition counts them.
struct Rows {
    from_south: bool,
    rows: i64,
    top: i64,
    bottom: i64,
}

impl Rows {
    /// How far south of the level's northernmost row a row is.
    fn depth(&self, row: i64) -> i64 {
        if self.from_south {
            self.rows - 1 - row
        } else {
            row
        }
    }

    fn north(&self) -> i64 {
        self.depth(self.top)
    }

    fn south(&self) -> i64 {
        self.depth(self.bottom)
    }

    fn are_there(&self) -> bool {
        (0..self.rows).contains(&self.top) && (0..self.rows).contains(&self.bottom)
    }
}

/// What a place shows about editions that is answered by a reply of this number.
pub fn told(place: &Place, number: u8) -> Vec<String> {
    match place {
        Place::Address(call, address) => of_address(call, *address, number),
        Place::Rectangle(rectangle) => of_rectangle(*rectangle, number),
    }
}

fn of_address(call: &str, address: Address, number: u8) -> Vec<String> {
    let rows = side_of(u32::from(address.zoom)).map(i64::from);
    let row = i64::from(address.row);
    if number == 14 {
        let there = rows.map_or(false, |rows| (0..rows).contains(&row));
        return strange(call, address.edition, there);
    }
    let known = rows.map(|rows| Row { rows, row });
    let names = match number {
        0 => applying(&ROWS, known),
        5 => applying(&NO_ROWS, known),
        _ => Vec::new(),
    };
    on_level(call, address.edition, address.zoom, &names)
}

fn of_rectangle(rectangle: Rectangle, number: u8) -> Vec<String> {
    let Rectangle { edition, zoom, .. } = rectangle;
    let known = side_of(u32::from(zoom)).map(|side| Rows {
        from_south: edition == 1,
        rows: i64::from(side),
        top: i64::from(rectangle.top),
        bottom: i64::from(rectangle.bottom),
    });
    if number == 14 {
        let there = known.map_or(false, |rows| rows.are_there());
        return strange(RECTANGLE, edition, there);
    }
    let names = match number {
        0 => applying(&RECTANGLES, known),
        5 => applying(&NO_RECTANGLES, known),
        13 => applying(&EMPTY_RECTANGLES, known),
        _ => Vec::new(),
    };
    on_level(RECTANGLE, edition, zoom, &names)
}

/// The names for a byte that stands for no edition, where nothing else is wrong with the rows and
/// where something is.
fn strange(call: &str, byte: u8, rows_are_there: bool) -> Vec<String> {
    let bytes = applying(&STRANGE, Some(byte)).into_iter();
    bytes
        .map(|byte| name_strange(call, byte, rows_are_there))
        .collect()
}

fn name_strange(call: &str, byte: &str, rows_are_there: bool) -> String {
    let rows = if rows_are_there { "good" } else { "no" };
    format!("edition {} of {} with {} rows", byte, call, rows)
}

fn on_level(call: &str, edition: u8, zoom: u8, names: &[&str]) -> Vec<String> {
    let name = |name: &&str| format!("edition {edition} of {call} on level {zoom}: {name}");
    names.iter().map(name).collect()
}

pub fn all_names() -> Vec<String> {
    let mut names = Vec::new();
    for call in CALLS {
        for byte in names_of(&STRANGE) {
            names.extend([true, false].map(|there| name_strange(call, byte, there)));
        }
    }
    let rows: Vec<&str> = names_of(&ROWS).chain(names_of(&NO_ROWS)).collect();
    let rectangles: Vec<&str> = names_of(&RECTANGLES)
        .chain(names_of(&EMPTY_RECTANGLES))
        .chain(names_of(&NO_RECTANGLES))
        .collect();
    for zoom in ZOOMS {
        for edition in [1, 2] {
            names.extend(on_level(ADDRESS, edition, zoom, &rows));
            names.extend(on_level(OPERATION, edition, zoom, &rows));
            names.extend(on_level(RECTANGLE, edition, zoom, &rectangles));
        }
    }
    names
}
