//! A call of edition 1 is the call of edition 2 with its rows turned: the same reply, and the same
//! session and buffers to the byte, so that keys, journals and replays hold north rows only.

use crate::common::turns::{columns_of, LEVELS};
use crate::common::*;
use second::address::Address;
use second::operation::PROCEDURES;
use second::rectangle::{Rectangle, Sweep, SWEEPS};
use second::rule::RULES;

/// The row counted from the other side; none where it does not fit into 32 bits.
fn turned(zoom: u8, row: i32) -> Option<i32> {
    i32::try_from(columns_of(zoom) - 1 - i128::from(row)).ok()
}

/// All rows of a small level with some beyond them; of a large one those at its edges.
fn rows_to_try(zoom: u8) -> Vec<i32> {
    let rows = columns_of(zoom) as i32;
    if rows <= 64 {
        return (-3..rows + 3).collect();
    }
    let ends = [-1, 0, 1, rows / 2 - 1, rows / 2, rows - 2, rows - 1, rows];
    ends.into_iter()
        .chain([i32::MAX, i32::MIN + rows])
        .collect()
}

#[test]
fn operations_on_every_row() {
    for rule in RULES {
        for zoom in LEVELS {
            for row in rows_to_try(zoom) {
                let south = Address {
                    edition: 1,
                    zoom,
                    column: -1,
                    row,
                };
                let north = Address {
                    edition: 2,
                    row: turned(zoom, row).expect("a row of 32 bits"),
                    ..south
                };
                // Both find the tile absent, then present, then absent again.
                let mut by_south = Bench::with_places_by(rule, 3, &[]);
                let mut by_north = by_south.clone();
                for procedure in PROCEDURES.into_iter().chain(PROCEDURES) {
                    let reply = by_south.operate(1, procedure, south);
                    assert_eq!(by_north.operate(1, procedure, north), reply);
                    assert_eq!(by_south, by_north);
                    assert_eq!(reply.0 == 5, south.tile().is_none());
                }
            }
        }
    }
}

#[test]
fn the_editions_meet_on_the_same_tiles() {
    for rule in RULES {
        let mut bench = Bench::with_places_by(rule, 3, &[A]);
        let south = Address {
            edition: 1,
            row: 10,
            ..A
        };
        assert_eq!(bench.mem(1, south), OK);
        assert_eq!(bench.del(1, south), OK);
        assert_eq!(bench.ins(2, A), held(1));
        assert_eq!(bench.ins(2, Address { row: 5, ..south }), OK);
        assert_eq!(bench.del(1, Address { row: 10, ..A }), held(2));
        assert_eq!(bench.abort(1), DONE);
        assert!(bench.has(A));
    }
}

fn rectangle(edition: u8, zoom: u8, columns: (i32, i32), rows: (i32, i32)) -> Rectangle {
    Rectangle {
        edition,
        zoom,
        west: columns.0,
        east: columns.1,
        top: rows.0,
        bottom: rows.1,
    }
}

/// Sweeps both rectangles; gives the number that both get.
fn compare_sweeps(start: &Bench, sweep: Sweep, south: Rectangle, north: Rectangle) -> u8 {
    let (mut by_south, mut by_north) = (start.clone(), start.clone());
    let reply = by_south.sweep(1, sweep, south);
    assert_eq!(by_north.sweep(1, sweep, north), reply, "{:?}", south);
    assert_eq!(by_south, by_north, "{:?}", south);
    reply.0
}

/// On level 4 with every top and every bottom row, of which 0 to 15 are there.
#[test]
fn rectangles_between_any_two_rows() {
    let start = Bench::with_places_by(RULES[0], 40, &[A]);
    let mut met = [0; 14];
    for top in -2..18 {
        for bottom in -2..18 {
            for sweep in SWEEPS {
                let north = rectangle(2, 4, (-1, 0), (top, bottom));
                let south = rectangle(1, 4, (-1, 0), (15 - top, 15 - bottom));
                let number = compare_sweeps(&start, sweep, south, north);
                let there = (0..16).contains(&top) && (0..16).contains(&bottom);
                let due = match (there, bottom >= top) {
                    (false, _) => 5,
                    (true, false) => 13,
                    (true, true) => 0,
                };
                assert_eq!(number, due, "{:?}", north);
                met[usize::from(number)] += 1;
            }
        }
    }
    assert_eq!((met[0], met[13]), (2 * 136, 2 * 120));
}

#[test]
fn rectangles_at_the_edges_of_every_level() {
    for rule in RULES {
        let mut start = Bench::started_by(rule, (20, 20, 300), &[]);
        assert_eq!(start.open(1), DONE);
        let mut met = [0; 14];
        for zoom in LEVELS {
            let last = columns_of(zoom) as i32 - 1;
            for (top, bottom) in [
                (0, 0),
                (0, 1),
                (1, 0),
                (-1, 0),
                (0, -1),
                (last, last),
                (last - 1, last),
                (last, last - 1),
                (last, last + 1),
                (last + 1, last),
                (last + 1, -1),
                (i32::MAX, i32::MAX),
            ] {
                let rows = turned(zoom, top).zip(turned(zoom, bottom));
                let rows = rows.expect("rows of 32 bits");
                let south = rectangle(1, zoom, (-1, 0), rows);
                let north = rectangle(2, zoom, (-1, 0), (top, bottom));
                let number = compare_sweeps(&start, Sweep::Insert, south, north);
                met[usize::from(number)] += 1;
            }
        }
        assert_eq!((met[0], met[5], met[13]), (4 * 11, 6 * 11, 2 * 11));
    }
}

/// From the south a row of -2147483648 turned would not fit into 32 bits.
#[test]
fn the_least_row_is_refused_by_five() {
    let mut bench = Bench::with_places(3, &[]);
    for zoom in LEVELS {
        let place = Address {
            edition: 1,
            zoom,
            column: 0,
            row: i32::MIN,
        };
        assert_eq!(bench.ins(1, place), refused(5));
        for rows in [(i32::MIN, 0), (0, i32::MIN), (i32::MIN, i32::MIN)] {
            let place = rectangle(1, zoom, (0, 0), rows);
            assert_eq!(bench.sweep(1, Sweep::Insert, place), refused(5));
        }
    }
}
