//! The replies that carry turns, and those that carry none.

use crate::common::turns::{columns_near_edges, span_of, turns_of, LEVELS};
use crate::common::*;
use second::address::Address;
use second::operation::{Procedure, PROCEDURES};
use second::rectangle::{Rectangle, Sweep, SWEEPS};
use second::reply::Span;
use second::rule::{Rule, RULES};
use second::service;

fn operated(bench: &mut Bench, job: u8, word: Procedure, place: Address) -> (Told, i32) {
    let (session, tables) = (&mut bench.session, &mut bench.tables);
    told(service::operate(session, tables, usual(job), word, place))
}

fn swept(bench: &mut Bench, job: u8, sweep: Sweep, place: Rectangle) -> (Told, i32, i32) {
    let (session, tables) = (&mut bench.session, &mut bench.tables);
    let reply = service::sweep(session, tables, usual(job), sweep, place);
    let (told, Span { first, last }) = told_of_sweep(reply);
    (told, first, last)
}

/// One row of so many columns.
fn row_from(zoom: u8, west: i32, width: i32) -> Option<Rectangle> {
    let east = west.checked_add(width - 1)?;
    Some(Rectangle {
        edition: 2,
        zoom,
        west,
        east,
        top: 5,
        bottom: 5,
    })
}

/// The address with its column so many turns further round.
fn turned(address: Address, turns: i32) -> Address {
    Address {
        column: address.column + turns * (1 << address.zoom),
        ..address
    }
}

#[test]
fn operations_of_every_kind_tell_their_turns() {
    let addresses = LEVELS.flat_map(|zoom| {
        let columns = columns_near_edges(zoom).into_iter();
        columns.map(move |column| Address {
            edition: 2,
            zoom,
            column,
            row: 5,
        })
    });
    for address in addresses {
        let due = turns_of(address.zoom, address.column);
        for present in [&[][..], &[address]] {
            for procedure in PROCEDURES {
                let mut bench = Bench::with_places(2, present);
                let fails = procedure == Procedure::Member && present.is_empty();
                let reply = operated(&mut bench, 1, procedure, address);
                let due = (if fails { FAIL } else { OK }, due);
                assert_eq!(reply, due, "{:?}", address);
            }
        }
    }
}

#[test]
fn rectangles_tell_the_turns_of_west_and_of_east() {
    let (mut on_one, mut on_two) = (0, 0);
    for zoom in LEVELS {
        let side = 1i32 << zoom;
        let widths = [1, 2, 3, 16, side - 1, side];
        for west in columns_near_edges(zoom) {
            let taken = widths.iter().filter(|width| **width <= 256);
            for place in taken.filter_map(|width| row_from(zoom, west, *width)) {
                let mut bench = Bench::started((1, 256, 3100), &[]);
                assert_eq!(bench.open(1), DONE);
                let Span { first, last } = span_of(place);
                let reply = swept(&mut bench, 1, Sweep::Delete, place);
                assert_eq!(reply, (DONE, first, last), "{:?}", place);
                on_one += usize::from(first == last);
                on_two += usize::from(first + 1 == last);
            }
        }
    }
    assert!(on_one > 1000 && on_two > 1000, "{} {}", on_one, on_two);
}

#[test]
fn as_wide_as_the_level_is_one_turn_or_two() {
    let due = [
        (i32::MIN, -134_217_728, -134_217_728),
        (i32::MIN + 1, -134_217_728, -134_217_727),
        (-16, -1, -1),
        (-1, -1, 0),
        (0, 0, 0),
        (1, 0, 1),
        (69_999, 4374, 4375),
        (i32::MAX - 16, 134_217_726, 134_217_727),
        (i32::MAX - 15, 134_217_727, 134_217_727),
    ];
    for rule in RULES {
        for sweep in SWEEPS {
            for (west, first, last) in due {
                let mut bench = Bench::with_places_by(rule, 16, &[]);
                let place = row_from(4, west, 16).expect("a rectangle of 32 bits");
                let reply = swept(&mut bench, 1, sweep, place);
                assert_eq!(reply, (DONE, first, last));
            }
        }
    }
}

#[test]
fn refused_operations_tell_no_turns() {
    let (a, b) = (turned(A, 4000), turned(B, -4000));
    let no_edition = Address { edition: 3, ..a };
    let no_row = Address { row: 16, ..a };
    let no_zoom = Address { zoom: 15, ..a };
    let refusal = |number| (refused(number), 0);
    let insert = Procedure::Insert;
    for rule in RULES {
        let mut bench = Bench::started_by(rule, (1, 1, 28), &[A]);
        bench.tables.tiles[0] += 16;
        assert_eq!(operated(&mut bench, 1, insert, a), refusal(1));
        bench.tables.tiles[0] -= 16;
        assert_eq!(operated(&mut bench, 64, insert, a), refusal(2));
        assert_eq!(operated(&mut bench, 1, insert, a), refusal(3));
        assert_eq!(bench.open(1), DONE);
        assert_eq!(operated(&mut bench, 1, insert, no_edition), refusal(14));
        assert_eq!(operated(&mut bench, 1, insert, no_row), refusal(5));
        assert_eq!(operated(&mut bench, 1, insert, no_zoom), refusal(5));
        assert_eq!(operated(&mut bench, 1, insert, b), refusal(7));
        let reply = operated(&mut bench, 1, Procedure::Delete, a);
        assert_eq!(reply, (OK, 3999));
        bench.session.open[2] = true;
        let reply = operated(&mut bench, 2, insert, a);
        assert_eq!(reply, (held(1), 0));
        assert_eq!(operated(&mut bench, 1, Procedure::Member, b), refusal(8));
        bench.tables.operations.push(0);
        assert_eq!(operated(&mut bench, 1, Procedure::Member, b), refusal(9));
    }
}

#[test]
fn refused_rectangles_tell_no_turns() {
    let across = |zoom, rows: (i32, i32)| Rectangle {
        edition: 2,
        zoom,
        west: 69_999,
        east: 70_000,
        top: rows.0,
        bottom: rows.1,
    };
    let good = across(4, (5, 5));
    let refusal = |number| (refused(number), 0, 0);
    let insert = Sweep::Insert;
    for rule in RULES {
        let mut bench = Bench::started_by(rule, (1, 1, 40), &[A]);
        bench.tables.tiles[0] += 16;
        assert_eq!(swept(&mut bench, 1, insert, good), refusal(1));
        bench.tables.tiles[0] -= 16;
        assert_eq!(swept(&mut bench, 64, insert, good), refusal(2));
        assert_eq!(swept(&mut bench, 1, insert, good), refusal(3));
        assert_eq!(bench.open(1), DONE);
        assert_eq!(bench.open(2), DONE);
        let unknown = Rectangle { edition: 3, ..good };
        assert_eq!(swept(&mut bench, 1, insert, unknown), refusal(14));
        let none = across(4, (5, 16));
        assert_eq!(swept(&mut bench, 1, insert, none), refusal(5));
        let none = across(15, (5, 5));
        assert_eq!(swept(&mut bench, 1, insert, none), refusal(5));
        let empty = across(4, (5, 4));
        assert_eq!(swept(&mut bench, 1, insert, empty), refusal(13));
        assert_eq!(swept(&mut bench, 1, insert, good), refusal(7));
        assert_eq!(bench.del(2, A), OK);
        assert_eq!(swept(&mut bench, 1, insert, good), (held(2), 0, 0));
        assert_eq!(bench.abort(2), DONE);
        assert_eq!(swept(&mut bench, 1, Sweep::Delete, good), refusal(8));
        bench.tables.operations.push(0);
        assert_eq!(swept(&mut bench, 1, Sweep::Delete, good), refusal(9));
    }
}

/// The world that an operation, a rectangle and their ends leave, so many turns further round.
fn left_by(rule: Rule, turns: i32) -> Bench {
    let mut bench = Bench::with_places_by(rule, 10, &[A]);
    assert_eq!(bench.mem(1, turned(A, turns)), OK);
    assert_eq!(bench.ins(1, turned(B, turns)), OK);
    let west = 7 + turns * 16;
    let place = row_from(4, west, 16).expect("a rectangle of 32 bits");
    assert_eq!(bench.sweep(2, Sweep::Delete, place), DONE);
    assert_eq!(bench.commit(1), DONE);
    bench
}

#[test]
fn keys_journals_and_tables_do_not_know_turns() {
    for rule in RULES {
        let due = left_by(rule, 0);
        for turns in [-134_217_727, -4375, -1, 1, 2, 4375, 134_217_725] {
            assert_eq!(left_by(rule, turns), due);
        }
    }
}
