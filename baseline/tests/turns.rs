//! Turns: how often a column goes round the world, and which replies tell it.

use crate::common::*;
use baseline::journal::Procedure;
use baseline::rectangle::{Change, Rectangle};
use baseline::reply::numbers;
use baseline::rule::Rule;
use baseline::tile::Address;
use baseline::workload::histories::PROCEDURES;
use baseline::workload::world::{Call, World};
use std::ops::RangeInclusive;

const LEVELS: RangeInclusive<u8> = 4..=14;
const FIRST: i32 = i32::MIN;
const LAST: i32 = i32::MAX;

/// Goes round turn by turn until the column is on the level: how often, and where it comes to.
fn going_round(zoom: u8, column: i32) -> (i64, i64) {
    let side = 2i64.pow(zoom.into());
    let (mut turns, mut column) = (0, i64::from(column));
    while column < 0 {
        column += side;
        turns -= 1;
    }
    while column >= side {
        column -= side;
        turns += 1;
    }
    (turns, column)
}

/// Both ends of 32 bits, and what is beside an end of a turn.
fn columns_of(zoom: u8) -> [i32; 8] {
    let side = 1 << zoom;
    [FIRST, -side - 1, -side, -1, 0, side - 1, side, LAST]
}

/// The row from this address to an east column.
fn row_to(east: i32, of: Address) -> Rectangle {
    Rectangle {
        edition: of.edition,
        zoom: of.zoom,
        west: of.column,
        east,
        top: of.row,
        bottom: of.row,
    }
}

fn told(case: &mut Case, call: Call) -> [i64; 6] {
    numbers(case.reply(call))
}

#[test]
fn a_column_is_its_turns_and_the_column_of_its_key() {
    for zoom in LEVELS {
        for column in columns_of(zoom) {
            let address = Address { zoom, column, ..C };
            let (key, turns) = address.key_and_turns().unwrap();
            let found = (turns.into(), Address::of_key(key).column.into());
            assert_eq!(found, going_round(zoom, column), "{address:?}");
        }
    }
}

#[test]
fn an_operation_tells_its_turns() {
    for (column, turns) in [(-1, -1), (15, 0), (70_000, 4_375)] {
        for rule in Rule::ALL {
            for (procedure, answer) in PROCEDURES.into_iter().zip([1, 1, 0]) {
                let mut case = Case::by(rule, 4, &[]);
                let call = Call::Operation(of_job(1), procedure, Address { column, ..A });
                assert_eq!(told(&mut case, call), [0, answer, 0, 0, turns, 0]);
            }
        }
    }
}

#[test]
fn an_operation_on_every_level() {
    let mut case = Case::ample(&[]);
    for zoom in LEVELS {
        for column in columns_of(zoom) {
            let address = Address { zoom, column, ..A };
            let (turns, _) = going_round(zoom, column);
            let call = Call::Operation(of_job(1), Procedure::Member, address);
            assert_eq!(told(&mut case, call), [0, 0, 0, 0, turns, 0], "{address:?}");
        }
    }
}

#[test]
fn a_rectangle_tells_the_turns_of_west_and_of_east() {
    for (west, east, [turns, last]) in [
        (-1, 0, [-1, 0]),
        (-8, 7, [-1, 0]),
        (0, 15, [0, 0]),
        (15, 16, [0, 1]),
        (69_999, 70_000, [4_374, 4_375]),
        (FIRST, FIRST + 15, [-134_217_728, -134_217_728]),
        (FIRST + 15, FIRST + 16, [-134_217_728, -134_217_727]),
        (LAST - 16, LAST - 15, [134_217_726, 134_217_727]),
        (LAST - 15, LAST, [134_217_727, 134_217_727]),
    ] {
        for rule in Rule::ALL {
            for change in Change::ALL {
                let mut case = Case::by(rule, 16, &[]);
                let rectangle = row_to(east, Address { column: west, ..A });
                let call = Call::Rectangle(of_job(1), change, rectangle);
                assert_eq!(told(&mut case, call), [0, 0, 0, 0, turns, last], "{west}");
            }
        }
    }
}

#[test]
fn a_rectangle_on_every_level() {
    let mut case = Case::ample(&[]);
    for zoom in LEVELS {
        for column in columns_of(zoom) {
            let east = column.saturating_add(1);
            let rectangle = row_to(east, Address { zoom, column, ..A });
            let call = Call::Rectangle(of_job(1), Change::Delete, rectangle);
            let (turns, _) = going_round(zoom, column);
            let (last, _) = going_round(zoom, east);
            let expected = [0, 0, 0, 0, turns, last];
            assert_eq!(told(&mut case, call), expected, "{rectangle:?}");
        }
    }
}

/// The tile A, which is held, from a turn further west, and one of another row.
const HELD: Address = Address { column: -17, ..A };
const FREE: Address = Address { row: 0, ..HELD };

const REFUSED: [[i64; 6]; 9] = [
    [1, 0, 0, 0, 0, 0],
    [2, 0, 0, 0, 0, 0],
    [3, 0, 0, 0, 0, 0],
    [14, 0, 0, 0, 0, 0],
    [5, 0, 0, 0, 0, 0],
    [6, 0, 1, 0xFF01, 0, 0],
    [7, 0, 0, 0, 0, 0],
    [8, 0, 0, 0, 0, 0],
    [9, 0, 0, 0, 0, 0],
];

/// A change of the world, and a call after it by a job on an address.
type Step = (fn(&mut World), u8, Address);

/// What the calls are told where each step mends what was refused: the refusals above, and in the
/// end what is told when it is done.
fn told_in_order(asked: fn(u8, Address) -> Call) -> [[i64; 6]; 10] {
    let mut case = Case::with_places(1, &[A]);
    assert_eq!(case.delete(1, A), OK);
    case.world.operations.truncate(1);
    case.world.journal.truncate(case.world.session.journal + 8);
    let steps: [Step; 10] = [
        (|world| world.tiles[0] = 7, 2, FREE),
        (|world| world.tiles[0] = 0, 64, FREE),
        (|_| {}, 3, FREE),
        (|_| {}, 2, Address { edition: 0, ..FREE }),
        (|_| {}, 2, Address { zoom: 3, ..FREE }),
        (|_| {}, 2, HELD),
        (|_| {}, 2, FREE),
        (|world| world.tiles.extend([0; 2]), 2, FREE),
        (|world| world.operations.extend([0; 2]), 2, FREE),
        (|world| world.journal.extend([0; 24]), 2, FREE),
    ];
    steps.map(|(mend, job, address)| {
        mend(&mut case.world);
        told(&mut case, asked(job, address))
    })
}

#[test]
fn a_refused_operation_tells_none() {
    let told =
        told_in_order(|job, address| Call::Operation(of_job(job), Procedure::Insert, address));
    assert_eq!(told[..9], REFUSED);
    assert_eq!(told[9], [0, 1, 0, 0, -2, 0]);
}

#[test]
fn a_refused_rectangle_tells_none() {
    let insert = |job, address| Call::Rectangle(of_job(job), Change::Insert, row_to(-16, address));
    let in_order = told_in_order(insert);
    assert_eq!(in_order[..9], REFUSED);
    assert_eq!(in_order[9], [0, 0, 0, 0, -2, -1]);
    for east in [-18, -1, LAST] {
        let misshapen = Call::Rectangle(of_job(1), Change::Insert, row_to(east, FREE));
        assert_eq!(told(&mut Case::ample(&[]), misshapen), [13, 0, 0, 0, 0, 0]);
    }
}

#[test]
fn the_other_calls_tell_none() {
    for rule in Rule::ALL {
        let mut case = Case::by(rule, 4, &[A]);
        assert_eq!(case.insert(1, FREE), OK);
        for (call, number) in [
            (Call::Open(3), 0),
            (Call::Open(3), 4),
            (Call::Commit(1), 0),
            (Call::Commit(1), 3),
            (Call::Abort(2), 0),
            (Call::Abort(2), 3),
            (Call::Start(2, rule), 0),
            (Call::Start(1, rule), 1),
        ] {
            assert_eq!(told(&mut case, call), [number, 0, 0, 0, 0, 0], "{call:?}");
        }
    }
}
