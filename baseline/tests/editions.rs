//! Editions: a row counted from the south is the same tile, and everything else stays.

use crate::common::*;
use baseline::rectangle::{Change, Rectangle};
use baseline::reply::{numbers, Refusal};
use baseline::rule::Rule;
use baseline::tile::{Address, FROM_NORTH, FROM_SOUTH};
use baseline::workload::editions::{from_south, rows_from_south};
use baseline::workload::histories::{any_call, small_world};
use baseline::workload::random::Random;
use baseline::workload::rectangles::level_of;
use baseline::workload::world::Call;
use std::collections::BTreeSet;

const SOUTHERN: Address = Address {
    edition: FROM_SOUTH,
    ..C
};

/// The number that is told on ample tables.
fn number_of(change: Change, rectangle: Rectangle) -> i64 {
    let mut case = Case::ample(&[]);
    numbers_of(case.call(Call::Rectangle(of_job(1), change, rectangle)))[0]
}

#[test]
fn the_two_ends_of_every_level_meet() {
    for zoom in 4..=14u8 {
        let last = (1 << zoom) - 1;
        for (row, north) in [(0, last), (1, last - 1), (last - 1, 1), (last, 0)] {
            let southern = Address {
                zoom,
                row,
                ..SOUTHERN
            };
            let northern = Address {
                zoom,
                row: north,
                ..C
            };
            assert_eq!(southern.key_and_turns(), northern.key_and_turns());
            assert_eq!(from_south(northern), southern);
        }
    }
}

#[test]
fn a_row_out_of_range_is_refused_from_either_end() {
    for edition in [FROM_SOUTH, FROM_NORTH] {
        for zoom in 4..=14u8 {
            for row in [i32::MIN, i32::MIN + 1, -1, 1 << zoom, i32::MAX] {
                let address = Address {
                    edition,
                    zoom,
                    row,
                    ..C
                };
                assert_eq!(address.key_and_turns(), Err(Refusal::OutOfRange));
            }
        }
    }
}

#[test]
fn every_other_edition_is_refused_before_the_range() {
    for edition in 0..=255 {
        let is_one = [FROM_SOUTH, FROM_NORTH].contains(&edition);
        let refusal = |of: Address| Address { edition, ..of }.key_and_turns().err();
        let first = Some(Refusal::NoEdition).filter(|_| !is_one);
        assert_eq!(refusal(C), first);
        let nowhere = Address { zoom: 3, ..C };
        assert_eq!(refusal(nowhere), first.or(Some(Refusal::OutOfRange)));
    }
}

#[test]
fn a_tile_is_held_from_both_ends() {
    for rule in Rule::ALL {
        let mut case = Case::by(rule, 4, &[]);
        assert_eq!(case.insert(1, from_south(A)), OK);
        assert!(case.has(A));
        assert_eq!(case.member(2, A), held(1));
        assert_eq!(case.member(2, from_south(A)), held(1));
        // the row as it stands is another tile
        let other = Address {
            row: A.row,
            ..from_south(A)
        };
        assert_eq!(case.member(2, other), FAIL);
    }
}

#[test]
fn rows_are_turned_before_a_rectangle_is_judged_empty() {
    let southern = rows_from_south(level_of(4));
    assert_eq!((southern.top, southern.bottom), (15, 0));
    let upside_down = Rectangle {
        top: 0,
        bottom: 15,
        ..southern
    };
    for change in Change::ALL {
        assert_eq!(number_of(change, southern), 0);
        assert_eq!(number_of(change, upside_down), 13);
        for (top, bottom) in [(16, 0), (15, -1), (i32::MIN, 0), (0, i32::MIN)] {
            let outside = Rectangle {
                top,
                bottom,
                ..southern
            };
            assert_eq!(number_of(change, outside), 5);
            let edition = 0;
            assert_eq!(number_of(change, Rectangle { edition, ..outside }), 14);
        }
    }
}

/// The same call, with what is counted from the south counted from the north.
fn from_north(call: Call) -> Call {
    match call {
        Call::Operation(origin, procedure, of) if of.edition == FROM_SOUTH => {
            let edition = FROM_NORTH;
            let turned = from_south(of);
            Call::Operation(origin, procedure, Address { edition, ..turned })
        }
        Call::Rectangle(origin, change, of) if of.edition == FROM_SOUTH => {
            let edition = FROM_NORTH;
            let turned = rows_from_south(of);
            Call::Rectangle(origin, change, Rectangle { edition, ..turned })
        }
        other => other,
    }
}

/// Replies, tables and journals know north rows only, whatever is told to calls that count from the
/// south.
#[test]
fn histories_do_not_depend_on_the_edition() {
    let mut random = Random::seeded(51);
    for rule in Rule::ALL {
        let mut told = BTreeSet::new();
        for _ in 0..100 {
            let keys = random.distinct_keys(Vec::new(), 4);
            let mut case = Case {
                world: small_world(&mut random, &keys),
            };
            let start = Call::Start(case.world.session.tiles, rule);
            assert_eq!(case.call(start), DONE);
            for _ in 0..100 {
                let call = any_call(&mut random, &keys, 4);
                let mut other = Case {
                    world: case.world.clone(),
                };
                let reply = case.reply(call);
                assert_eq!(other.reply(from_north(call)), reply, "{call:?}");
                assert!(other.world == case.world, "{call:?}");
                if from_north(call) != call {
                    told.insert(numbers(reply)[0]);
                }
            }
        }
        assert_eq!(told, [0, 2, 3, 5, 6, 7, 8, 9, 13].into());
    }
}
