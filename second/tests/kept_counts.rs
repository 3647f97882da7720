//! The counts that a session keeps: what a start makes of them, how each call moves them, and that
//! after every call of small worlds they are what the definitions count.

use crate::common::counts::KeptCounts;
use crate::common::*;
use second::address::Address;
use second::operation::PROCEDURES;
use second::rectangle::{Rectangle, Sweep, SWEEPS};
use second::rule::{Rule, RULES};
use second::service;
use second::session::{Session, Tables};
use std::collections::BTreeSet;

/// On another level than A and B.
const FAR: Address = Address { zoom: 9, ..A };

/// A and the tile east of it, across the seam.
const PAIR: Rectangle = Rectangle {
    edition: 2,
    zoom: 4,
    west: -1,
    east: 0,
    top: 5,
    bottom: 5,
};

/// So many tiles on the levels 4 and 9 and none on the others, and so many places spoken for.
fn counts(fourth: u32, ninth: u32, spoken: u32) -> KeptCounts {
    ([fourth, 0, 0, 0, 0, ninth, 0, 0, 0, 0, 0], spoken)
}

#[test]
fn the_count_of_every_zoom_there_could_be() {
    let session = Session {
        levels: [3, 1, 4, 1, 5, 9, 2, 6, 8, 7, u32::MAX],
        spoken: 99,
        ..Session::empty()
    };
    for zoom in 0..=255 {
        let due = match zoom {
            4..=14 => session.levels[usize::from(zoom) - 4],
            _ => 0,
        };
        assert_eq!(session.tiles_of_zoom(zoom), due, "{}", zoom);
        assert_eq!(Session::empty().tiles_of_zoom(zoom), 0);
    }
}

/// On each level one tile more than on the one before.
fn tiles_on_all_levels() -> Vec<u32> {
    let places = (4u32..=14).flat_map(|zoom| (0..zoom - 3).map(move |row| (zoom << 28) + row));
    places.collect()
}

#[test]
fn a_start_counts_the_tiles_and_a_refused_one_counts_nothing() {
    let keys = tiles_on_all_levels();
    let length = keys.len();
    for rule in RULES {
        let mut tables = Tables::lent(length + 1, 2, 8);
        tables.tiles[..length].copy_from_slice(&keys);
        // What stands in the operations table is cleared and does not count.
        let delete = (3 << 40) + u64::from(keys[0]) + 1;
        tables.operations.fill(delete);
        let (session, reply) = service::start(&mut tables, length as u32, rule);
        assert_eq!(without_turns(reply), DONE);
        assert_eq!(session.levels, [1, 2, 3, 4, 5, 6, 7, 8, 9, 10, 11]);
        assert_eq!(session.spoken, 0);
        for wrong in [length - 1, length + 1] {
            let (session, reply) = service::start(&mut tables, wrong as u32, rule);
            assert_eq!(without_turns(reply), refused(1));
            assert_eq!(session, Session::empty());
        }
    }
    let mut tables = Tables::lent(length, 2, 3);
    tables.tiles.copy_from_slice(&keys);
    let (session, reply) = service::start(&mut tables, length as u32, Rule::JobAsOne);
    assert_eq!(without_turns(reply), refused(9));
    assert_eq!(session, Session::empty());
}

type Call = fn(&mut Bench) -> Told;

/// A call, what it is told, and the counts that it leaves.
type Moved = (Call, Told, KeptCounts);

fn insert_pair(bench: &mut Bench) -> Told {
    bench.sweep(1, Sweep::Insert, PAIR)
}

fn delete_pair(bench: &mut Bench) -> Told {
    bench.sweep(1, Sweep::Delete, PAIR)
}

fn moves(mut bench: Bench, steps: &[Moved]) {
    for (place, (call, told, counts)) in steps.iter().enumerate() {
        assert_eq!(call(&mut bench), *told, "call {}", place);
        assert_eq!(bench.kept_counts(), *counts, "call {}", place);
    }
}

#[test]
fn every_way_by_both_rules() {
    for rule in RULES {
        let bench = Bench::with_places_by(rule, 10, &[A, B, FAR]);
        moves(
            bench,
            &[
                (|bench| bench.del(1, A), OK, counts(1, 1, 1)),
                (|bench| bench.ins(2, B), OK, counts(1, 1, 1)),
                (|bench| bench.mem(2, FAR), OK, counts(1, 1, 1)),
                (|bench| bench.del(2, FAR), OK, counts(1, 0, 2)),
                (|bench| bench.ins(2, A), held(1), counts(1, 0, 2)),
                (|bench| bench.open(3), DONE, counts(1, 0, 2)),
                (|bench| bench.commit(3), DONE, counts(1, 0, 2)),
                (|bench| bench.abort(2), DONE, counts(1, 1, 1)),
                (|bench| bench.commit(1), DONE, counts(1, 1, 0)),
                (|bench| bench.open(1), DONE, counts(1, 1, 0)),
                (insert_pair, DONE, counts(3, 1, 0)),
                (|bench| bench.abort(1), DONE, counts(1, 1, 0)),
                (|bench| bench.open(1), DONE, counts(1, 1, 0)),
                (|bench| bench.del(1, A), OK, counts(1, 1, 0)),
            ],
        );
    }
}

#[test]
fn a_rectangle_speaks_for_the_places_of_its_present_tiles() {
    for rule in RULES {
        let there = Address { column: 0, ..A };
        for (present, spoken) in [(vec![], 0), (vec![A], 1), (vec![A, there], 2)] {
            let bench = Bench::with_places_by(rule, 10, &present);
            let tiles = present.len() as u32;
            let aborted: Moved = (|bench| bench.abort(1), DONE, counts(tiles, 0, 0));
            moves(bench, &[(delete_pair, DONE, counts(0, 0, spoken)), aborted]);
        }
    }
}

/// Beside a delete of another job, whose place stays spoken for.
#[test]
fn what_only_rule_2_allows() {
    let replaced: [Moved; 5] = [
        (|bench| bench.del(2, FAR), OK, counts(1, 0, 1)),
        (|bench| bench.del(1, A), OK, counts(0, 0, 2)),
        (|bench| bench.del(1, A), OK, counts(0, 0, 2)),
        (insert_pair, DONE, counts(2, 0, 1)),
        (insert_pair, DONE, counts(2, 0, 1)),
    ];
    // Both tiles go again, so that A was deleted twice.
    let gone: Moved = (delete_pair, DONE, counts(0, 0, 3));
    let (commit, abort): (Call, Call) = (|bench| bench.commit(1), |bench| bench.abort(1));
    for (end, left, left_again) in [(commit, 2, 0), (abort, 1, 1)] {
        let bench = Bench::with_places_by(Rule::JobAsOne, 10, &[A, FAR]);
        let end_there: Moved = (end, DONE, counts(left, 0, 1));
        moves(bench.clone(), &[&replaced[..], &[end_there]].concat());
        let end_again: Moved = (end, DONE, counts(left_again, 0, 1));
        moves(bench, &[&replaced[..], &[gone, end_again]].concat());
    }
}

/// Every call of two jobs on a pair of tiles, the first of them, and one on another level.
fn every_call(bench: &mut Bench, number: usize) -> Option<Told> {
    let job = [1, 2][number % 2];
    Some(match number / 2 {
        0 => bench.open(job),
        1 => bench.commit(job),
        2 => bench.abort(job),
        one @ 3..=5 => bench.operate(job, PROCEDURES[one - 3], A),
        one @ 6..=7 => bench.operate(job, PROCEDURES[one - 6], FAR),
        one @ 8..=9 => bench.sweep(job, SWEEPS[one - 8], PAIR),
        _ => return None,
    })
}

/// All that a world is but for its journal, which is made empty for it.
fn world_of(bench: &mut Bench) -> Vec<u64> {
    bench.session.journal = 0;
    let marks = bench.session.open.iter().map(|mark| u64::from(*mark));
    let tiles = bench.tables.tiles.iter().map(|key| u64::from(*key));
    let entries = bench.tables.operations.iter().copied();
    marks.chain(tiles).chain(entries).collect()
}

/// Makes every call from every world that can be reached; gives how many worlds there are.
fn explore(start: Bench) -> usize {
    let mut known = BTreeSet::new();
    let mut ahead = vec![start];
    while let Some(mut bench) = ahead.pop() {
        if known.insert(world_of(&mut bench)) {
            ahead.extend(worlds_behind(&bench));
        }
    }
    known.len()
}

fn worlds_behind(bench: &Bench) -> Vec<Bench> {
    let mut reached = Vec::new();
    for number in 0.. {
        let mut after = bench.clone();
        match every_call(&mut after, number) {
            None => break,
            Some(told) if told.0 != 0 => assert_eq!(after, *bench),
            Some(_) => {
                assert_eq!(after.kept_counts(), after.due_counts(), "{:?}", after);
                reached.push(after);
            }
        }
    }
    reached
}

#[test]
fn after_every_call_of_small_worlds_the_counts_are_fresh() {
    for rule in RULES {
        for places in [1, 2, 3] {
            let worlds = explore(Bench::started_by(rule, (places, 3, 40), &[FAR]));
            assert!(worlds > 1000, "{:?} {} {}", rule, places, worlds);
        }
    }
}
