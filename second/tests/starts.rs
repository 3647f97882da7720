//! Starts by both rules: what they decide by, what they write and what they leave.

use crate::common::*;
use second::rule::{Rule, RULES};
use second::service;
use second::session::{Session, Tables};

/// Tables in which nothing is 0 but the tiles.
fn used_tables(tiles: usize, operations: usize, journal: usize) -> Tables {
    let mut tables = Tables::lent(tiles, operations, journal);
    tables.operations.iter_mut().for_each(|entry| *entry = 9);
    tables.journal.iter_mut().for_each(|byte| *byte = 9);
    tables
}

#[test]
fn a_start_decides_by_tiles_and_lengths() {
    let cases = [
        ((0, 1, 4), 1),
        ((1, 0, 4), 1),
        ((4097, 1, 4), 1),
        ((1, 1025, 4), 1),
        ((1, 1, 65_537), 1),
        ((1, 1, 4), 0),
        ((4096, 1024, 65_536), 0),
    ];
    for rule in RULES {
        for ((tiles, operations, journal), due) in cases {
            let mut tables = used_tables(tiles, operations, journal);
            let before = tables.clone();
            let (session, reply) = service::start(&mut tables, 0, rule);
            assert_eq!(without_turns(reply), refused(due));
            if due == 0 {
                assert!(tables.operations.iter().all(|entry| *entry == 0));
                assert_eq!(session.rule, rule);
            } else {
                assert_eq!((session, tables), (Session::empty(), before));
            }
        }
    }
}

#[test]
fn a_start_decides_by_the_count() {
    let key = tile(A).key();
    for rule in RULES {
        for (count, due) in [(0, 1), (1, 0), (2, 1), (3, 1), (u32::MAX, 1)] {
            let mut tables = Tables::lent(2, 1, 4);
            tables.tiles[0] = key;
            let (session, reply) = service::start(&mut tables, count, rule);
            assert_eq!(without_turns(reply), refused(due));
            assert_eq!(session.tiles, if due == 0 { count } else { 0 });
            assert_eq!(tables.tiles, [key, 0]);
        }
    }
}

#[test]
fn a_start_by_rule_1_touches_no_journal_byte() {
    for length in 0..8 {
        let mut tables = used_tables(1, 1, length);
        let (session, reply) = service::start(&mut tables, 0, Rule::EachAlone);
        assert_eq!(without_turns(reply), DONE);
        assert_eq!(session, Session::empty());
        assert_eq!(tables.journal, vec![9; length]);
    }
}

#[test]
fn a_start_by_rule_2_writes_four_bytes_and_needs_them() {
    for length in 0..8 {
        let mut tables = used_tables(1, 1, length);
        let before = tables.clone();
        let (session, reply) = service::start(&mut tables, 0, Rule::JobAsOne);
        if length < 4 {
            assert_eq!(without_turns(reply), refused(9));
            assert_eq!((session, tables), (Session::empty(), before));
            continue;
        }
        assert_eq!(without_turns(reply), DONE);
        assert_eq!(tables.journal[..4], [5, 0, 1, 2]);
        assert_eq!(tables.journal[4..], before.journal[4..]);
        let started = Session {
            journal: 4,
            rule: Rule::JobAsOne,
            ..Session::empty()
        };
        assert_eq!(session, started);
    }
}

#[test]
fn tables_that_are_not_sound_come_before_the_journal() {
    let mut tables = Tables::lent(1, 1, 3);
    tables.tiles[0] = 1;
    for rule in RULES {
        let (session, reply) = service::start(&mut tables, 1, rule);
        assert_eq!(without_turns(reply), refused(1));
        assert_eq!(session, Session::empty());
    }
}

#[test]
fn every_call_keeps_the_rule() {
    for rule in RULES {
        let mut bench = Bench::started_by(rule, (4, 4, 100), &[]);
        let calls: [fn(&mut Bench); 6] = [
            |bench| assert_eq!(bench.open(1), DONE),
            |bench| assert_eq!(bench.ins(1, A), OK),
            |bench| assert_eq!(bench.open(2), DONE),
            |bench| assert_eq!(bench.mem(2, A), held(1)),
            |bench| assert_eq!(bench.commit(1), DONE),
            |bench| assert_eq!(bench.abort(2), DONE),
        ];
        for call in calls {
            call(&mut bench);
            assert_eq!(bench.session.rule, rule);
        }
    }
}

#[test]
fn the_rule_record_takes_room_from_the_calls() {
    for free in 0..12 {
        let mut bench = Bench::started_by(Rule::JobAsOne, (1, 1, 4 + free), &[]);
        let due = if free < 8 { refused(9) } else { DONE };
        assert_eq!(bench.open(0), due);
    }
}
