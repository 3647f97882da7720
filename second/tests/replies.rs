//! The order of the replies and the exact room at which they turn.

use crate::common::*;
use second::address::Address;
use second::rectangle::{Rectangle, Sweep};
use second::rule::{Rule, RULES};

const NO_EDITION: Address = Address {
    edition: 3,
    ..NO_ROW
};

const NO_ROW: Address = Address {
    edition: 2,
    zoom: 4,
    column: 0,
    row: 16,
};

#[test]
fn the_first_number_that_applies_is_given() {
    // Nothing fits: unsound, job above 63, job not open, no such edition and row, no room at all.
    let mut bench = Bench::started((1, 1, 8), &[A]);
    bench.tables.tiles[0] += 16;
    assert_eq!(bench.ins(64, NO_EDITION), refused(1));
    bench.tables.tiles[0] -= 16;
    assert_eq!(bench.ins(64, NO_EDITION), refused(2));
    assert_eq!(bench.ins(63, NO_EDITION), refused(3));
    assert_eq!(bench.open(63), DONE);
    assert_eq!(bench.open(63), refused(4));
    assert_eq!(bench.ins(63, NO_EDITION), refused(14));
    assert_eq!(bench.ins(63, NO_ROW), refused(5));
    assert_eq!(bench.ins(63, B), refused(7));
    assert_eq!(bench.mem(63, B), refused(9));
}

#[test]
fn room_is_refused_in_the_order_of_the_tables() {
    let mut bench = Bench::started((1, 1, 24), &[A]);
    assert_eq!(bench.open(0), DONE);
    assert_eq!(bench.del(0, A), OK);
    // Held, no tile room, no operations place and no journal room at once.
    assert_eq!(bench.mem(0, A), held(0));
    assert_eq!(bench.ins(0, B), refused(7));
    assert_eq!(bench.del(0, B), refused(8));
    assert_eq!(bench.open(1), refused(9));
}

#[test]
fn journal_room_of_an_open() {
    for free in 0..20 {
        let mut bench = Bench::started((1, 1, free), &[]);
        let due = if free < 8 { refused(9) } else { DONE };
        assert_eq!(bench.open(0), due);
        if due == DONE {
            let second = if free - 4 < 12 { refused(9) } else { DONE };
            assert_eq!(bench.open(1), second);
        }
    }
}

/// A session with so many jobs open and so many bytes free.
fn with_free_bytes(rule: Rule, open_jobs: u8, free: usize) -> Bench {
    let mut bench = Bench::started_by(rule, (20, 20, 2000), &[]);
    for job in 0..open_jobs {
        assert_eq!(bench.open(job), DONE);
    }
    let used = bench.journal().len();
    bench.tables.journal.truncate(used + free);
    bench
}

#[test]
fn journal_room_of_an_operation() {
    for rule in RULES {
        for open_jobs in [1, 2, 3, 63, 64] {
            let endings = 4 * usize::from(open_jobs);
            for spare in 0..25 {
                let mut bench = with_free_bytes(rule, open_jobs, endings + spare);
                let due = if spare < 12 { refused(9) } else { FAIL };
                assert_eq!(bench.mem(0, A), due);
                let next = if spare < 24 { refused(9) } else { FAIL };
                assert_eq!(bench.mem(0, A), next);
                for job in 0..open_jobs {
                    assert_eq!(bench.commit(job), DONE);
                }
            }
        }
    }
}

#[test]
fn journal_room_of_a_rectangle() {
    for rule in RULES {
        for open_jobs in [1, 2, 64] {
            let endings = 4 * usize::from(open_jobs);
            for width in 1..=16 {
                let place = Rectangle {
                    edition: 2,
                    zoom: 4,
                    west: -1,
                    east: width - 2,
                    top: 5,
                    bottom: 5,
                };
                let needed = 12 * width as usize + endings;
                for (free, due) in [(needed - 1, refused(9)), (needed, DONE)] {
                    let mut bench = with_free_bytes(rule, open_jobs, free);
                    assert_eq!(bench.sweep(0, Sweep::Insert, place), due);
                }
            }
        }
    }
}

#[test]
fn an_open_job_can_always_end() {
    for open_jobs in 1..=64u8 {
        let length = 4 * usize::from(open_jobs) * 2;
        let mut bench = Bench::started((1, 1, length), &[]);
        for job in 0..open_jobs {
            assert_eq!(bench.open(job), DONE);
        }
        for job in 0..open_jobs {
            assert_eq!(bench.abort(job), DONE);
        }
        assert_eq!(bench.journal().len(), length);
    }
}

#[test]
fn commits_and_aborts_of_jobs_that_are_not_open() {
    let mut bench = Bench::ample(&[]);
    assert_eq!(bench.commit(3), refused(3));
    assert_eq!(bench.abort(3), refused(3));
    assert_eq!(bench.commit(64), refused(2));
    assert_eq!(bench.abort(255), refused(2));
    assert_eq!(bench.open(64), refused(2));
}

#[test]
fn gaps_close_and_the_order_stays() {
    let mut bench = Bench::ample(&[]);
    let column = |column| Address { column, ..B };
    bench.ins(1, column(1));
    bench.ins(2, column(2));
    bench.ins(1, column(3));
    bench.ins(2, column(4));
    assert_eq!(bench.abort(1), DONE);
    let inserted = (40_002 << 48) + (1 << 40) + (2 << 32) + u64::from(tile(B).key());
    let due = [inserted + 2 * 16_384, inserted + 4 * 16_384, 0];
    assert_eq!(bench.tables.operations[..3], due);
    assert_eq!(bench.session.operations, 2);
    assert_eq!(bench.session.tiles, 2);
}
