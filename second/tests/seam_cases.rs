//! The seam cases and the shortcuts to keep out.

use crate::common::*;
use second::address::Address;
use second::journal::{Reader, Reading};

#[test]
fn a_second_job_may_not_insert_what_is_unfinished() {
    let mut bench = Bench::ample(&[]);
    assert_eq!(bench.ins(1, A), OK);
    assert_eq!(bench.ins(2, A), held(1));
}

#[test]
fn a_job_may_not_look_at_its_own_insert() {
    let mut bench = Bench::ample(&[]);
    assert_eq!(bench.ins(1, A), OK);
    assert_eq!(bench.mem(1, A), held(1));
}

#[test]
fn an_insert_of_a_present_tile_is_undone_by_nothing() {
    let mut bench = Bench::ample(&[A]);
    assert_eq!(bench.ins(1, A), OK);
    assert_eq!(bench.del(2, A), OK);
    assert_eq!(bench.abort(1), DONE);
    assert!(!bench.has(A));
}

#[test]
fn a_tile_that_was_looked_at_may_be_deleted() {
    let mut bench = Bench::ample(&[A]);
    assert_eq!(bench.mem(1, A), OK);
    assert_eq!(bench.del(2, A), OK);
}

#[test]
fn a_delete_of_nothing_is_undone_by_nothing() {
    let mut bench = Bench::ample(&[]);
    assert_eq!(bench.del(1, A), OK);
    assert_eq!(bench.ins(2, A), OK);
    assert_eq!(bench.abort(1), DONE);
    assert!(bench.has(A));
}

#[test]
fn a_deleted_tile_keeps_its_place_until_the_commit() {
    let mut bench = Bench::with_places(1, &[A]);
    assert_eq!(bench.del(1, A), OK);
    assert_eq!(bench.ins(2, B), refused(7));
    assert_eq!(bench.commit(1), DONE);
    assert_eq!(bench.ins(2, B), OK);
}

#[test]
fn held_comes_before_room() {
    let mut bench = Bench::with_places(1, &[A]);
    assert_eq!(bench.del(1, A), OK);
    assert_eq!(bench.ins(2, A), held(1));
}

#[test]
fn a_present_tile_needs_no_room() {
    let mut bench = Bench::with_places(1, &[A]);
    assert_eq!(bench.ins(1, A), OK);
}

#[test]
fn shortcut_inserting_what_is_already_there_by_an_unfinished_insert() {
    let mut bench = Bench::ample(&[]);
    bench.ins(1, A);
    let before = bench.clone();
    assert_eq!(bench.ins(2, A), held(1));
    assert_eq!(bench, before);
    assert_eq!(bench.abort(1), DONE);
    assert!(!bench.has(A));
}

#[test]
fn shortcut_recovering_every_insert_by_a_delete() {
    let mut bench = Bench::ample(&[A]);
    bench.ins(1, A);
    assert_eq!(bench.abort(1), DONE);
    assert!(bench.has(A));
}

#[test]
fn shortcut_recovering_every_delete_by_an_insert() {
    let mut bench = Bench::ample(&[]);
    bench.del(1, A);
    assert_eq!(bench.abort(1), DONE);
    assert!(!bench.has(A));
}

#[test]
fn shortcut_giving_a_deleted_place_away() {
    let mut bench = Bench::with_places(2, &[A, B]);
    let other = Address {
        edition: 2,
        zoom: 5,
        column: 0,
        row: 0,
    };
    bench.del(1, A);
    assert_eq!(bench.ins(2, other), refused(7));
    assert_eq!(bench.abort(1), DONE);
    assert!(bench.has(A) && bench.has(B));
    assert_eq!(bench.ins(2, other), refused(7));
}

#[test]
fn shortcut_a_negative_remainder() {
    let mut bench = Bench::ample(&[]);
    let last_column = Address { column: 15, ..A };
    assert_eq!(bench.ins(1, A), OK);
    assert_eq!(bench.mem(2, last_column), held(1));
    assert_eq!(bench.tables.tiles[0], 1_073_987_589);
}

#[test]
fn shortcut_a_record_whose_last_byte_is_missing() {
    let mut bench = Bench::ample(&[]);
    bench.ins(1, A);
    let journal = bench.journal();
    for (place, size) in [(0, 4), (4, 4), (8, 12)] {
        let mut reader = Reader::at(&journal[..place + size - 1], place);
        assert_eq!(reader.read(), Reading::Cut);
        assert_eq!(reader.place(), place);
    }
}
