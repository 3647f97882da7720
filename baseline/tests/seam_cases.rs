//! The seam cases of the paper, its addresses and its table of commutativity.

use crate::common::*;
use baseline::entry::{commutes, DELETED, INSERTED};
use baseline::reply::Refusal;
use baseline::tile::{is_key, Address};

#[test]
fn a_second_job_may_not_insert_what_is_unfinished() {
    let mut case = Case::ample(&[]);
    assert_eq!(case.insert(1, A), OK);
    assert_eq!(case.insert(2, A), held(1));
}

#[test]
fn a_job_may_not_ask_for_its_own_insert() {
    let mut case = Case::ample(&[]);
    assert_eq!(case.insert(1, A), OK);
    assert_eq!(case.member(1, A), held(1));
}

#[test]
fn an_insert_of_a_present_tile_is_undone_by_nothing() {
    let mut case = Case::ample(&[A]);
    assert_eq!(case.insert(1, A), OK);
    assert_eq!(case.delete(2, A), OK);
    assert_eq!(case.abort(1), DONE);
    assert!(!case.has(A));
}

#[test]
fn a_tile_that_was_asked_for_may_be_deleted() {
    let mut case = Case::ample(&[A]);
    assert_eq!(case.member(1, A), OK);
    assert_eq!(case.delete(2, A), OK);
}

#[test]
fn a_delete_of_nothing_is_undone_by_nothing() {
    let mut case = Case::ample(&[]);
    assert_eq!(case.delete(1, A), OK);
    assert_eq!(case.insert(2, A), OK);
    assert_eq!(case.abort(1), DONE);
    assert!(case.has(A));
}

#[test]
fn a_deleted_tile_keeps_its_place_until_the_commit() {
    let mut case = Case::with_places(1, &[A]);
    assert_eq!(case.delete(1, A), OK);
    assert_eq!(case.insert(2, B), Err(Refusal::NoTileRoom));
    assert_eq!(case.commit(1), DONE);
    assert_eq!(case.insert(2, B), OK);
}

#[test]
fn held_comes_before_room() {
    let mut case = Case::with_places(1, &[A]);
    assert_eq!(case.delete(1, A), OK);
    assert_eq!(case.insert(2, A), held(1));
}

#[test]
fn a_present_tile_needs_no_room() {
    let mut case = Case::with_places(1, &[A]);
    assert_eq!(case.insert(1, A), OK);
}

#[test]
fn what_changed_the_tiles_is_undone() {
    let mut case = Case::ample(&[A]);
    assert_eq!(case.delete(1, A), OK);
    assert_eq!(case.insert(1, B), OK);
    assert_eq!(case.member(2, C), FAIL);
    assert_eq!(case.abort(1), DONE);
    assert!(case.has(A) && !case.has(B));
    assert_eq!(case.world.session.operations, 1);
}

#[test]
fn keys_of_addresses() {
    assert_eq!(A.key(), Some(1_073_987_589));
    assert_eq!(B.key(), Some(4_026_531_839));
    assert_eq!(C.key(), Some(1_073_741_824));
    for (zoom, row) in [(4, 16), (4, -1), (3, 0), (15, 0), (255, 0)] {
        let address = Address { zoom, row, ..C };
        assert_eq!(address.key(), None, "{address:?}");
    }
    let far = |column| Address { column, ..A }.key();
    assert_eq!(far(i32::MIN), far(0));
    assert_eq!(far(i32::MAX), far(-1));
}

#[test]
fn a_key_is_valid_only_if_it_comes_from_an_address() {
    for zoom in 0..16u32 {
        let served = (4..=14).contains(&zoom);
        let last = (1 << zoom.min(14)) - 1;
        let key = |column: u32, row: u32| zoom << 28 | column << 14 | row;
        assert_eq!(is_key(key(last, last)), served);
        if served && zoom < 14 {
            assert!(!is_key(key(last + 1, 0)) && !is_key(key(0, last + 1)));
        }
    }
    assert!(!is_key(0));
}

#[test]
fn the_table_of_commutativity() {
    let with_insert = [false, true, false, false, true, false];
    let with_delete = [false, false, false, true, false, true];
    for (kind, at) in (1..=6).zip(0..) {
        assert_eq!(commutes(kind, DELETED), with_insert[at]);
        assert_eq!(commutes(kind, INSERTED), with_delete[at]);
        for skipped in [2, 4, 5, 6] {
            assert!(commutes(kind, skipped));
        }
    }
}
