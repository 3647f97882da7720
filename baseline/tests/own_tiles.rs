//! The second rule, case by case: a job may go on with the tiles that it changed.

use crate::common::*;
use baseline::entry::kind;
use baseline::reply::Refusal;
use baseline::rule::Rule;
use baseline::tile::Address;

const NO_ROOM: Refusal = Refusal::NoTileRoom;

fn with_places(places: usize, present: &[Address]) -> Case {
    Case::by(Rule::Together, places, present)
}

fn ample(present: &[Address]) -> Case {
    with_places(4_096, present)
}

#[test]
fn a_job_may_ask_for_its_own_insert() {
    let mut case = ample(&[]);
    assert_eq!(case.insert(1, A), OK);
    assert_eq!(case.member(1, A), OK);
    assert_eq!(case.insert(1, A), OK);
    assert_eq!(case.delete(1, A), OK);
    assert_eq!(case.member(1, A), FAIL);
    assert_eq!(case.delete(1, A), OK);
    let entries = case.world.operations.iter().take(7);
    let kinds: Vec<u64> = entries.map(|&e| kind(e)).collect();
    assert_eq!(kinds, [1, 5, 2, 3, 6, 4, 0]);
}

#[test]
fn a_replaced_tile_is_back_after_an_abort() {
    // oldest first, the recoveries would leave the tile absent here, and present below
    let mut case = ample(&[A]);
    assert_eq!(case.delete(1, A), OK);
    assert_eq!(case.insert(1, A), OK);
    assert_eq!(case.abort(1), DONE);
    assert!(case.has(A));
    let mut case = ample(&[]);
    assert_eq!(case.insert(1, A), OK);
    assert_eq!(case.delete(1, A), OK);
    assert_eq!(case.abort(1), DONE);
    assert!(!case.has(A));
}

#[test]
fn only_changes_of_another_job_hold() {
    let mut case = ample(&[A]);
    assert_eq!(case.member(1, A), OK);
    assert_eq!(case.insert(1, A), OK);
    assert_eq!(case.delete(2, A), OK);
    assert_eq!(case.member(1, A), held(2));
    assert_eq!(case.delete(1, A), held(2));
    assert_eq!(case.insert(2, A), OK);
    assert_eq!(case.insert(1, A), held(2));
    assert_eq!(case.commit(2), DONE);
    assert_eq!(case.insert(1, A), OK);
}

#[test]
fn held_though_strict() {
    let mut case = ample(&[]);
    assert_eq!(case.insert(1, A), OK);
    assert_eq!(case.delete(1, A), OK);
    assert_eq!(case.member(2, A), held(1));
}

#[test]
fn no_room_though_no_outcome_needs_the_place() {
    let mut case = with_places(1, &[]);
    assert_eq!(case.insert(1, A), OK);
    assert_eq!(case.delete(1, A), OK);
    assert_eq!(case.insert(2, B), Err(NO_ROOM));
}

#[test]
fn a_deleted_tile_keeps_its_place_for_its_job_alone() {
    let mut case = with_places(1, &[A]);
    assert_eq!(case.delete(1, A), OK);
    assert_eq!(case.insert(1, B), Err(NO_ROOM));
    assert_eq!(case.insert(2, B), Err(NO_ROOM));
    assert_eq!(case.insert(2, A), held(1));
    assert_eq!(case.insert(1, A), OK);
    assert_eq!(case.insert(1, B), Err(NO_ROOM));
    assert_eq!(case.delete(1, A), OK);
    assert_eq!(case.commit(1), DONE);
    assert_eq!(case.insert(2, B), OK);
}

#[test]
fn a_tile_deleted_more_than_once_has_one_place() {
    let mut case = with_places(2, &[A]);
    for call in [Case::delete, Case::insert, Case::delete] {
        assert_eq!(call(&mut case, 1, A), OK);
    }
    assert_eq!(case.insert(2, B), OK);
    assert_eq!(case.insert(2, C), Err(NO_ROOM));
    assert_eq!(case.abort(1), DONE);
    assert!(case.has(A) && case.has(B));
}

#[test]
fn a_present_tile_with_an_unfinished_delete_has_one_place() {
    let mut case = with_places(2, &[A]);
    assert_eq!(case.delete(1, A), OK);
    assert_eq!(case.insert(1, A), OK);
    assert_eq!(case.insert(2, B), OK);
    assert_eq!(case.insert(2, C), Err(NO_ROOM));
}

#[test]
fn cases_with_two_jobs_stay() {
    let mut case = ample(&[]);
    assert_eq!(case.insert(1, A), OK);
    assert_eq!(case.insert(2, A), held(1));
    let mut case = ample(&[A]);
    assert_eq!(case.insert(1, A), OK);
    assert_eq!(case.delete(2, A), OK);
    assert_eq!(case.abort(1), DONE);
    assert!(!case.has(A));
    let mut case = ample(&[]);
    assert_eq!(case.delete(1, A), OK);
    assert_eq!(case.insert(2, A), OK);
    assert_eq!(case.abort(1), DONE);
    assert!(case.has(A));
}
