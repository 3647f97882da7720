//! Rule 2, case by case: a job may go on with the tiles that it changed.

use crate::common::*;
use second::address::Address;
use second::operation::Procedure;
use second::rule::Rule;
use second::soundness::kind_of;
use second::strictness::{most_tiles, run, step_on, strict, Step, Tiles};

fn with_places(places: usize, present: &[Address]) -> Bench {
    Bench::with_places_by(Rule::JobAsOne, places, present)
}

fn ample(present: &[Address]) -> Bench {
    with_places(100, present)
}

/// The operations of jobs as a history that starts with no tiles, all unfinished.
fn history(calls: &[(usize, Procedure, Address)]) -> Vec<Step> {
    let mut steps: Vec<Step> = Vec::new();
    for (job, procedure, address) in calls {
        let left = run(&Tiles::new(), steps.iter()).expect("a history that runs");
        steps.push(step_on(*job, *procedure, tile(*address), &left.tiles));
    }
    steps
}

#[test]
fn a_job_may_look_at_its_own_insert() {
    let mut bench = ample(&[]);
    assert_eq!(bench.ins(1, A), OK);
    assert_eq!(bench.mem(1, A), OK);
    assert_eq!(bench.ins(1, A), OK);
    assert_eq!(bench.del(1, A), OK);
    assert_eq!(bench.mem(1, A), FAIL);
    assert_eq!(bench.del(1, A), OK);
    let kinds: Vec<u64> = bench
        .entries()
        .iter()
        .map(|entry| kind_of(*entry))
        .collect();
    assert_eq!(kinds, [1, 5, 2, 3, 6, 4]);
}

#[test]
fn a_replaced_tile_is_back_after_an_abort() {
    let mut bench = ample(&[A]);
    let before = bench.tables.tiles.clone();
    assert_eq!(bench.del(1, A), OK);
    assert_eq!(bench.ins(1, A), OK);
    assert_eq!(bench.abort(1), DONE);
    assert_eq!(bench.tables.tiles, before);
}

#[test]
fn recoveries_oldest_first_would_leave_other_tiles() {
    for (present, words) in [
        (vec![A], [Procedure::Delete, Procedure::Insert]),
        (vec![], [Procedure::Insert, Procedure::Delete]),
    ] {
        let start: Tiles = present.iter().map(|address| tile(*address)).collect();
        let mut tiles = start.clone();
        let mut steps = Vec::new();
        for word in words {
            steps.push(step_on(1, word, tile(A), &tiles));
            tiles = run(&start, steps.iter()).expect("its answers").tiles;
        }
        let (mut oldest_first, mut newest_first) = (tiles.clone(), tiles);
        for step in &steps {
            step.recovery.run(&mut oldest_first);
        }
        for step in steps.iter().rev() {
            step.recovery.run(&mut newest_first);
        }
        assert_eq!(newest_first, start);
        assert_ne!(oldest_first, start);
    }
}

#[test]
fn only_changes_of_another_job_hold() {
    let mut bench = ample(&[A]);
    assert_eq!(bench.open(3), DONE);
    // What changes nothing holds nobody.
    assert_eq!(bench.mem(1, A), OK);
    assert_eq!(bench.ins(1, A), OK);
    assert_eq!(bench.del(2, A), OK);
    assert_eq!(bench.mem(1, A), held(2));
    assert_eq!(bench.del(3, A), held(2));
    assert_eq!(bench.ins(2, A), OK);
    assert_eq!(bench.ins(1, A), held(2));
    assert_eq!(bench.commit(2), DONE);
    assert_eq!(bench.ins(1, A), OK);
}

#[test]
fn held_though_strict() {
    let mut bench = ample(&[]);
    assert_eq!(bench.ins(1, A), OK);
    assert_eq!(bench.del(1, A), OK);
    assert_eq!(bench.mem(2, A), held(1));
    let calls = [
        (1, Procedure::Insert, A),
        (1, Procedure::Delete, A),
        (2, Procedure::Member, A),
    ];
    assert!(strict(Rule::JobAsOne, &Tiles::new(), &history(&calls)));
    // By rule 1 the job's own delete is held already.
    assert!(!strict(
        Rule::EachAlone,
        &Tiles::new(),
        &history(&calls[..2])
    ));
}

#[test]
fn no_room_though_no_outcome_needs_the_place() {
    let mut bench = with_places(1, &[]);
    assert_eq!(bench.ins(1, A), OK);
    assert_eq!(bench.del(1, A), OK);
    assert_eq!(bench.ins(2, B), refused(7));
    let steps = history(&[
        (1, Procedure::Insert, A),
        (1, Procedure::Delete, A),
        (2, Procedure::Insert, B),
    ]);
    assert!(strict(Rule::JobAsOne, &Tiles::new(), &steps));
    assert_eq!(most_tiles(Rule::JobAsOne, &Tiles::new(), &steps), 1);
}

#[test]
fn a_deleted_tile_keeps_its_place_for_its_job_alone() {
    let mut bench = with_places(1, &[A]);
    assert_eq!(bench.del(1, A), OK);
    assert_eq!(bench.ins(1, B), refused(7));
    assert_eq!(bench.ins(2, B), refused(7));
    assert_eq!(bench.ins(2, A), held(1));
    assert_eq!(bench.ins(1, A), OK);
    assert_eq!(bench.ins(1, B), refused(7));
    assert_eq!(bench.del(1, A), OK);
    assert_eq!(bench.commit(1), DONE);
    assert_eq!(bench.ins(2, B), OK);
}

#[test]
fn a_tile_deleted_twice_has_one_place() {
    let mut bench = with_places(2, &[A]);
    for call in [Bench::del, Bench::ins, Bench::del, Bench::ins, Bench::del] {
        assert_eq!(call(&mut bench, 1, A), OK);
    }
    assert_eq!(bench.ins(2, B), OK);
    assert_eq!(bench.abort(1), DONE);
    assert!(bench.has(A) && bench.has(B));
}

#[test]
fn a_present_tile_with_an_unfinished_delete_has_one_place() {
    let mut bench = with_places(2, &[A]);
    assert_eq!(bench.del(1, A), OK);
    assert_eq!(bench.ins(1, A), OK);
    // Rule 1 would count the entry of kind 3 besides the tile.
    assert_eq!(bench.ins(2, B), OK);
}

#[test]
fn the_seam_cases_with_two_jobs_stay() {
    let mut bench = ample(&[]);
    assert_eq!(bench.ins(1, A), OK);
    assert_eq!(bench.ins(2, A), held(1));
    let mut bench = ample(&[A]);
    assert_eq!(bench.ins(1, A), OK);
    assert_eq!(bench.del(2, A), OK);
    assert_eq!(bench.abort(1), DONE);
    assert!(!bench.has(A));
    let mut bench = ample(&[]);
    assert_eq!(bench.del(1, A), OK);
    assert_eq!(bench.ins(2, A), OK);
    assert_eq!(bench.abort(1), DONE);
    assert!(bench.has(A));
    let mut bench = with_places(1, &[A]);
    assert_eq!(bench.del(1, A), OK);
    assert_eq!(bench.ins(2, A), held(1));
}
