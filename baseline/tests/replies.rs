//! The first number of its list that applies is given, rooms are exact to the byte, and records are as the
//! paper writes them.

use crate::common::*;
use baseline::journal::Procedure;
use baseline::reply::Refusal;
use baseline::rule::Rule;
use baseline::tile::{Address, FROM_SOUTH};
use baseline::workload::world::Call;

const NOWHERE: Address = Address {
    edition: 3,
    zoom: 3,
    column: 0,
    row: -1,
};

#[test]
fn numbers_of_an_operation_in_order() {
    // everything is wrong at first, and each step mends what was refused
    let mut case = Case::with_places(1, &[A]);
    assert_eq!(case.delete(1, A), OK);
    case.world.operations.truncate(1);
    case.world.journal.truncate(case.world.session.journal + 8);
    case.world.tiles[0] = 7;
    let told = |case: &mut Case, job, address| {
        numbers_of(case.call(Call::Operation(of_job(job), Procedure::Insert, address)))
    };
    assert_eq!(told(&mut case, 64, NOWHERE), [1, 0, 0]);
    case.world.tiles[0] = 0;
    assert_eq!(told(&mut case, 64, NOWHERE), [2, 0, 0]);
    assert_eq!(told(&mut case, 3, NOWHERE), [3, 0, 0]);
    assert_eq!(told(&mut case, 2, NOWHERE), [14, 0, 0]);
    let out_of_range = Address {
        edition: FROM_SOUTH,
        ..NOWHERE
    };
    assert_eq!(told(&mut case, 2, out_of_range), [5, 0, 0]);
    assert_eq!(told(&mut case, 2, A), [6, 0, 1]);
    assert_eq!(told(&mut case, 2, B), [7, 0, 0]);
    case.world.tiles.push(0);
    assert_eq!(told(&mut case, 2, B), [8, 0, 0]);
    case.world.operations.push(0);
    assert_eq!(told(&mut case, 2, B), [9, 0, 0]);
    case.world.journal.extend([0; 12]);
    assert_eq!(told(&mut case, 2, B), [0, 1, 0]);
}

#[test]
fn numbers_of_the_other_calls_in_order() {
    let mut case = Case::ample(&[]);
    let told = |case: &mut Case, call| numbers_of(case.call(call))[0];
    case.world.session.operations = 1;
    for call in [Call::Open(64), Call::Commit(64), Call::Abort(64)] {
        assert_eq!(told(&mut case, call), 1);
    }
    case.world.session.operations = 0;
    for call in [Call::Open(64), Call::Commit(255), Call::Abort(64)] {
        assert_eq!(told(&mut case, call), 2);
    }
    assert_eq!(told(&mut case, Call::Commit(3)), 3);
    assert_eq!(told(&mut case, Call::Abort(3)), 3);
    case.world.journal.truncate(case.world.session.journal + 15);
    assert_eq!(told(&mut case, Call::Open(1)), 4);
    assert_eq!(told(&mut case, Call::Open(3)), 9);
    case.world.journal.push(0);
    assert_eq!(told(&mut case, Call::Open(3)), 0);
}

#[test]
fn journal_room_of_an_operation_is_exact() {
    for (free, expected) in [(19, Err(Refusal::NoJournalRoom)), (20, OK)] {
        let mut case = Case::ample(&[]);
        let used = case.world.session.journal;
        case.world.journal.truncate(used + free);
        assert_eq!(case.insert(1, A), expected);
    }
}

#[test]
fn open_jobs_can_end_when_the_journal_is_full() {
    let mut case = Case::ample(&[]);
    let used = case.world.session.journal;
    case.world.journal.truncate(used + 8);
    assert_eq!(case.commit(1), DONE);
    assert_eq!(case.abort(2), DONE);
    assert_eq!(case.world.session.journal, case.world.journal.len());
}

#[test]
fn records_are_written_as_the_paper_says() {
    let mut case = Case::ample(&[]);
    case.world.journal.fill(0xEE);
    assert_eq!(case.call(Call::Start(0, Rule::Alone)), DONE);
    assert_eq!(case.call(Call::Open(3)), DONE);
    assert_eq!(case.insert(3, A), OK);
    assert_eq!(case.commit(3), DONE);
    assert_eq!(case.call(Call::Open(4)), DONE);
    assert_eq!(case.member(4, C), FAIL);
    assert_eq!(case.abort(4), DONE);
    let written = [
        &[1, 0, 1, 3][..],
        &[6, 0, 9, 3, 1, 1, 0x40, 0x03, 0xC0, 0x05, 0xFF, 0x03],
        &[3, 0, 1, 3],
        &[1, 0, 1, 4],
        &[6, 0, 9, 4, 3, 0, 0x40, 0x00, 0x00, 0x00, 0xFF, 0x04],
        &[4, 0, 1, 4],
    ];
    assert_eq!(case.world.written(), written.concat());
    let behind = &case.world.journal[case.world.session.journal..];
    assert!(behind.iter().all(|&byte| byte == 0xEE));
}

#[test]
fn entries_are_written_as_the_paper_says() {
    let mut case = Case::ample(&[A]);
    assert_eq!(case.delete(2, A), OK);
    assert_eq!(case.member(1, B), FAIL);
    let entry = |sheet: u64, kind: u64, job: u64, key: u64| {
        (sheet << 48) + (kind << 40) + (job << 32) + key
    };
    let expected = [
        entry(0xFF02, 3, 2, 1_073_987_589),
        entry(0xFF01, 6, 1, 4_026_531_839),
    ];
    assert_eq!(case.world.operations[..2], expected);
}
