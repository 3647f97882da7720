//! A replay leaves what the calls that wrote the journal leave, and stops where the paper says.

use crate::common::*;
use baseline::journal::{read, Reading, Record, OPERATION_RECORD};
use baseline::replay::{Replayed, Stop};
use baseline::rule::Rule;
use baseline::soundness::Check;
use baseline::workload::histories::{any_call, small_world};
use baseline::workload::journals::{write_full, Load};
use baseline::workload::random::Random;
use baseline::workload::world::{Call, World};

const EXAMPLE: [u8; 32] = [
    1, 0, 1, 3, 2, 0, 7, 3, 1, 1, 0x40, 3, 0xC0, 5, 3, 0, 1, 3, 1, 0, 1, 4, 2, 0, 7, 4, 2, 1, 0x40,
    3, 0xC0, 5,
];

fn stops(journal: &[u8]) -> (Stop, usize, usize, usize) {
    let (result, tiles) = replayed(journal, &World::with_tiles(Vec::new()));
    let cut = replayed(&journal[..result.offset], &World::with_tiles(Vec::new()));
    assert_eq!(cut.1, tiles);
    assert_eq!((cut.0.undone, cut.0.count), (result.undone, result.count));
    (result.stop, result.offset, result.undone, result.count)
}

#[test]
fn the_printed_example() {
    assert_eq!(stops(&EXAMPLE), (Stop::Done, 32, 1, 1));
    assert_eq!(stops(&EXAMPLE[..31]), (Stop::Done, 22, 1, 1));
    assert_eq!(stops(&EXAMPLE[..17]), (Stop::Done, 14, 1, 0));
    let (_, tiles) = replayed(&EXAMPLE, &World::with_tiles(Vec::new()));
    assert_eq!(tiles[..2], [A.key().unwrap(), 0]);
}

#[test]
fn a_cut_tail_is_not_malformed() {
    for bytes in 0..32 {
        let whole = [32, 22, 18, 14, 4, 0].into_iter().find(|&end| end <= bytes);
        assert_eq!(stops(&EXAMPLE[..bytes]).0, Stop::Done);
        assert_eq!(stops(&EXAMPLE[..bytes]).1, whole.unwrap());
    }
    // in a cut record only the tag and the length count
    assert_eq!(read(&[2, 0, 7, 200, 9, 9], 0), Reading::Cut);
    assert_eq!(read(&[2, 0, 1], 0), Reading::Malformed);
    assert_eq!(read(&[1, 1], 0), Reading::Malformed);
    assert_eq!(read(&[7], 0), Reading::Malformed);
    assert_eq!(read(&[], 0), Reading::End);
}

#[test]
fn wrong_fields_are_malformed() {
    let wrong = [
        (3, 64),
        (7, 64),
        (8, 0),
        (8, 4),
        (9, 0),
        (9, 2),
        (10, 0x30),
        (12, 0xFF),
    ];
    for (at, byte) in wrong {
        let mut journal = EXAMPLE;
        journal[at] = byte;
        let place = if at < 4 { 0 } else { 4 };
        assert_eq!(stops(&journal).0, Stop::Malformed, "byte {at}");
        assert_eq!(stops(&journal).1, place);
    }
}

#[test]
fn records_that_are_not_admissible() {
    let open = [1, 0, 1, 3];
    let insert = &EXAMPLE[4..14];
    let two = [1, 0, 1, 9];
    let other = [2, 0, 7, 9, 1, 1, 0x40, 3, 0xC0, 5];
    assert_eq!(stops(insert), (Stop::NotAdmissible, 0, 0, 0));
    assert_eq!(stops(&[3, 0, 1, 3]), (Stop::NotAdmissible, 0, 0, 0));
    assert_eq!(stops(&[4, 0, 1, 3]), (Stop::NotAdmissible, 0, 0, 0));
    let twice = [open, open].concat();
    assert_eq!(stops(&twice), (Stop::NotAdmissible, 4, 1, 0));
    let held = [&open[..], insert, &two, &other].concat();
    assert_eq!(stops(&held), (Stop::NotAdmissible, 18, 2, 0));
}

#[test]
fn rooms_count_in_a_replay_and_journal_room_does_not() {
    let journal = &EXAMPLE[..14];
    let mut start = World::with_tiles(vec![B.key().unwrap()]);
    start.tiles.truncate(1);
    assert_eq!(replayed(journal, &start).0.stop, Stop::NotAdmissible);
    let mut start = World::with_tiles(Vec::new());
    start.operations.truncate(1);
    let mut twice = journal.to_vec();
    twice.extend_from_slice(&[2, 0, 7, 3, 3, 0, 0x40, 0, 0, 0]);
    let (result, _) = replayed(&twice, &start);
    assert_eq!((result.stop, result.offset), (Stop::NotAdmissible, 14));
}

#[test]
fn a_recorded_answer_that_differs() {
    let mut journal = EXAMPLE[..14].to_vec();
    journal[8] = 3;
    assert_eq!(stops(&journal), (Stop::AnswerDiffers, 4, 1, 0));
    journal[9] = 0;
    assert_eq!(stops(&journal), (Stop::Done, 14, 1, 0));
}

#[test]
fn what_cannot_start_changes_nothing() {
    let mut start = World::with_tiles(vec![A.key().unwrap()]);
    assert_eq!(replayed(&[0; 65_536], &start).0.stop, Stop::Malformed);
    let refused = Replayed {
        stop: Stop::NotSound,
        offset: 0,
        undone: 0,
        count: 1,
    };
    assert_eq!(replayed(&[0; 65_537], &start).0, refused);
    start.tiles[1] = 5;
    assert_eq!(replayed(&EXAMPLE, &start), (refused, start.tiles.clone()));
}

const TOGETHER: [u8; 4] = [5, 0, 1, 2];

#[test]
fn a_rule_record_stands_only_at_the_beginning() {
    let behind = |first: &[u8]| [first, &TOGETHER].concat();
    assert_eq!(read(&TOGETHER, 0), Reading::Whole(Record::Together));
    assert_eq!(stops(&TOGETHER), (Stop::Done, 4, 0, 0));
    assert_eq!(stops(&behind(&TOGETHER)), (Stop::Malformed, 4, 0, 0));
    assert_eq!(stops(&behind(&EXAMPLE)), (Stop::Malformed, 32, 1, 1));
    for field in [0, 1, 3, 255] {
        assert_eq!(stops(&[5, 0, 1, field]), (Stop::Malformed, 0, 0, 0));
    }
    for wrong in [&[5, 1][..], &[5, 0, 2], &[5, 0, 2, 2]] {
        assert_eq!(stops(wrong), (Stop::Malformed, 0, 0, 0));
    }
    // a tail that is cut is cut, wherever it stands
    for bytes in 1..4 {
        assert_eq!(stops(&TOGETHER[..bytes]), (Stop::Done, 0, 0, 0));
        let cut = [&EXAMPLE, &TOGETHER[..bytes]].concat();
        assert_eq!(stops(&cut), (Stop::Done, 32, 1, 1));
    }
}

#[test]
fn a_journal_runs_by_the_rule_that_it_names() {
    let asks_own = [&EXAMPLE[..14], &[2, 0, 7, 3, 3, 1], &EXAMPLE[10..14]].concat();
    assert_eq!(stops(&asks_own), (Stop::NotAdmissible, 14, 1, 0));
    let named = [&TOGETHER[..], &asks_own].concat();
    assert_eq!(stops(&named), (Stop::Done, 28, 1, 0));
    // part of the record in front is no cut tail
    assert_eq!(stops(&named[1..]), (Stop::Malformed, 0, 0, 0));
}

/// After every accepted call, the replay of what is written so far leaves what the calls and the
/// end of the open jobs leave; and a cut before the next leaves the same.
#[test]
fn a_replay_is_the_calls_that_wrote_the_journal() {
    let mut random = Random::seeded(21);
    for at in 0..60 {
        let keys = random.distinct_keys(Vec::new(), 8);
        let start = small_world(&mut random, &keys);
        let mut world = start.clone();
        let rule = Rule::ALL[at % 2];
        let started = world.call(Check::Filter, Call::Start(start.session.tiles, rule));
        assert_eq!(answer(started), DONE);
        for _ in 0..80 {
            let call = any_call(&mut random, &keys, 5);
            let before = world.clone();
            if world.call(Check::Filter, call).is_ok() {
                holds_after(&world, &start);
                holds_at_cuts(&before, world.written(), &start);
            }
        }
    }
}

/// What is cut inside a record of the last call leaves what was before it: inside a rectangle
/// that is its first operations.
fn holds_at_cuts(before: &World, journal: &[u8], start: &World) {
    let from = before.session.journal;
    for bytes in from + 1..journal.len() {
        let whole = from + (bytes - from) / OPERATION_RECORD * OPERATION_RECORD;
        assert!(replayed(&journal[..bytes], start) == replayed(&journal[..whole], start));
    }
}

fn holds_after(world: &World, start: &World) {
    let (result, tiles) = replayed(world.written(), start);
    let ended = ended(world.clone());
    assert_eq!(result.stop, Stop::Done);
    assert_eq!(result.offset, world.session.journal);
    assert_eq!(result.undone, world.session.open_jobs());
    assert_eq!(result.count, ended.session.tiles);
    assert!(tiles == ended.tiles);
}

#[test]
fn full_journals() {
    let mut random = Random::seeded(22);
    for rule in Rule::ALL {
        for (load, open) in [(Load::Few, 1..500), (Load::Many, 800..1_025)] {
            let keys = random.distinct_keys(Vec::new(), 5_000);
            let start = World::with_tiles(keys[..3_000].to_vec());
            let written = write_full(&mut random, rule, load, start, &keys);
            assert!(written.journal.len() > 65_000);
            let entries = written.end.session.operations;
            assert!(open.contains(&entries), "{entries}");
            assert_eq!(written.end.written(), written.journal);
            holds_after(&written.end, &written.start);
        }
    }
}

#[test]
fn a_job_that_opens_again_is_another_transaction() {
    let mut case = Case::ample(&[]);
    assert_eq!(case.insert(1, A), OK);
    assert_eq!(case.commit(1), DONE);
    assert_eq!(case.call(Call::Open(1)), DONE);
    assert_eq!(case.delete(1, A), OK);
    holds_after(&case.world, &World::with_tiles(Vec::new()));
}
