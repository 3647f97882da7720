//! Sheets: a hold names one, a record may have one, and nothing else depends on them.

use crate::common::*;
use baseline::entry::{entry, job, key, kind, Origin};
use baseline::journal::{read, Procedure, Reading, Record, OPERATION_RECORD};
use baseline::replay::Stop;
use baseline::reply::numbers;
use baseline::rule::Rule;
use baseline::workload::histories::{any_call, small_world};
use baseline::workload::journals::with_older_records;
use baseline::workload::random::Random;
use baseline::workload::world::{Call, World};

#[test]
fn a_hold_names_the_sheet_of_the_first_holder() {
    for rule in Rule::ALL {
        let mut case = Case::by(rule, 4, &[A]);
        let delete = |job, sheet| Call::Operation(Origin { job, sheet }, Procedure::Delete, A);
        // a question holds nothing, and what comes after the delete is not the first
        assert_eq!(case.member(1, A), OK);
        assert_eq!(case.call(delete(1, 7)), OK);
        if rule == Rule::Together {
            assert_eq!(case.insert(1, A), OK);
        }
        assert_eq!(numbers(case.reply(delete(2, 9))), [6, 0, 1, 7, 0, 0]);
    }
}

#[test]
fn every_sheet_is_sound_and_the_kind_is_the_byte_below() {
    for sheet in [0, 1, 0x00FF, 0x0100, u16::MAX] {
        for (kind, expected) in [(0, false), (2, true), (6, true), (7, false), (255, false)] {
            let mut case = Case::ample(&[]);
            let origin = Origin { job: 1, sheet };
            case.world.operations[0] = entry(kind, origin, A.key().unwrap());
            case.world.session.operations = 1;
            assert_eq!(is_sound(&mut case.world), expected, "{kind} {sheet}");
        }
    }
}

const SHEETED: [u8; 12] = [6, 0, 9, 3, 1, 1, 0x40, 3, 0xC0, 5, 0xAB, 0xCD];
const OLDER: [u8; 10] = [2, 0, 7, 3, 1, 1, 0x40, 3, 0xC0, 5];

#[test]
fn both_records_of_an_operation_are_read() {
    for (bytes, sheet) in [(&SHEETED[..], Some(0xABCD)), (&OLDER, None)] {
        let record = Record::Operation {
            job: 3,
            sheet,
            procedure: Procedure::Insert,
            answer: true,
            key: A.key().unwrap(),
        };
        assert_eq!(read(bytes, 0), Reading::Whole(record));
        assert_eq!(record.size(), bytes.len());
        let mut written = vec![0; bytes.len()];
        assert_eq!(record.write(&mut written, 0), bytes.len());
        assert_eq!(written, bytes);
        for cut in 1..bytes.len() {
            assert_eq!(read(&bytes[..cut], 0), Reading::Cut);
        }
    }
}

#[test]
fn a_wrong_record_with_a_sheet_is_malformed() {
    let wrong = [
        (1, 1),
        (2, 7),
        (3, 64),
        (4, 4),
        (5, 0),
        (6, 0x30),
        (8, 0xFF),
    ];
    for (at, byte) in wrong {
        let mut record = SHEETED;
        record[at] = byte;
        assert_eq!(read(&record, 0), Reading::Malformed, "byte {at}");
    }
}

/// A journal that has both records, by either rule: job 3 opens, inserts, and asks or is held.
#[test]
fn a_journal_may_have_both_records() {
    let start = World::with_tiles(Vec::new());
    let rule_record: [&[u8]; 2] = [&[], &[5, 0, 1, 2]];
    let asked = [6, 0, 9, 3, 3, 1, 0x40, 3, 0xC0, 5, 0, 0];
    for (named, stop) in rule_record
        .into_iter()
        .zip([Stop::NotAdmissible, Stop::Done])
    {
        for inserted in [&SHEETED[..], &OLDER] {
            let taken = [named, &[1, 0, 1, 3], inserted].concat();
            let (result, _) = replayed(&[&taken[..], &asked].concat(), &start);
            let asked_too = if stop == Stop::Done {
                OPERATION_RECORD
            } else {
                0
            };
            assert_eq!((result.stop, result.undone), (stop, 1));
            assert_eq!(result.offset, taken.len() + asked_too);
        }
    }
}

/// Calls on small tables by the rule, the start in front.
fn any_history(random: &mut Random, rule: Rule) -> (World, Vec<Call>) {
    let keys = random.distinct_keys(Vec::new(), 8);
    let world = small_world(random, &keys);
    let start = Call::Start(world.session.tiles, rule);
    let mut calls = vec![start];
    calls.extend((0..160).map(|_| any_call(random, &keys, 5)));
    (world, calls)
}

#[test]
fn older_records_leave_the_same() {
    let mut random = Random::seeded(61);
    for rule in [Rule::Alone, Rule::Together].repeat(40) {
        let (start, calls) = any_history(&mut random, rule);
        let mut case = Case {
            world: start.clone(),
        };
        for call in calls {
            // what is refused is not in the journal
            let _ = case.call(call);
        }
        let written = case.world.written();
        let older = with_older_records(&mut random, written);
        let (new, tiles) = replayed(written, &start);
        let (old, same_tiles) = replayed(&older, &start);
        assert!(tiles == same_tiles);
        assert_eq!((old.stop, old.offset), (Stop::Done, older.len()));
        assert_eq!((old.undone, old.count), (new.undone, new.count));
    }
}

/// The same call for another sheet.
fn for_sheet(sheet: u16, call: Call) -> Call {
    let other = |origin| Origin { sheet, ..origin };
    match call {
        Call::Operation(origin, procedure, of) => Call::Operation(other(origin), procedure, of),
        Call::Rectangle(origin, change, of) => Call::Rectangle(other(origin), change, of),
        call => call,
    }
}

/// What an entry says beside its sheet.
fn without_sheet(entry: u64) -> (u64, u8, u32) {
    (kind(entry), job(entry), key(entry))
}

#[test]
fn histories_do_not_depend_on_sheets() {
    let mut random = Random::seeded(62);
    for rule in [Rule::Alone, Rule::Together].repeat(40) {
        let (start, calls) = any_history(&mut random, rule);
        let [mut one, mut other] = [start.clone(), start].map(|world| Case { world });
        for call in calls {
            let [number, answer, holder, _, turns, last] = numbers(one.reply(call));
            let told = numbers(other.reply(for_sheet(77, call)));
            let sheet = if number == 6 { 77 } else { 0 };
            assert_eq!(told, [number, answer, holder, sheet, turns, last]);
            assert_eq!(other.world.session, one.world.session);
            assert!(other.world.tiles == one.world.tiles);
            let entries = other.world.operations.iter().zip(&one.world.operations);
            for (&entry, &same) in entries {
                assert_eq!(without_sheet(entry), without_sheet(same));
            }
        }
    }
}
