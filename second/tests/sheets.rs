//! Sheets: calls that differ in their sheets alone are told the same and do the same, a held reply
//! names the sheet of the first holder, and every sheet is sound.

use crate::common::tables::{damage, some_address, some_bench};
use crate::common::*;
use second::address::Address;
use second::journal::{Reader, Reading, Record};
use second::journals::some_sheet;
use second::operation::{Origin, Procedure, PROCEDURES};
use second::random::Random;
use second::rectangle::{Rectangle, Sweep, SWEEPS};
use second::replay::replay;
use second::rule::RULES;
use second::soundness::{broken, sheet_of};
use std::collections::BTreeMap;

const WORLDS: usize = 40_000;
const HISTORIES: usize = 400;

#[derive(Clone, Copy, Debug)]
enum Call {
    Open(u8),
    Operate(u8, Procedure, Address),
    Sweep(u8, Sweep, Rectangle),
    Commit(u8),
    Abort(u8),
}

fn some_call(random: &mut Random) -> Call {
    let job = random.pick(&[0, 0, 1, 2, 2, 63]);
    match random.below(12) {
        0..=1 => Call::Open(job),
        2 => Call::Commit(job),
        3 => Call::Abort(job),
        4..=5 => {
            let west = random.pick(&[-1, 0, 6, 14]);
            let place = Rectangle {
                edition: 2,
                zoom: 4,
                west,
                east: west + random.pick(&[0, 1]),
                top: 5,
                bottom: random.pick(&[5, 6]),
            };
            Call::Sweep(job, random.pick(&SWEEPS), place)
        }
        _ => Call::Operate(job, random.pick(&PROCEDURES), some_address(random)),
    }
}

/// Makes the call for a sheet; gives what it tells but for a sheet.
fn make(bench: &mut Bench, call: Call, sheet: u16) -> (u8, u8, u8) {
    let (number, answer, holder, _) = match call {
        Call::Open(job) => bench.open(job),
        Call::Operate(job, word, place) => bench.operate_for(Origin { job, sheet }, word, place),
        Call::Sweep(job, sweep, place) => bench.sweep_for(Origin { job, sheet }, sweep, place),
        Call::Commit(job) => bench.commit(job),
        Call::Abort(job) => bench.abort(job),
    };
    (number, answer, holder)
}

/// The bench with sheet 0 in every used entry, and in every record behind so many journal bytes.
fn without_sheets(bench: &Bench, written_before: usize) -> Bench {
    let mut bench = bench.clone();
    let used = (bench.session.operations as usize).min(bench.tables.operations.len());
    for entry in bench.tables.operations[..used].iter_mut() {
        *entry %= 1 << 48;
    }
    let journal = bench.journal().to_vec();
    let mut reader = Reader::at(&journal, written_before);
    while let Reading::Whole(record) = reader.read() {
        if let Record::Operation(_) = record {
            let place = reader.place();
            bench.tables.journal[place - 2..place].fill(0);
        }
    }
    bench
}

fn with_other_sheets(random: &mut Random, bench: &Bench) -> Bench {
    let mut other = bench.clone();
    let used = other.session.operations as usize;
    for entry in other.tables.operations.iter_mut().take(used) {
        *entry = *entry % (1 << 48) + (u64::from(some_sheet(random)) << 48);
    }
    other
}

#[test]
fn on_any_tables_the_sheets_decide_nothing() {
    let mut random = Random::seeded(61);
    let mut met: BTreeMap<(u8, u8), usize> = BTreeMap::new();
    for _ in 0..WORLDS {
        let mut one = some_bench(&mut random);
        damage(&mut random, &mut one);
        let mut other = with_other_sheets(&mut random, &one);
        let requirements = broken(&one.session, &one.tables);
        assert_eq!(broken(&other.session, &other.tables), requirements);
        assert_eq!(one.is_sound(), other.is_sound());
        let (call, written) = (some_call(&mut random), one.session.journal as usize);
        let reply = make(&mut one, call, some_sheet(&mut random));
        assert_eq!(make(&mut other, call, some_sheet(&mut random)), reply);
        let rule = one.session.rule.number();
        *met.entry((rule, reply.0)).or_insert(0) += 1;
        if reply.0 == 0 {
            let left = without_sheets(&one, written);
            assert_eq!(without_sheets(&other, written), left);
        }
    }
    for number in [0, 1, 2, 3, 4, 5, 6, 7, 8, 9, 14] {
        for rule in [1, 2] {
            let times = met.get(&(rule, number)).copied().unwrap_or(0);
            assert!(number == 2 || times > 20, "{} {:?}", number, met);
        }
    }
}

/// Replays the journal onto the starting tiles; gives the reply, the offset, the jobs undone, the
/// count and the tiles.
fn replayed(journal: &[u8], start: &Bench) -> (u8, u32, u32, u32, Vec<u32>) {
    let mut tiles = start.tables.tiles.clone();
    let mut operations = vec![0; start.tables.operations.len()];
    let outcome = replay(journal, &mut tiles, start.session.tiles, &mut operations);
    let (reply, offset) = (outcome.reply, outcome.offset);
    (reply, offset, outcome.undone, outcome.count, tiles)
}

#[test]
fn histories_that_differ_in_their_sheets_alone_are_told_and_leave_the_same() {
    let mut random = Random::seeded(62);
    let mut held = 0;
    for round in 0..HISTORIES {
        let start = Bench::started_by(RULES[round % 2], (4, 12, 600), &[A]);
        let (mut one, mut other) = (start.clone(), start.clone());
        for _ in 0..40 {
            let call = some_call(&mut random);
            let reply = make(&mut one, call, some_sheet(&mut random));
            assert_eq!(make(&mut other, call, some_sheet(&mut random)), reply);
            held += usize::from(reply.0 == 6);
            let left = without_sheets(&one, 0);
            assert_eq!(without_sheets(&other, 0), left);
        }
        let due = replayed(one.journal(), &start);
        assert_eq!(due.0, 0);
        assert_eq!(replayed(other.journal(), &start), due);
        assert_eq!(replayed(without_sheets(&one, 0).journal(), &start), due);
    }
    assert!(held > 100, "{}", held);
}

#[test]
fn a_held_reply_names_the_sheet_of_the_first_holder() {
    for rule in RULES {
        let mut bench = Bench::with_places_by(rule, 10, &[A]);
        let of = |job, sheet| Origin { job, sheet };
        let third = Address { column: 7, ..A };
        // Job 1 looks at the tile for one sheet before it deletes it for another.
        assert_eq!(bench.operate_for(of(1, 5), Procedure::Member, A), OK);
        assert_eq!(bench.operate_for(of(1, 65_535), Procedure::Delete, A), OK);
        assert_eq!(bench.operate_for(of(1, 6), Procedure::Insert, B), OK);
        assert_eq!(bench.operate_for(of(1, 0), Procedure::Insert, third), OK);
        let due = [(A, 65_535), (B, 6), (third, 0)];
        for (address, sheet) in due {
            for asked in [0, 5, 6, 9, 65_535] {
                let reply = bench.operate_for(of(2, asked), Procedure::Insert, address);
                assert_eq!(reply, (6, 0, 1, sheet));
            }
        }
        // Both columns are held; the list meets the one of sheet 65535 first.
        let place = Rectangle {
            edition: 2,
            zoom: 4,
            west: 15,
            east: 16,
            top: 0,
            bottom: 5,
        };
        let reply = bench.sweep_for(of(2, 1), Sweep::Insert, place);
        assert_eq!(reply, (6, 0, 1, 65_535));
    }
}

/// By rule 2 a job may delete and insert a tile for two sheets; the first of them is named.
#[test]
fn the_first_change_of_several_is_named_by_rule_2() {
    let mut bench = Bench::with_places_by(RULES[1], 10, &[A]);
    for (sheet, word) in [(9, Procedure::Delete), (3, Procedure::Insert)] {
        assert_eq!(bench.operate_for(Origin { job: 1, sheet }, word, A), OK);
    }
    assert_eq!(bench.mem(2, A), (6, 0, 1, 9));
    assert_eq!(bench.commit(1), DONE);
    assert_eq!(bench.mem(2, A), OK);
}

#[test]
fn every_sheet_is_sound() {
    for rule in RULES {
        let mut bench = Bench::with_places_by(rule, 10, &[A]);
        assert_eq!(bench.del(1, A), OK);
        assert_eq!(bench.ins(1, B), OK);
        let entry = bench.entries()[0] % (1 << 48);
        for sheet in 0..=65_535 {
            bench.tables.operations[0] = entry + (u64::from(sheet) << 48);
            assert_eq!(sheet_of(bench.entries()[0]), sheet);
            assert_eq!(bench.mem(2, A), (6, 0, 1, sheet));
        }
        assert_eq!(broken(&bench.session, &bench.tables), []);
    }
}
