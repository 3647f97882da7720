//! Each requirement of soundness broken alone, by both rules, and the last numbers that keep it.

use crate::common::*;
use second::address::Address;
use second::operation::Procedure;
use second::rule::{Rule, RULES};
use second::session::Session;
use second::soundness::{broken, requirements_of, Requirement};
use std::collections::BTreeSet;

/// A sound session in which job 0 is open: it looked for B, deleted A and inserted a third tile.
/// One tile place is used, one is spoken for and one is free. Job 2 is open and did nothing.
fn sound_bench(rule: Rule) -> Bench {
    let mut bench = Bench::started_by(rule, (3, 6, 70), &[A]);
    bench.open(0);
    bench.open(2);
    bench.mem(0, B);
    bench.del(0, A);
    bench.ins(0, Address { column: 7, ..A });
    assert!(bench.is_sound());
    bench
}

/// The same with something else in the tables. The kept counts go along.
fn changed_bench(rule: Rule, change: Change) -> Bench {
    let mut bench = sound_bench(rule);
    change(&mut bench);
    bench.count_anew();
    bench
}

/// Puts entries behind the three that are there.
fn add(bench: &mut Bench, entries: &[u64]) {
    bench.tables.operations[3..3 + entries.len()].copy_from_slice(entries);
    bench.session.operations = 3 + entries.len() as u32;
}

type Change = fn(&mut Bench);

const ADDED: u64 = 1 << 40;
const REMOVED: u64 = 3 << 40;
const MISSED: u64 = 6 << 40;
const OTHER_JOB: u64 = 2 << 32;

fn key_of_a() -> u64 {
    u64::from(tile(A).key())
}

fn third_key() -> u64 {
    u64::from(tile(Address { column: 7, ..A }).key())
}

/// Each change breaks the requirement and no other one, by either rule, where the kept counts go
/// along.
const CHANGES: [(Requirement, Change); 20] = [
    (Requirement::TileLength, |bench| {
        bench.tables.tiles.resize(4097, 0)
    }),
    (Requirement::OperationLength, |bench| {
        bench.tables.operations.resize(1025, 0)
    }),
    (Requirement::TileCount, |bench| {
        bench.tables.tiles.truncate(1);
        bench.tables.operations[1] += 3 << 40;
        bench.session.tiles = 2;
    }),
    (Requirement::JournalCount, |bench| {
        bench.session.open[0] = false;
        bench.session.open[2] = false;
        bench.tables.operations.fill(0);
        bench.session.operations = 0;
        bench.session.journal = 71;
    }),
    (Requirement::TileKey, |bench| {
        bench.tables.tiles[1] = u32::MAX;
        bench.session.tiles = 2;
    }),
    (Requirement::TileOrder, |bench| {
        bench.tables.tiles[1] = bench.tables.tiles[0];
        bench.session.tiles = 2;
    }),
    (Requirement::TileRest, |bench| bench.tables.tiles[2] = 1),
    (Requirement::EntryKind, |bench| {
        bench.tables.operations[0] |= 7 << 40
    }),
    (Requirement::EntryKind, |bench| {
        bench.tables.operations[0] |= 1 << 47
    }),
    (Requirement::EntryKind, |bench| {
        bench.tables.operations[0] &= !(0xFF << 40)
    }),
    (Requirement::EntryJob, |bench| {
        bench.tables.operations[0] |= 1 << 32
    }),
    (Requirement::EntryJob, |bench| {
        bench.tables.operations[0] |= 64 << 32
    }),
    (Requirement::EntryKey, |bench| {
        bench.tables.operations[0] |= 16
    }),
    (Requirement::EntryRest, |bench| {
        bench.tables.operations[5] = 1
    }),
    (Requirement::AddedIsPresent, |bench| {
        bench.tables.operations[0] -= 5 << 40
    }),
    (Requirement::RemovedIsAbsent, |bench| {
        bench.tables.operations[2] += 2 << 40
    }),
    (Requirement::TileRoom, |bench| {
        add(bench, &[REMOVED + 1_610_612_736, REMOVED + 1_610_612_737])
    }),
    (Requirement::JournalRoom, |bench| bench.session.journal = 63),
    (Requirement::JournalLength, |bench| {
        bench.tables.journal = vec![0; 65_537]
    }),
    (Requirement::OperationCount, |bench| {
        bench.tables.operations.truncate(3);
        bench.session.operations = 4;
    }),
];

/// The requirements that only one rule has, and what rule 2 asks of the last change alone.
const CHANGES_BY_ONE_RULE: [(Rule, Requirement, Change); 8] = [
    (Rule::EachAlone, Requirement::NothingLater, |bench| {
        add(bench, &[MISSED + key_of_a()])
    }),
    (Rule::EachAlone, Requirement::NothingLater, |bench| {
        add(bench, &[MISSED + OTHER_JOB + key_of_a()])
    }),
    (Rule::JobAsOne, Requirement::ChangesAlternate, |bench| {
        add(bench, &[REMOVED + key_of_a()])
    }),
    (Rule::JobAsOne, Requirement::ChangesAlternate, |bench| {
        add(bench, &[MISSED + key_of_a(), REMOVED + key_of_a()])
    }),
    (Rule::JobAsOne, Requirement::OneJobOnward, |bench| {
        add(bench, &[MISSED + OTHER_JOB + key_of_a()])
    }),
    (Rule::JobAsOne, Requirement::OneJobOnward, |bench| {
        add(
            bench,
            &[
                ADDED + key_of_a(),
                MISSED + OTHER_JOB + key_of_a(),
                REMOVED + key_of_a(),
            ],
        )
    }),
    (Rule::JobAsOne, Requirement::AddedIsPresent, |bench| {
        add(bench, &[ADDED + key_of_a()])
    }),
    (Rule::JobAsOne, Requirement::RemovedIsAbsent, |bench| {
        add(bench, &[REMOVED + third_key()])
    }),
];

/// Each kept count is one more than it should be.
fn wrong_counts(rule: Rule) -> Vec<(Requirement, Bench)> {
    let levels = (4..=14).map(|zoom: u8| {
        let mut bench = sound_bench(rule);
        bench.session.levels[usize::from(zoom) - 4] += 1;
        (Requirement::LevelCount(zoom), bench)
    });
    let mut bench = sound_bench(rule);
    bench.session.spoken += 1;
    levels.chain([(Requirement::SpokenCount, bench)]).collect()
}

fn check_alone(requirement: Requirement, mut bench: Bench) {
    assert_eq!(broken(&bench.session, &bench.tables), [requirement]);
    let before = bench.clone();
    assert_eq!(bench.operate(0, Procedure::Member, B), refused(1));
    assert_eq!(bench.commit(2), refused(1));
    assert_eq!(bench, before);
}

#[test]
fn each_requirement_broken_alone_is_refused() {
    let mut tried: BTreeSet<(u8, Requirement)> = BTreeSet::new();
    for rule in RULES {
        let changed = CHANGES.map(|(requirement, change)| {
            let bench = changed_bench(rule, change);
            (requirement, bench)
        });
        for (requirement, bench) in changed.into_iter().chain(wrong_counts(rule)) {
            check_alone(requirement, bench);
            tried.insert((rule.number(), requirement));
        }
    }
    for (rule, requirement, change) in CHANGES_BY_ONE_RULE {
        check_alone(requirement, changed_bench(rule, change));
        tried.insert((rule.number(), requirement));
    }
    let all = RULES.iter().flat_map(|rule| {
        let number = rule.number();
        requirements_of(*rule).map(move |requirement| (number, requirement))
    });
    assert_eq!(tried, all.collect());
}

#[test]
fn room_to_the_last_place_is_sound() {
    let changes: [Change; 3] = [
        |bench| bench.session.journal = 62,
        |bench| bench.tables.operations.truncate(3),
        |bench| add(bench, &[REMOVED + 1_610_612_736]),
    ];
    for rule in RULES {
        for change in changes {
            let mut bench = changed_bench(rule, change);
            assert_eq!(broken(&bench.session, &bench.tables), []);
            assert_eq!(bench.commit(0), DONE);
        }
    }
}

/// What a job may do with its own tiles is sound by rule 2 and not by rule 1.
#[test]
fn changes_that_follow_each_other_are_sound_by_rule_2() {
    let changes: [Change; 4] = [
        |bench| add(bench, &[MISSED + key_of_a()]),
        |bench| add(bench, &[ADDED + key_of_a(), REMOVED + key_of_a()]),
        |bench| {
            // Another job may have looked at the tile before its first change.
            bench.tables.operations[0] = MISSED + OTHER_JOB + key_of_a();
            add(bench, &[MISSED + key_of_a()]);
        },
        |bench| {
            // With no place to spare, a tile that was deleted twice is counted once.
            add(bench, &[ADDED + key_of_a(), REMOVED + key_of_a()]);
            bench.tables.tiles.truncate(2);
        },
    ];
    for change in changes {
        let mut bench = changed_bench(Rule::JobAsOne, change);
        assert_eq!(broken(&bench.session, &bench.tables), []);
        assert!(bench.is_sound());
        bench.session.rule = Rule::EachAlone;
        bench.count_anew();
        assert!(!broken(&bench.session, &bench.tables).is_empty());
        assert!(!bench.is_sound());
    }
}

/// All tables of up to four entries on one tile, of two jobs and every kind.
#[test]
fn entries_on_one_tile_by_both_rules() {
    let mut tables: Vec<Vec<u64>> = vec![Vec::new()];
    let mut last_length = tables.clone();
    for _ in 0..4 {
        let longer = last_length.iter().flat_map(|entries| {
            let entry = |number: u64| ((number % 6 + 1) << 40) + (number / 6 * OTHER_JOB);
            (0..12).map(move |number| [entries.as_slice(), &[entry(number) + key_of_a()]].concat())
        });
        last_length = longer.collect();
        tables.extend(last_length.clone());
    }
    let mut sound = [0, 0];
    for (rule, present) in [(0, false), (0, true), (1, false), (1, true)] {
        let starting: &[Address] = if present { &[A] } else { &[] };
        let mut bench = Bench::started_by(RULES[rule], (1, 4, 20), starting);
        bench.open(0);
        bench.open(2);
        for entries in &tables {
            bench.tables.operations.fill(0);
            bench.tables.operations[..entries.len()].copy_from_slice(entries);
            bench.session.operations = entries.len() as u32;
            bench.count_anew();
            let keeps_all = broken(&bench.session, &bench.tables).is_empty();
            assert_eq!(bench.is_sound(), keeps_all, "{:?}", entries);
            sound[rule] += usize::from(keeps_all);
        }
    }
    assert!(0 < sound[0] && sound[0] < sound[1], "{:?}", sound);
}

#[test]
fn counts_and_lengths_past_every_limit() {
    for count in [7, 1025, 4097, 65_537, 1 << 31, u32::MAX] {
        let counts: [fn(&mut Session, u32); 3] = [
            |session, count| session.tiles = count,
            |session, count| session.operations = count,
            |session, count| session.journal = count,
        ];
        for set in counts {
            let mut bench = Bench::started((3, 3, 3), &[]);
            set(&mut bench.session, count);
            let before = bench.clone();
            assert_eq!(bench.open(0), refused(1));
            assert_eq!(bench, before);
        }
    }
}
