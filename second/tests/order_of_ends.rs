//! Ending jobs in another order: every order of the same commits and aborts leaves the same tiles,
//! operations, marks and counts, those of the levels among them, and journals that differ in the order of the end records alone.

use crate::common::history::Trial;
use crate::common::tables::some_bench;
use crate::common::*;
use second::random::Random;
use second::rule::{Rule, RULES};
use second::soundness::{is_change, job_of, key_of};
use second::strictness::subsets;
use std::collections::BTreeSet;

const HISTORIES: u64 = 120;
const WORLDS: usize = 15_000;
const MOST_ENDS: usize = 4;

#[derive(Clone, Copy, Debug, PartialEq, Eq, PartialOrd, Ord)]
enum End {
    Commit(u8),
    Abort(u8),
}

impl End {
    fn call(self, bench: &mut Bench) -> Told {
        match self {
            End::Commit(job) => bench.commit(job),
            End::Abort(job) => bench.abort(job),
        }
    }

    fn record(self) -> [u8; 4] {
        match self {
            End::Commit(job) => [3, 0, 1, job],
            End::Abort(job) => [4, 0, 1, job],
        }
    }
}

/// Every order of a list.
fn orders(ends: &[End]) -> Vec<Vec<End>> {
    if ends.is_empty() {
        return vec![Vec::new()];
    }
    let first_of = |place: usize| {
        let rest = [&ends[..place], &ends[place + 1..]].concat();
        let behind = orders(&rest).into_iter();
        behind.map(move |order| [vec![ends[place]], order].concat())
    };
    (0..ends.len()).flat_map(first_of).collect()
}

/// Every group of up to four of the jobs, with a commit or an abort for each of its jobs.
fn groups_of_ends(open: &[u8]) -> Vec<Vec<End>> {
    let groups = subsets(open).into_iter();
    let small = groups.filter(|group| group.len() <= MOST_ENDS);
    small.flat_map(|group| ends_of(&group)).collect()
}

fn ends_of(group: &BTreeSet<u8>) -> Vec<Vec<End>> {
    let jobs: Vec<u8> = group.iter().copied().collect();
    let ends = subsets(&jobs).into_iter().map(|aborted| {
        let end = |job: &u8| {
            if aborted.contains(job) {
                End::Abort(*job)
            } else {
                End::Commit(*job)
            }
        };
        jobs.iter().map(end).collect()
    });
    ends.collect()
}

/// What one order leaves, after a look at its journal.
fn left_by(before: &Bench, order: &[End]) -> Bench {
    let mut after = before.clone();
    for end in order {
        assert_eq!(end.call(&mut after), DONE);
    }
    let records: Vec<u8> = order.iter().flat_map(|end| end.record()).collect();
    let used = before.journal().len();
    let behind = used + records.len();
    assert_eq!(after.journal(), [before.journal(), &records].concat());
    assert_eq!(
        after.tables.journal[behind..],
        before.tables.journal[behind..]
    );
    after
}

/// Compares every order of every group of ends; gives how many orders there were, and how many of
/// them moved the counts of levels and of places spoken for.
fn compare_orders(before: &Bench) -> (usize, usize) {
    let marks = (0u8..).zip(before.session.open.iter());
    let open: Vec<u8> = marks
        .filter(|(_, mark)| **mark)
        .map(|(job, _)| job)
        .collect();
    let (mut compared, mut moved) = (0, 0);
    for ends in groups_of_ends(&open) {
        let due = left_by(before, &ends);
        for order in orders(&ends) {
            let after = left_by(before, &order);
            assert_eq!(after.session, due.session);
            assert_eq!(after.tables.tiles, due.tables.tiles);
            assert_eq!(after.tables.operations, due.tables.operations);
            compared += 1;
            let (levels, spoken) = before.kept_counts();
            let moves = after.session.levels != levels && after.session.spoken != spoken;
            moved += usize::from(moves);
        }
    }
    (compared, moved)
}

/// Whether two jobs have entries on one tile, one of which changed it: there an order could
/// matter.
fn is_shared(bench: &Bench) -> bool {
    let entries = bench.entries();
    entries.iter().any(|entry| {
        let others = entries
            .iter()
            .filter(|other| job_of(**other) != job_of(*entry));
        let mut on_tile = others.filter(|other| key_of(**other) == key_of(*entry));
        is_change(*entry) && on_tile.next().is_some()
    })
}

/// The history's last session, with something behind the used journal bytes.
fn last_session(rule: Rule, seed: u64) -> (Bench, bool) {
    let trial = Trial::run(rule, seed);
    let swept = trial.tally.rectangles.get(&0).copied().unwrap_or(0) > 0;
    let mut bench = trial.bench;
    let used = bench.journal().len();
    bench.tables.journal[used..].fill(0xEE);
    (bench, swept)
}

#[test]
fn sessions_reached_by_calls() {
    for rule in RULES {
        let (mut orders, mut moved, mut shared, mut with_rectangles) = (0, 0, 0, 0);
        for seed in 1000..1000 + HISTORIES {
            let (bench, swept) = last_session(rule, seed);
            let (compared, moving) = compare_orders(&bench);
            orders += compared;
            moved += moving;
            shared += usize::from(is_shared(&bench));
            with_rectangles += usize::from(swept);
        }
        assert!(orders > 10_000, "{}", orders);
        assert!(moved > 1000, "{}", moved);
        assert!(shared > 5, "{}", shared);
        assert!(with_rectangles > 20, "{}", with_rectangles);
    }
}

/// That a session is sound is enough: how it came about does not matter.
#[test]
fn sound_sessions_from_nowhere() {
    let mut random = Random::seeded(41);
    let (mut sound, mut shared) = ([0, 0], [0, 0]);
    for _ in 0..WORLDS {
        let bench = some_bench(&mut random);
        if bench.is_sound() {
            compare_orders(&bench);
            let rule = usize::from(bench.session.rule.number()) - 1;
            sound[rule] += 1;
            shared[rule] += usize::from(is_shared(&bench));
        }
    }
    assert!(sound.iter().all(|times| *times > 200), "{:?}", sound);
    assert!(shared.iter().all(|times| *times > 10), "{:?}", shared);
}
