//! What is timed. Every way takes its turn in every round. What a call leaves is asserted, so that
//! the compiler can leave none out.

use crate::table::Row;
use crate::ways::{Way, WAYS};
use baseline::rectangle::Change;
use baseline::rule::Rule;
use baseline::workload::histories::{recorded, Recorded};
use baseline::workload::journals::{write_full, Load, Written};
use baseline::workload::packs::{Sort, CLOSED_JOB, IDLE_JOB};
use baseline::workload::random::Random;
use baseline::workload::rectangles::roomy_pack;
use baseline::workload::world::{Call, World};
use std::time::{Duration, Instant};

const CHECK_ROUNDS: usize = 100;
const LIST_ROUNDS: usize = 15;
const CALL_ROUNDS: usize = 25;
const REPLAY_ROUNDS: usize = 40;
const RECORDED_OPERATIONS: usize = 1_500;

/// One repeated table teaches the branch predictor; so many different ones do not.
pub const PACKS: u64 = 16;

pub fn time_all() -> Vec<Row> {
    let checks = Sort::all().map(|(rule, sort)| time_check(rule, sort));
    let mut rows: Vec<Row> = checks.collect();
    rows.extend(Rule::ALL.map(time_recorded));
    rows.extend(Rule::ALL.map(time_open));
    for (rule, change) in rectangles() {
        rows.extend(time_rectangle(rule, change));
    }
    for rule in Rule::ALL {
        for load in Load::ALL {
            rows.extend([0, 4_000].map(|tiles| time_replay(rule, load, tiles)));
        }
    }
    rows
}

pub fn named(rule: Rule, call: &str, on: &str) -> String {
    match rule {
        Rule::Alone => format!("{call}: {on}"),
        Rule::Together => format!("{call}, rule 2: {on}"),
    }
}

/// Runs so many rounds. A round answers how long each of its pieces took; of every piece the best
/// round counts, for a long round on a busy machine is never undisturbed.
fn best_of(
    name: String,
    rounds: usize,
    calls: usize,
    mut round: impl FnMut(Way) -> Vec<Duration>,
) -> Row {
    let mut best = WAYS.map(&mut round);
    for _ in 1..rounds {
        for (best, way) in best.iter_mut().zip(WAYS) {
            for (best, spent) in best.iter_mut().zip(round(way)) {
                *best = spent.min(*best);
            }
        }
    }
    let a_call = |pieces: Vec<Duration>| {
        let all: Duration = pieces.iter().sum();
        all.as_secs_f64() * 1e6 / calls as f64
    };
    Row {
        name,
        microseconds: best.map(a_call),
    }
}

/// How long something took.
pub fn timed(run: impl FnOnce()) -> Duration {
    let begin = Instant::now();
    run();
    begin.elapsed()
}

fn time_check(rule: Rule, sort: Sort) -> Row {
    let packs = (0..PACKS).map(|seed| sort.pack(rule, seed)).collect();
    time_check_of(check_name(rule, sort), packs)
}

fn time_check_of(name: String, mut packs: Vec<World>) -> Row {
    best_of(name, CHECK_ROUNDS, packs.len(), |way| {
        let check_all = || assert!(packs.iter_mut().all(|pack| way.is_sound(pack)));
        vec![timed(check_all)]
    })
}

pub fn check_name(rule: Rule, sort: Sort) -> String {
    named(rule, "check", sort.name())
}

fn time_recorded(rule: Rule) -> Row {
    let recorded = recorded(rule, 3, RECORDED_OPERATIONS);
    let name = named(rule, "operation", "recorded list");
    best_of(name, LIST_ROUNDS, RECORDED_OPERATIONS, |way| {
        time_list(way, &recorded)
    })
}

/// Each stretch of the list; the calls that make room before it are not timed.
fn time_list(way: Way, recorded: &Recorded) -> Vec<Duration> {
    let mut world = recorded.start.clone();
    let mut run = |calls: &[Call]| {
        for &call in calls {
            way.call(&mut world, call);
        }
    };
    let mut spent = Vec::new();
    for stretch in &recorded.stretches {
        run(&stretch.freeing);
        spent.push(timed(|| run(&stretch.operations)));
    }
    assert!(world == recorded.end);
    spent
}

fn time_open(rule: Rule) -> Row {
    let packs = (0..PACKS).map(|seed| Sort::Mixed.pack(rule, seed));
    let open = Call::Open(CLOSED_JOB);
    let scenes: Vec<(World, Call)> = packs.map(|pack| (pack, open)).collect();
    time_calls(named(rule, "open", Sort::Mixed.name()), &scenes)
}

/// Calls that are accepted, each on tables of its own.
pub fn time_calls(name: String, scenes: &[(World, Call)]) -> Row {
    time_each(name, scenes, |way, world, call| {
        assert_eq!(way.call(world, call)[0], 0)
    })
}

/// Something done on tables of its own, each time on a fresh copy of them.
pub fn time_each<T: Copy>(
    name: String,
    scenes: &[(World, T)],
    run: impl Fn(Way, &mut World, T),
) -> Row {
    best_of(name, CALL_ROUNDS, scenes.len(), |way| {
        let time_one = |(pack, with): &(World, T)| {
            let mut world = pack.clone();
            timed(|| run(way, &mut world, *with))
        };
        scenes.iter().map(time_one).collect()
    })
}

/// The rectangles that are timed.
pub fn rectangles() -> impl Iterator<Item = (Rule, Change)> {
    let by_rule = |rule| Change::ALL.map(|change| (rule, change));
    Rule::ALL.into_iter().flat_map(by_rule)
}

/// The check on the tables before a rectangle of the most tiles, and then the rectangle.
fn time_rectangle(rule: Rule, change: Change) -> [Row; 2] {
    let scene = |seed| {
        let (pack, rectangle) = roomy_pack(rule, change, seed);
        let origin = Random::seeded(seed).origin(IDLE_JOB);
        (pack, Call::Rectangle(origin, change, rectangle))
    };
    let scenes: Vec<(World, Call)> = (0..PACKS).map(scene).collect();
    let packs = scenes.iter().map(|(pack, _)| pack.clone()).collect();
    let [check, rectangle] = rectangle_names(rule, change);
    [time_check_of(check, packs), time_calls(rectangle, &scenes)]
}

pub fn rectangle_names(rule: Rule, change: Change) -> [String; 2] {
    let calls = match change {
        Change::Insert => ["check, tiles absent", "rectangle inserted"],
        Change::Delete => ["check, tiles present", "rectangle deleted"],
    };
    calls.map(|call| named(rule, call, Sort::Roomy.name()))
}

fn time_replay(rule: Rule, load: Load, tiles: usize) -> Row {
    let written = journal_for(rule, load, tiles);
    let entries = written.end.session.operations;
    let on = format!("{tiles} tiles, {entries} entries at the end");
    let name = named(rule, "replay", &on);
    best_of(name, REPLAY_ROUNDS, 1, |way| {
        let mut world = written.start.clone();
        let all = written.journal.len() as u64;
        vec![timed(|| {
            assert_eq!(way.replay(&written.journal, &mut world)[1], all);
        })]
    })
}

fn journal_for(rule: Rule, load: Load, tiles: usize) -> Written {
    let mut random = Random::seeded(5);
    let keys = random.distinct_keys(Vec::new(), 5_000);
    let start = World::with_tiles(keys[..tiles].to_vec());
    write_full(&mut random, rule, load, start, &keys)
}
