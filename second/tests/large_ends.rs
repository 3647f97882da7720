//! Ends of jobs with many entries, as the scripts have them: an abort leaves the tiles as if the job
//! had never been, a commit leaves them as they stand, and both leave the other jobs' entries alone.

use crate::common::*;
use second::console::Console;
use second::line::{parse, Call, Command};
use second::rule::RULES;
use second::scripts::script;
use second::soundness::{is_change, job_of, key_of, kind_of};
use std::collections::{BTreeMap, BTreeSet};

/// The seeds of three rounds whose scripts end jobs of every size.
const SEEDS: [u64; 3] = [27, 59, 91];
const SIZES: [usize; 6] = [16, 64, 100, 256, 1000, 1024];

type Keys = BTreeSet<u32>;

/// The job that a command is a call of.
fn job_called(command: Command) -> Option<u8> {
    match command {
        Command::Call(Call::Open(job) | Call::Commit(job) | Call::Abort(job)) => Some(job),
        Command::Call(Call::Operate(origin, _, _)) => Some(origin.job),
        Command::Sweep(origin, _, _) => Some(origin.job),
        Command::Call(Call::Start(..))
        | Command::Lend(..)
        | Command::Address(_)
        | Command::Read(_)
        | Command::Replay(..)
        | Command::Mend(..)
        | Command::Levels
        | Command::Sum
        | Command::Show
        | Command::Help
        | Command::Change(_) => None,
    }
}

fn bench_of(console: &Console) -> Bench {
    Bench {
        session: console.session.clone(),
        tables: console.tables.clone(),
    }
}

fn keys_of(bench: &Bench) -> Keys {
    bench.keys().iter().copied().collect()
}

/// The tiles that are left when the recoveries run one at a time, newest first.
fn undone(mut tiles: Keys, own: &[u64]) -> Keys {
    for entry in own.iter().rev() {
        match kind_of(*entry) {
            1 => assert!(tiles.remove(&key_of(*entry))),
            3 => assert!(tiles.insert(key_of(*entry))),
            _ => assert!(!is_change(*entry)),
        }
    }
    tiles
}

/// A talk that is followed call by call.
struct Followed {
    console: Console,
    /// For each open job the tiles as they would be if it had never been opened.
    without: BTreeMap<u8, Keys>,
    /// How many ends there were, by rule, by whether it was an abort, and by entries.
    met: BTreeMap<(u8, bool, usize), usize>,
}

impl Followed {
    fn follow(&mut self, line: &[u8]) {
        let command = parse(line);
        let before = bench_of(&self.console);
        let is_done = self.console.answer(line).starts_with("reply 0 ");
        let after = bench_of(&self.console);
        if let Some(job) = command.and_then(job_called).filter(|_| is_done) {
            self.follow_job(command, job, &before, &after);
        }
    }

    fn follow_job(&mut self, command: Option<Command>, job: u8, before: &Bench, after: &Bench) {
        if let Some(Command::Call(Call::Open(_))) = command {
            self.without.insert(job, keys_of(before));
        }
        if before.keys() != after.keys() {
            self.carry_over(job, &keys_of(before), &keys_of(after));
        }
        if let Some(Command::Call(Call::Abort(_))) = command {
            self.check_end(job, true, before, after);
        }
        if let Some(Command::Call(Call::Commit(_))) = command {
            self.check_end(job, false, before, after);
        }
    }

    /// What one job changes would be changed without each of the others, too.
    fn carry_over(&mut self, job: u8, was: &Keys, is: &Keys) {
        for (_, tiles) in self.without.iter_mut().filter(|(other, _)| **other != job) {
            tiles.extend(is.difference(was));
            tiles.retain(|key| is.contains(key) || !was.contains(key));
        }
    }

    fn check_end(&mut self, job: u8, aborts: bool, before: &Bench, after: &Bench) {
        let without = self.without.remove(&job).expect("an open job");
        let entries = before.entries().iter();
        let (own, others): (Vec<u64>, Vec<u64>) =
            entries.partition(|entry| job_of(**entry) == usize::from(job));
        let tiles = keys_of(before);
        let due = if aborts {
            assert_eq!(undone(tiles, &own), without);
            without
        } else {
            tiles
        };
        assert!(after.keys().iter().eq(&due));
        assert_eq!(after.entries(), others);
        assert_eq!(after.kept_counts(), after.due_counts());
        assert!(after.is_sound());
        check_rest(job, aborts, before, after);
        let rule = before.session.rule.number();
        *self.met.entry((rule, aborts, own.len())).or_insert(0) += 1;
    }
}

/// The mark is gone, one record is written, and nothing stands in a place that is not used.
fn check_rest(job: u8, aborts: bool, before: &Bench, after: &Bench) {
    let mut open = before.session.open;
    open[usize::from(job)] = false;
    assert_eq!(after.session.open, open);
    let record = [if aborts { 4 } else { 3 }, 0, 1, job];
    assert_eq!(after.journal(), [before.journal(), &record].concat());
    let tiles = &after.tables.tiles[after.keys().len()..];
    let entries = &after.tables.operations[after.entries().len()..];
    assert!(tiles.iter().all(|place| *place == 0));
    assert!(entries.iter().all(|place| *place == 0));
}

#[test]
fn jobs_of_every_size_end_as_they_should() {
    for seed in SEEDS {
        let mut followed = Followed {
            console: Console::new(),
            without: BTreeMap::new(),
            met: BTreeMap::new(),
        };
        let text = script(seed, 0);
        for line in text.split(|byte| *byte == b'\n') {
            followed.follow(line);
        }
        for rule in RULES {
            for size in SIZES {
                for aborts in [true, false] {
                    let end = (rule.number(), aborts, size);
                    assert!(followed.met.contains_key(&end), "{}: {:?}", seed, end);
                }
            }
        }
    }
}
