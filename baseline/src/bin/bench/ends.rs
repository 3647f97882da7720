//! What the end of a job costs by the number of its entries, and where. A commit is the check and
//! the operations table, and an abort is these and the tiles, so that each part is a difference of
//! calls that are timed turn about on the same tables.

use crate::scenes::{named, time_calls, time_each, timed, PACKS};
use crate::table::Row;
use crate::ways::Way;
use baseline::at_once::undo_at_once;
use baseline::engine::undo_each;
use baseline::rule::Rule;
use baseline::soundness::Check;
use baseline::workload::packs::{Sort, IDLE_JOB};
use baseline::workload::world::{Call, World};
use std::time::Duration;

const ENTRIES: [usize; 4] = [16, 64, 256, 1_024];
const UNDO_ROUNDS: usize = 40;

/// The tables on which a job ends, all of them full.
fn scenes() -> impl Iterator<Item = (Rule, Sort)> {
    let others = [Sort::Unchanging, Sort::Colliding];
    Sort::full().filter(move |(_, sort)| !others.contains(sort))
}

/// An end of a job that has so many entries, by way and part.
pub struct End {
    name: String,
    check: Row,
    commit: Row,
    abort: Row,
}

impl End {
    /// The check, the operations table and the tiles.
    fn parts(&self, way: Way) -> [f64; 3] {
        let [check, commit, abort] =
            [&self.check, &self.commit, &self.abort].map(|row| row.of(way));
        [check, commit - check, abort - commit]
    }
}

pub fn time_ends() -> Vec<End> {
    let mut ends = Vec::new();
    for (rule, sort) in scenes() {
        ends.extend(ENTRIES.map(|entries| time_end(rule, sort, entries)));
    }
    ends
}

fn time_end(rule: Rule, sort: Sort, entries: usize) -> End {
    let name = |call| named(rule, call, &format!("{}, {entries} entries", sort.name()));
    let with = |call| -> Vec<(World, Call)> {
        let packs = packs(rule, sort, entries);
        packs.map(|pack| (pack, call)).collect()
    };
    let (commit, abort) = (with(Call::Commit(IDLE_JOB)), with(Call::Abort(IDLE_JOB)));
    End {
        name: name("end"),
        check: time_each(name("check"), &abort, |way, world, _| {
            assert!(way.is_sound(world))
        }),
        commit: time_calls(name("commit"), &commit),
        abort: time_calls(name("abort"), &abort),
    }
}

fn packs(rule: Rule, sort: Sort, entries: usize) -> impl Iterator<Item = World> {
    (0..PACKS).map(move |seed| sort.employed_pack(rule, seed, entries))
}

/// The commits and aborts, to stand among the other calls.
pub fn calls(ends: &[End]) -> impl Iterator<Item = &Row> {
    let commits = ends.iter().map(|end| &end.commit);
    commits.chain(ends.iter().map(|end| &end.abort))
}

pub fn print_parts(ends: &[End]) {
    let ways = [Way::Rust(Check::Filter), Way::Proved];
    print!("{:70}", "parts of an end, microseconds");
    for way in ways {
        for part in ["check", "operations", "tiles"] {
            print!("{:>18}", format!("{} {part}", way.name()));
        }
    }
    println!();
    for end in ends {
        print!("{:70}", end.name);
        for part in ways.iter().flat_map(|&way| end.parts(way)) {
            print!("{part:>18.2}");
        }
        println!();
    }
}

/// Undoing the tiles by a move for each recovery beside undoing them at once, both in Rust.
pub fn print_undoing() {
    println!(
        "{:70}{:>18}{:>18}",
        "undoing the tiles in Rust, microseconds", "one by one", "at once"
    );
    for (rule, sort) in scenes() {
        for entries in ENTRIES {
            let [each, once] = time_undoing(packs(rule, sort, entries));
            let name = named(rule, "undo", &format!("{}, {entries} entries", sort.name()));
            println!("{name:70}{each:>18.2}{once:>18.2}");
        }
    }
}

/// For each pack the best of several rounds, in which both take their turns; then their mean.
fn time_undoing(packs: impl Iterator<Item = World>) -> [f64; 2] {
    let mut sums = [0.0; 2];
    for pack in packs {
        let mut best = [Duration::MAX; 2];
        for _ in 0..UNDO_ROUNDS {
            for (best, undoing) in best.iter_mut().zip([undo_each, undo_at_once]) {
                let mut world = pack.clone();
                let (session, tables) = world.lend();
                let spent = timed(|| undoing(session, tables.tiles, tables.operations, IDLE_JOB));
                *best = spent.min(*best);
            }
        }
        for (sum, best) in sums.iter_mut().zip(best) {
            *sum += best.as_secs_f64();
        }
    }
    sums.map(|sum| sum * 1e6 / PACKS as f64)
}
