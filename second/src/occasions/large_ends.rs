//! Ends of jobs with many entries that are done: how many entries there are, and where many of them
//! changed a tile, what an abort does to the tiles.

use crate::console::Console;
use crate::line::{Call, Command};
use crate::occasions::before::Before;
use crate::occasions::named::ByRule;
use crate::occasions::places::{ABORT, COMMIT};
use crate::soundness::{is_change, job_of, key_of};
use std::collections::BTreeSet;

/// So many changing entries are many.
const MANY: usize = 128;

const ENDS: ByRule<End> = ByRule {
    both: &[
        ("a commit of 64 entries", |end| end.is(COMMIT, 64)),
        ("a commit of 256 entries", |end| end.is(COMMIT, 256)),
        ("a commit of 1000 entries", |end| end.is(COMMIT, 1000)),
        ("a commit of 64 entries in vain", |end| {
            end.is(COMMIT, 64) && end.changed.is_empty()
        }),
        ("an abort of 64 entries", |end| end.is(ABORT, 64)),
        ("an abort of 256 entries", |end| end.is(ABORT, 256)),
        ("an abort of 1000 entries", |end| end.is(ABORT, 1000)),
        ("an abort of 64 entries in vain", |end| {
            end.is(ABORT, 64) && end.changed.is_empty()
        }),
        ("an abort of many changes, only of additions", |end| {
            end.undoes_many() && end.taken && !end.brought
        }),
        ("an abort of many changes, only of removals", |end| {
            end.undoes_many() && !end.taken && end.brought
        }),
        ("an abort of many changes, of both sorts", |end| {
            end.undoes_many() && end.taken && end.brought
        }),
        ("an abort of many changes of rising keys", |end| {
            end.undoes_many() && end.rises()
        }),
        ("an abort of many changes of falling keys", |end| {
            end.undoes_many() && end.falls()
        }),
        ("an abort of many changes of mixed keys", |end| {
            end.undoes_many() && !end.rises() && !end.falls()
        }),
        ("an abort of many changes round another job's", |end| {
            end.undoes_many() && end.is_broken_up
        }),
    ],
    rule_2: &[("an abort of many changes, some of one tile", |end| {
        end.undoes_many() && end.changes_again()
    })],
};

/// The end of a job, once it is done.
struct End {
    call: &'static str,
    /// Its entries, and the keys of those that changed a tile, in their order.
    entries: usize,
    changed: Vec<u32>,
    /// Whether another job's changes stood between its own.
    is_broken_up: bool,
    /// Whether the end took tiles away, and whether it brought some back.
    taken: bool,
    brought: bool,
}

impl End {
    /// Whether it is this call on a job of at least so many entries.
    fn is(&self, call: &str, entries: usize) -> bool {
        self.call == call && self.entries >= entries
    }

    fn undoes_many(&self) -> bool {
        self.call == ABORT && self.changed.len() >= MANY
    }

    fn rises(&self) -> bool {
        self.changed.windows(2).all(|pair| pair[0] < pair[1])
    }

    fn falls(&self) -> bool {
        self.changed.windows(2).all(|pair| pair[0] > pair[1])
    }

    fn changes_again(&self) -> bool {
        let keys: BTreeSet<&u32> = self.changed.iter().collect();
        keys.len() < self.changed.len()
    }
}

fn named_end(command: Command) -> Option<(&'static str, u8)> {
    if let Command::Call(Call::Commit(job)) = command {
        Some((COMMIT, job))
    } else if let Command::Call(Call::Abort(job)) = command {
        Some((ABORT, job))
    } else {
        None
    }
}

/// Whether the first tiles have one that the others have not.
fn has_more(tiles: &[u32], others: &[u32]) -> bool {
    let others: BTreeSet<&u32> = others.iter().collect();
    tiles.iter().any(|key| !others.contains(key))
}

fn end_of(before: &Before, console: &Console, call: &'static str, job: u8) -> End {
    let after = Before::of(console);
    let is_own = |entry: &u64| job_of(*entry) == usize::from(job);
    let changes = before.entries.iter().filter(|entry| is_change(**entry));
    let (own, others): (Vec<(usize, &u64)>, Vec<(usize, &u64)>) =
        changes.enumerate().partition(|(_, entry)| is_own(entry));
    let span = own.first().zip(own.last());
    let is_inside =
        |place: usize| span.map_or(false, |(first, last)| (first.0..last.0).contains(&place));
    End {
        call,
        entries: before.entries.iter().filter(|entry| is_own(entry)).count(),
        changed: own.iter().map(|(_, entry)| key_of(**entry)).collect(),
        is_broken_up: others.iter().any(|(place, _)| is_inside(*place)),
        taken: has_more(&before.tiles, &after.tiles),
        brought: has_more(&after.tiles, &before.tiles),
    }
}

/// What a command was that was done.
pub fn done(before: &Before, console: &Console, command: Command) -> Vec<String> {
    let end = named_end(command);
    end.map_or(Vec::new(), |(call, job)| {
        let end = end_of(before, console, call, job);
        ENDS.applying(before.session.rule, end)
    })
}

pub fn all_names() -> Vec<String> {
    ENDS.all_names()
}
