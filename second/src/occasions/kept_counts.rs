//! How a call that is done moves the counts that a session keeps: that of the places spoken for in
//! every way that it can, and those of the levels, each of them up and down.

use crate::console::Console;
use crate::line::Command;
use crate::occasions::before::Before;
use crate::occasions::named::{ByRule, Named};
use crate::occasions::places::{call_on_session, ABORT, COMMIT, OPERATION, RECTANGLE};
use crate::soundness::{key_of, kind_of};
use crate::tile::ZOOMS;

/// The ways of both rules.
const BY_BOTH: [Named<Move>; 11] = [
    ("spoken up by an operation", |step| {
        step.call == OPERATION && step.spoken == 1
    }),
    ("spoken up by a rectangle of several", |step| {
        step.call == RECTANGLE && step.spoken >= 2
    }),
    ("spoken down by a commit, to 0", |step| {
        step.call == COMMIT && step.spoken < 0 && step.left == 0
    }),
    ("spoken down by a commit, not to 0", |step| {
        step.call == COMMIT && step.spoken < 0 && step.left > 0
    }),
    ("spoken down by an abort, to 0", |step| {
        step.call == ABORT && step.spoken < 0 && step.left == 0
    }),
    ("spoken down by an abort, not to 0", |step| {
        step.call == ABORT && step.spoken < 0 && step.left > 0
    }),
    ("spoken left by a commit without deletes", |step| {
        step.call == COMMIT && step.is_kept() && step.removals == 0
    }),
    ("spoken left by an abort without deletes", |step| {
        step.call == ABORT && step.is_kept() && step.removals == 0
    }),
    ("spoken left by an insert", |step| {
        step.is_operation_of(1) && step.is_kept()
    }),
    ("spoken left by an insert of a present tile", |step| {
        step.is_operation_of(2) && step.is_kept()
    }),
    ("spoken left by a delete of an absent tile", |step| {
        step.is_operation_of(4) && step.is_kept()
    }),
];

/// The ways that there are only where a job may go on with the tiles that it changed.
const BY_RULE_2: [Named<Move>; 9] = [
    ("spoken down by an insert", |step| {
        step.is_operation_of(1) && step.spoken == -1
    }),
    ("spoken down by a rectangle of several", |step| {
        step.call == RECTANGLE && step.spoken <= -2
    }),
    ("spoken down by fewer than a rectangle inserts", |step| {
        step.call == RECTANGLE && step.spoken < 0 && step.tiles() + step.spoken > 0
    }),
    ("spoken up by another delete of a tile", |step| {
        step.is_operation_of(3) && step.again && step.spoken == 1
    }),
    ("spoken left by a delete of the job's absent tile", |step| {
        step.is_operation_of(4) && step.again && step.is_kept()
    }),
    ("spoken left by a commit of deletes put back", |step| {
        step.call == COMMIT && step.removals < 0 && step.spoken == 0
    }),
    ("spoken left by an abort of deletes put back", |step| {
        step.call == ABORT && step.removals < 0 && step.spoken == 0
    }),
    ("spoken down by fewer than a commit's deletes", |step| {
        step.call == COMMIT && step.removals < step.spoken && step.spoken < 0
    }),
    ("spoken down by fewer than an abort's deletes", |step| {
        step.call == ABORT && step.removals < step.spoken && step.spoken < 0
    }),
];

const WAYS: ByRule<Move> = ByRule {
    both: &BY_BOTH,
    rule_2: &BY_RULE_2,
};

/// The calls that move tiles.
const MOVERS: [&str; 3] = [OPERATION, RECTANGLE, ABORT];

/// What a call that was done changed.
struct Move {
    call: &'static str,
    /// How far the count of places spoken for, and the number of entries of kind 3, went up.
    spoken: i64,
    removals: i64,
    /// The places spoken for afterwards.
    left: u32,
    /// How far each level's count went up, from the lowest zoom on.
    levels: Vec<i64>,
    /// The kind of the last entry, and whether its tile had an entry of kind 3 before.
    last_kind: u64,
    again: bool,
}

impl Move {
    fn is_operation_of(&self, kind: u64) -> bool {
        self.call == OPERATION && self.last_kind == kind
    }

    /// Whether there were places spoken for, and are as many.
    fn is_kept(&self) -> bool {
        self.spoken == 0 && self.left > 0
    }

    fn tiles(&self) -> i64 {
        self.levels.iter().sum()
    }
}

fn removals(entries: &[u64]) -> Vec<u32> {
    let removed = entries.iter().filter(|entry| kind_of(**entry) == 3);
    removed.map(|entry| key_of(*entry)).collect()
}

fn rise(before: u32, after: u32) -> i64 {
    i64::from(after) - i64::from(before)
}

fn move_of(before: &Before, after: &Before, call: &'static str) -> Move {
    let (was, is) = (&before.session, &after.session);
    let (removed_before, removed_after) = (removals(&before.entries), removals(&after.entries));
    let last = after.entries.last().copied().unwrap_or(0);
    let levels = was.levels.iter().zip(is.levels);
    Move {
        call,
        spoken: rise(was.spoken, is.spoken),
        removals: removed_after.len() as i64 - removed_before.len() as i64,
        left: is.spoken,
        levels: levels.map(|(was, is)| rise(*was, is)).collect(),
        last_kind: kind_of(last),
        again: removed_before.contains(&key_of(last)),
    }
}

/// What a command was that was done.
pub fn done(before: &Before, console: &Console, command: Command) -> Vec<String> {
    let call = match call_on_session(command) {
        None => return Vec::new(),
        Some(call) => call,
    };
    let rule = before.session.rule;
    let step = move_of(before, &Before::of(console), call);
    let moved = ZOOMS
        .zip(step.levels.clone())
        .filter(|(_, rise)| *rise != 0);
    let of_levels: Vec<String> = moved
        .map(|(zoom, rise)| name_of_level(zoom, rise > 0, call))
        .collect();
    of_levels
        .into_iter()
        .chain(WAYS.applying(rule, step))
        .collect()
}

fn name_of_level(zoom: u8, up: bool, call: &str) -> String {
    let way = if up { "up" } else { "down" };
    format!("level {} {} by {}", zoom, way, call)
}

pub fn all_names() -> Vec<String> {
    let mut names = WAYS.all_names();
    for zoom in ZOOMS {
        let ways = MOVERS
            .into_iter()
            .flat_map(|call| [(true, call), (false, call)]);
        names.extend(ways.map(|(up, call)| name_of_level(zoom, up, call)));
    }
    names
}
