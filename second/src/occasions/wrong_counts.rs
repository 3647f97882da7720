//! Kept counts that are wrong with nothing else wrong, in calls that are refused for it: each of them
//! one more and one less than it should be, in every kind of call.

use crate::console::Console;
use crate::line::Command;
use crate::occasions::named::{applying, name_by_rule, names_of, Named};
use crate::occasions::places::{call_on_session, CALLS_ON_SESSION};
use crate::rule::{Rule, RULES};
use crate::session::length_of;
use crate::soundness::{broken, fresh_counts, kind_of, Requirement};
use crate::tile::{level_place, ZOOMS};

/// Wrong counts that a check of something else than each count would let pass.
const NAMED: [Named<Wrong>; 2] = [
    ("levels wrong that add up to the tiles", |wrong| {
        let sum: u64 = wrong.levels.iter().map(|count| u64::from(*count)).sum();
        wrong.of_levels && sum == u64::from(wrong.tiles)
    }),
    ("spoken with the tiles in it", |wrong| {
        let with_tiles = wrong.fresh_spoken.checked_add(wrong.tiles);
        wrong.of_spoken && Some(wrong.spoken) == with_tiles
    }),
];

const BY_RULE_2: [Named<Wrong>; 1] = [("spoken as rule 1 counts it", |wrong| {
    wrong.of_spoken && wrong.spoken == wrong.removals
})];

/// What is wrong where nothing but counts is.
struct Wrong {
    /// Whether only levels are, or only the count of places spoken for.
    of_levels: bool,
    of_spoken: bool,
    levels: Vec<u32>,
    tiles: u32,
    spoken: u32,
    fresh_spoken: u32,
    removals: u32,
}

fn is_of_level(requirement: &Requirement) -> bool {
    matches!(requirement, Requirement::LevelCount(_))
}

/// The requirements that are broken; none where one is that is not about kept counts.
pub fn wrong_counts(console: &Console) -> Vec<Requirement> {
    let broken = broken(&console.session, &console.tables);
    let kept = |one: &Requirement| is_of_level(one) || *one == Requirement::SpokenCount;
    if broken.iter().all(kept) {
        broken
    } else {
        Vec::new()
    }
}

fn wrong_of(console: &Console, requirements: &[Requirement]) -> Wrong {
    let (session, tables) = (&console.session, &console.tables);
    let entries = tables.operations.iter().take(length_of(session.operations));
    let removals = entries.filter(|entry| kind_of(**entry) == 3).count();
    Wrong {
        of_levels: requirements.iter().all(is_of_level),
        of_spoken: !requirements.iter().any(is_of_level),
        levels: session.levels.to_vec(),
        tiles: session.tiles,
        spoken: session.spoken,
        fresh_spoken: fresh_counts(session, tables).1,
        removals: removals as u32,
    }
}

/// What was wrong for a call on the session that was refused by 1.
pub fn refused(console: &Console, command: Command) -> Vec<String> {
    let rule = console.session.rule;
    let requirements = wrong_counts(console);
    let call = match call_on_session(command) {
        Some(call) if !requirements.is_empty() => call,
        _ => return Vec::new(),
    };
    let known = || Some(wrong_of(console, &requirements));
    let mut names = applying(&NAMED, known());
    if rule == Rule::JobAsOne {
        names.extend(applying(&BY_RULE_2, known()));
    }
    let by_one = match requirements.as_slice() {
        [requirement] => off_by_one(console, *requirement),
        _ => None,
    };
    let by_one = by_one.map(|(count, more)| name_by_one(&count, more, call));
    let names = by_one
        .into_iter()
        .chain(names.into_iter().map(str::to_string));
    names.map(|name| name_by_rule(rule, &name)).collect()
}

/// The count, and whether it is one more than it should be; none where it is further off.
fn off_by_one(console: &Console, requirement: Requirement) -> Option<(String, bool)> {
    let session = &console.session;
    let (levels, fresh_spoken) = fresh_counts(session, &console.tables);
    let (count, kept, fresh) = match requirement {
        Requirement::LevelCount(zoom) => {
            let fresh = levels[level_place(zoom)?];
            (level_name(zoom), session.tiles_of_zoom(zoom), fresh)
        }
        _ => (SPOKEN.to_string(), session.spoken, fresh_spoken),
    };
    match i64::from(kept) - i64::from(fresh) {
        1 => Some((count, true)),
        -1 => Some((count, false)),
        _ => None,
    }
}

const SPOKEN: &str = "spoken";

fn level_name(zoom: u8) -> String {
    format!("level {}", zoom)
}

fn name_by_one(count: &str, more: bool, call: &str) -> String {
    let way = if more { "more" } else { "less" };
    format!("{} one {} in {}", count, way, call)
}

pub fn all_names() -> Vec<String> {
    let counts = ZOOMS.map(level_name).chain([SPOKEN.to_string()]);
    let by_one = counts.flat_map(|count| {
        let ways = CALLS_ON_SESSION
            .into_iter()
            .flat_map(|call| [(true, call), (false, call)]);
        ways.map(move |(more, call)| name_by_one(&count, more, call))
    });
    let by_both: Vec<String> = by_one.chain(names_of(&NAMED).map(str::to_string)).collect();
    let mut names: Vec<String> = names_of(&BY_RULE_2)
        .map(|name| name_by_rule(Rule::JobAsOne, name))
        .collect();
    for rule in RULES {
        names.extend(by_both.iter().map(|name| name_by_rule(rule, name)));
    }
    names
}
