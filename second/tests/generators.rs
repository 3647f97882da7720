//! The scripts and journals that are compared reach everything that can be answered.

use second::census::{count_journal, count_script, table, Counts};
use second::census::{name_of, name_of_broken, name_of_occasion};
use second::journals::{journal, KINDS};
use second::line::{parse, Call, Command};
use second::occasions::all_names as occasion_names;
use second::rule::RULES;
use second::scripts::{script, MEBIBYTE};
use second::soundness::requirements_of;
use second::talk::answers;
use std::collections::BTreeSet;

/// What is compared where nothing else is asked for: one round of scripts, which has every sort of
/// them, and some rounds of journals.
const SEEDS: std::ops::Range<u64> = 1..33;
const LINES: usize = 2000;
const JOURNALS: u64 = 4 * KINDS;

fn census() -> Counts {
    let mut counts = Counts::new();
    for seed in SEEDS {
        count_script(&mut counts, seed, LINES);
    }
    for seed in 1..JOURNALS {
        count_journal(&mut counts, seed);
    }
    counts
}

/// The replies that each kind of call can give, by the rule that decides.
const REPLIES: [(&str, &[u8]); 20] = [
    ("start 1", &[0, 1]),
    ("start 2", &[0, 1, 9]),
    ("open 1", &[0, 1, 2, 4, 9]),
    ("open 2", &[0, 1, 2, 4, 9]),
    ("operation 1", &[0, 1, 2, 3, 5, 6, 7, 8, 9, 14]),
    ("operation 2", &[0, 1, 2, 3, 5, 6, 7, 8, 9, 14]),
    ("rectangle 1", &[0, 1, 2, 3, 5, 6, 7, 8, 9, 13, 14]),
    ("rectangle 2", &[0, 1, 2, 3, 5, 6, 7, 8, 9, 13, 14]),
    ("commit 1", &[0, 1, 2, 3]),
    ("commit 2", &[0, 1, 2, 3]),
    ("abort 1", &[0, 1, 2, 3]),
    ("abort 2", &[0, 1, 2, 3]),
    ("address", &[0, 5, 14]),
    ("read", &[10]),
    ("replay 1", &[0, 1, 10, 11, 12]),
    ("replay 2", &[0, 1, 10, 11, 12]),
    ("mend 1", &[0, 1, 18]),
    ("mend 2", &[0, 1, 18]),
    ("printed 1", &[0, 10, 11, 12]),
    ("printed 2", &[0, 10, 11, 12]),
];

const OTHER_ANSWERS: [(&str, &str); 15] = [
    ("any line", "?"),
    ("lend", "?"),
    ("replay 1", "?"),
    ("mend 1", "?"),
    ("change", "?"),
    ("levels", "levels"),
    ("read", "open"),
    ("read", "operation"),
    ("read", "sheeted"),
    ("read", "commit"),
    ("read", "abort"),
    ("read", "rule"),
    ("read", "end"),
    ("read", "cut"),
    ("printed 1", "too long"),
];

/// The names of everything that can occur.
fn all_names() -> Vec<String> {
    let broken = RULES.iter().flat_map(|rule| {
        requirements_of(*rule).map(|requirement| name_of_broken(*rule, requirement))
    });
    let replies = REPLIES.iter().flat_map(|(group, numbers)| {
        let sorts = numbers.iter().map(|number| format!("reply {:>2}", number));
        sorts.map(|sort| name_of(group, &sort))
    });
    let others = OTHER_ANSWERS
        .iter()
        .map(|(group, sort)| name_of(group, sort));
    let occasions = occasion_names().map(|name| name_of_occasion(&name));
    broken
        .chain(replies)
        .chain(others)
        .chain(occasions)
        .collect()
}

#[test]
fn every_answer_every_broken_requirement_and_every_occasion_occurs() {
    let counts = census();
    let missing: Vec<String> = all_names()
        .into_iter()
        .filter(|name| !counts.contains_key(name))
        .collect();
    assert!(missing.is_empty(), "{:?}\n{}", missing, table(&counts));
}

#[test]
fn a_seed_gives_the_same_again() {
    for seed in [1, 2, 3, u64::MAX] {
        assert_eq!(script(seed, 200), script(seed, 200));
        assert_eq!(journal(seed), journal(seed));
    }
    assert_ne!(script(1, 200), script(2, 200));
}

#[test]
fn every_line_is_answered_by_one_line() {
    for seed in 120..130 {
        let text = script(seed, 300);
        let feeds = |bytes: &[u8]| bytes.iter().filter(|byte| **byte == b'\n').count();
        assert_eq!(feeds(&text), feeds(&answers(&text)));
    }
}

/// How often an operation names a tile that another one, with the same tables lent, named in the
/// other edition.
fn meetings_of_editions(text: &[u8]) -> usize {
    let mut named = BTreeSet::new();
    let mut meetings = 0;
    for command in text.split(|byte| *byte == b'\n').filter_map(parse) {
        match command {
            Command::Lend(..) => named.clear(),
            Command::Call(Call::Operate(_, _, address)) => {
                let (edition, tile) = (address.edition, address.tile());
                named.extend(tile.map(|tile| (edition, tile)));
                let other = tile.map(|tile| (3 - edition, tile));
                meetings += usize::from(other.map_or(false, |other| named.contains(&other)));
            }
            _ => {}
        }
    }
    meetings
}

#[test]
fn both_editions_name_the_same_tiles_in_every_script() {
    for seed in 120..130 {
        let meetings = meetings_of_editions(&script(seed, 2 * LINES));
        assert!(meetings > 20, "seed {}: {}", seed, meetings);
    }
}

fn lengths_of_lines(text: &[u8]) -> BTreeSet<usize> {
    let lines = text.split(|byte| *byte == b'\n');
    lines.map(<[u8]>::len).collect()
}

#[test]
fn long_lines_and_long_scripts_occur() {
    let buffers = [256, 4096, 65_536];
    let mut lengths = BTreeSet::new();
    let mut feeds = BTreeSet::new();
    for seed in SEEDS {
        let text = script(seed, LINES);
        lengths.append(&mut lengths_of_lines(&text));
        let ends = (0..text.len()).filter(|place| text[*place] == b'\n');
        feeds.extend(ends.filter(|place| (place + 2) % 65_536 <= 2));
    }
    for buffer in buffers {
        assert!((buffer - 1..=buffer + 1).all(|length| lengths.contains(&length)));
    }
    assert!((MEBIBYTE - 1..=MEBIBYTE + 1).all(|length| lengths.contains(&length)));
    for place in 65_534..=65_536 {
        assert!(feeds.iter().any(|feed| (feed - place) % 65_536 == 0));
    }
    let many = script(17, LINES);
    assert!(many.len() > MEBIBYTE);
    assert!(lengths_of_lines(&many).into_iter().max() < Some(MEBIBYTE / 2));
}
