//! Counts what the generated scripts and journals lead to, so that nothing rare stays untried.

use crate::console::Console;
use crate::journal::rule_of_journal;
use crate::journals::journal;
use crate::line::{parse, Call, Command};
use crate::occasions::{call_on_session, occasions, occasions_of_counts, occasions_of_ends};
use crate::occasions::{occasions_printed, occasions_told, Before};
use crate::printed::printed_replay;
use crate::rule::Rule;
use crate::scripts::script;
use crate::session::length_of;
use crate::soundness::{broken, Requirement};
use std::collections::BTreeMap;

/// How often each outcome occurred, by a name for it.
pub type Counts = BTreeMap<String, usize>;

fn count(counts: &mut Counts, name: String) {
    *counts.entry(name).or_insert(0) += 1;
}

/// The beginning of an answer that tells its sort.
fn sort_of(answer: &str) -> String {
    let words: Vec<&str> = answer.split(' ').collect();
    match words.as_slice() {
        ["reply", number, ..] => format!("reply {:>2}", number),
        [word, ..] => word.to_string(),
        [] => String::new(),
    }
}

/// The number of an answer that is a reply.
fn number_of(answer: &str) -> Option<u8> {
    let rest = answer.strip_prefix("reply ")?;
    rest.split(' ').next()?.parse().ok()
}

/// A name for the commands of one sort, with the rule where a rule decides the answer.
fn group_of(console: &Console, command: Command) -> String {
    let by = |word: &str, rule: Rule| format!("{} {}", word, rule.number());
    let on_session = |word: &str| by(word, console.session.rule);
    match command {
        Command::Lend(..) => "lend".to_string(),
        Command::Call(Call::Start(_, rule)) => by("start", rule),
        Command::Call(Call::Open(_)) => on_session("open"),
        Command::Call(Call::Operate(..)) => on_session("operation"),
        Command::Call(Call::Commit(_)) => on_session("commit"),
        Command::Call(Call::Abort(_)) => on_session("abort"),
        Command::Sweep(..) => on_session("rectangle"),
        Command::Address(_) => "address".to_string(),
        Command::Read(_) => "read".to_string(),
        Command::Replay(_, length) => by("replay", rule_replayed(console, length)),
        Command::Mend(_, length, _) => by("mend", rule_replayed(console, length)),
        Command::Levels => "levels".to_string(),
        Command::Sum => "sum".to_string(),
        Command::Show | Command::Help => "picture".to_string(),
        Command::Change(_) => "change".to_string(),
    }
}

fn rule_replayed(console: &Console, length: u32) -> Rule {
    let journal = console.tables.journal.get(..length_of(length));
    rule_of_journal(journal.unwrap_or(&[]))
}

/// What was counted under this name, of an answer of this sort.
pub fn name_of(group: &str, sort: &str) -> String {
    format!("{:<11} {}", group, sort)
}

/// Counts the answers to one script, which requirement was broken where only one was, and the
/// occasions.
pub fn count_script(counts: &mut Counts, seed: u64, lines: usize) {
    let text = script(seed, lines);
    let mut console = Console::new();
    let whole_lines = text.split_inclusive(|byte| *byte == b'\n');
    for line in whole_lines.filter_map(|line| line.strip_suffix(b"\n")) {
        match parse(line) {
            Some(command) => count_command(counts, &mut console, command, line),
            None => count(counts, name_of("any line", "?")),
        }
    }
}

fn count_command(counts: &mut Counts, console: &mut Console, command: Command, line: &[u8]) {
    for name in occasions(console, command) {
        count(counts, name_of_occasion(&name));
    }
    let group = group_of(console, command);
    let before = Before::of(console);
    let answer = console.answer(line);
    let number = number_of(&answer);
    let told = number.map(|number| occasions_told(command, number));
    let of_counts = occasions_of_counts(&before, console, command, number);
    let of_ends = occasions_of_ends(&before, console, command, number);
    for name in [told.unwrap_or_default(), of_counts, of_ends].concat() {
        count(counts, name_of_occasion(&name));
    }
    let sort = sort_of(&answer);
    count(counts, name_of(&group, &sort));
    if number == Some(1) && call_on_session(command).is_some() {
        count_broken(counts, console);
    }
}

pub fn name_of_occasion(name: &str) -> String {
    format!("occasion: {}", name)
}

fn count_broken(counts: &mut Counts, console: &Console) {
    let rule = console.session.rule;
    match broken(&console.session, &console.tables).as_slice() {
        [requirement] => count(counts, name_of_broken(rule, *requirement)),
        _ => count(counts, "broken together: several requirements".to_string()),
    }
}

pub fn name_of_broken(rule: Rule, requirement: Requirement) -> String {
    format!("broken alone by rule {}: {:?}", rule.number(), requirement)
}

/// Counts where the printed replay of one journal stopped, and the occasions.
pub fn count_journal(counts: &mut Counts, seed: u64) {
    let bytes = journal(seed);
    for name in occasions_printed(&bytes) {
        count(counts, name_of_occasion(&name));
    }
    let text = printed_replay(&bytes);
    let first = text.lines().next().unwrap_or("");
    let words: Vec<&str> = first.split(' ').collect();
    let sort = match words.as_slice() {
        [_, _, _, _, _, number, ..] => format!("reply {:>2}", number),
        _ => first.to_string(),
    };
    let group = format!("printed {}", rule_of_journal(&bytes).number());
    count(counts, name_of(&group, &sort));
}

/// One line for each outcome, then the sums over all calls for each reply number.
pub fn table(counts: &Counts) -> String {
    let mut text = String::new();
    for (name, times) in counts {
        text += &format!("{:>9} {}\n", times, name);
    }
    for number in (0..=14).chain(Some(18)) {
        let ending = format!("reply {:>2}", number);
        let all = counts.iter().filter(|(name, _)| name.ends_with(&ending));
        let times: usize = all.map(|(_, times)| times).sum();
        text += &format!("{:>9} {} in all\n", times, ending);
    }
    text
}
