//! The forms of the operation records that a replay takes from a journal, by the journal's rule,
//! and where the journal is cut.

use crate::console::Console;
use crate::journal::{Reader, Reading, Record};
use crate::line::Command;
use crate::occasions::named::{applying, name_of_call, names_of, Named};
use crate::replay::{stopped, Stopped};
use crate::rule::{Rule, RULES};
use crate::session::{length_of, MOST_OPERATIONS, MOST_TILES};

const NAMED: [Named<Forms>; 4] = [
    ("of old records alone", |forms| {
        forms.old > 0 && forms.sheeted == 0
    }),
    ("of sheeted records alone", |forms| {
        forms.old == 0 && forms.sheeted > 0
    }),
    ("of both forms", |forms| forms.old > 0 && forms.sheeted > 0),
    ("cut at a sheet", |forms| forms.cut_at_sheet),
];

const REPLAY: &str = "replay";
const MEND: &str = "mend";
const PRINTED: &str = "printed replay";
const CALLS: [&str; 3] = [REPLAY, MEND, PRINTED];

/// How many records of either form there are before the place where a replay stops.
struct Forms {
    old: usize,
    sheeted: usize,
    /// Whether it stops at a record that is whole but for one or two bytes of its sheet.
    cut_at_sheet: bool,
}

fn forms_of(journal: &[u8], stopped: &Stopped) -> Forms {
    let (taken, rest) = journal.split_at(stopped.offset);
    let mut reader = Reader::at(taken, 0);
    let (mut old, mut sheeted) = (0, 0);
    while let Reading::Whole(record) = reader.read() {
        if let Record::Operation(recorded) = record {
            match recorded.sheet {
                None => old += 1,
                Some(_) => sheeted += 1,
            }
        }
    }
    Forms {
        old,
        sheeted,
        // No other record that is cut has ten bytes.
        cut_at_sheet: stopped.reply == 0 && (10..12).contains(&rest.len()),
    }
}

/// The names for a replay that stopped so; none where it was refused.
fn of_journal(call: &str, journal: &[u8], stopped: Option<Stopped>) -> Vec<String> {
    stopped.map_or(Vec::new(), |stopped| {
        let names = applying(&NAMED, Some(forms_of(journal, &stopped)));
        let name = |name| name_by(stopped.state.rule, call, name);
        names.into_iter().map(name).collect()
    })
}

/// Every form is asked for by either rule, or one of them would do for both.
fn name_by(rule: Rule, call: &str, name: &str) -> String {
    name_of_call(&format!("{} by rule {}", call, rule.number()), name)
}

pub fn of_command(console: &Console, command: Command) -> Vec<String> {
    let (call, count, length) = match command {
        Command::Replay(count, length) => (REPLAY, count, length),
        Command::Mend(count, length, _) => (MEND, count, length),
        _ => return Vec::new(),
    };
    let tables = &console.tables;
    let journal = tables.journal.get(..length_of(length));
    journal.map_or(Vec::new(), |journal| {
        let stopped = stopped(journal, &tables.tiles, count, tables.operations.len());
        of_journal(call, journal, stopped)
    })
}

pub fn of_printed(journal: &[u8]) -> Vec<String> {
    let stopped = stopped(journal, &[0; MOST_TILES], 0, MOST_OPERATIONS);
    of_journal(PRINTED, journal, stopped)
}

pub fn all_names() -> impl Iterator<Item = String> {
    RULES.into_iter().flat_map(|rule| {
        let names = move |call| names_of(&NAMED).map(move |name| name_by(rule, call, name));
        CALLS.into_iter().flat_map(names)
    })
}
