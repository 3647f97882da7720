//! Records of the journal, and the counts that a session keeps, in the console's words.

use crate::journal::{Record, Recorded};
use crate::rule::Rule;
use crate::session::Session;

pub fn record_text(record: Record) -> String {
    match record {
        Record::Open(job) => format!("open {}", job),
        Record::Operation(recorded) => operation_text(recorded),
        Record::Commit(job) => format!("commit {}", job),
        Record::Abort(job) => format!("abort {}", job),
        Record::JobAsOne => format!("rule {}", Rule::JobAsOne.number()),
    }
}

pub fn levels_text(session: &Session) -> String {
    let counts: String = session.levels.map(|count| format!(" {}", count)).concat();
    format!("levels{} spoken {}", counts, session.spoken)
}

/// The word tells a record with a sheet from an old one.
fn operation_text(recorded: Recorded) -> String {
    let numbers = format!(
        "{} {} {} {}",
        recorded.job,
        recorded.procedure.number(),
        u8::from(recorded.ok),
        recorded.tile.key()
    );
    match recorded.sheet {
        None => format!("operation {}", numbers),
        Some(sheet) => format!("sheeted {} {}", numbers, sheet),
    }
}
