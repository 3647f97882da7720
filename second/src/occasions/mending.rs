//! Mends of every kind of stop, and at the bounds of the result's length.

use crate::console::Console;
use crate::line::Command;
use crate::mend::mended_length;
use crate::occasions::named::Named;
use crate::replay::stopped;
use crate::session::{length_of, MOST_JOURNAL};

pub const NAMED: [Named<Mend>; 12] = [
    ("a mend of a whole journal", |mend| {
        mend.is_whole() && mend.open == 0
    }),
    ("a mend of a whole journal with open jobs", |mend| {
        mend.is_whole() && mend.open > 0
    }),
    ("a mend of a cut tail", |mend| {
        mend.reply == 0 && mend.left_out > 0
    }),
    ("a mend of a cut rule record", |mend| {
        mend.begins_by_rule_2 && mend.reply == 0 && mend.result == 0
    }),
    ("a mend of a malformed record", |mend| mend.reply == 10),
    ("a mend of a record not admissible", |mend| mend.reply == 11),
    ("a mend of another answer", |mend| mend.reply == 12),
    ("a mend into just enough room", |mend| {
        mend.result > 0 && mend.result == mend.room
    }),
    ("a mend one byte short", |mend| mend.result == mend.room + 1),
    ("a mend that makes a journal longer", |mend| {
        mend.result > mend.length
    }),
    ("a mend to the most bytes", |mend| {
        mend.result == MOST_JOURNAL && mend.room >= MOST_JOURNAL
    }),
    ("a mend beyond the most bytes", |mend| {
        mend.result > MOST_JOURNAL && mend.room >= mend.result
    }),
];

/// A mend that is not refused by 1: where a replay stops, and how long the result is.
pub struct Mend {
    length: usize,
    room: usize,
    begins_by_rule_2: bool,
    reply: u8,
    left_out: usize,
    open: usize,
    result: usize,
}

impl Mend {
    fn is_whole(&self) -> bool {
        self.reply == 0 && self.left_out == 0
    }
}

pub fn known(console: &Console, command: Command) -> Option<Mend> {
    if let Command::Mend(count, length, room) = command {
        return mend_of(console, count, length_of(length), length_of(room));
    }
    None
}

fn mend_of(console: &Console, count: u32, length: usize, room: usize) -> Option<Mend> {
    let tables = &console.tables;
    let journal = tables.journal.get(..length)?;
    let stopped = stopped(journal, &tables.tiles, count, tables.operations.len())?;
    Some(Mend {
        length,
        room,
        begins_by_rule_2: journal.first() == Some(&5),
        reply: stopped.reply,
        left_out: length - stopped.offset,
        open: stopped.state.open.len(),
        result: mended_length(&stopped),
    })
}
