//! Kept counts that are asked for, set, mended and forgotten.

use crate::console::Console;
use crate::line::{Call, Change, Command};
use crate::occasions::named::Named;
use crate::occasions::wrong_counts::wrong_counts;
use crate::session::Session;
use crate::soundness::broken;

pub const NAMED: [Named<Handled>; 8] = [
    ("levels asked of a sound session", |handled| {
        handled.asks() && handled.sound
    }),
    ("levels asked of wrong counts", |handled| {
        handled.asks() && handled.wrong
    }),
    ("a level set to what it is", |handled| {
        handled.sets_level() && handled.sound && handled.same
    }),
    ("spoken set to what it is", |handled| {
        handled.sets_spoken() && handled.sound && handled.same
    }),
    ("a level mended", |handled| {
        handled.sets_level() && handled.sound && !handled.same
    }),
    ("spoken mended", |handled| {
        handled.sets_spoken() && handled.sound && !handled.same
    }),
    ("a start refused by 1 that forgets counts", |handled| {
        handled.forgets && handled.number == Some(1)
    }),
    ("a start refused by 9 that forgets counts", |handled| {
        handled.forgets && handled.number == Some(9)
    }),
];

/// A command about kept counts, or a start, with the number that it was answered.
pub struct Handled {
    command: Command,
    number: Option<u8>,
    /// Whether the session is as it was, whether it is sound now, and whether nothing but kept
    /// counts is wrong.
    same: bool,
    sound: bool,
    wrong: bool,
    /// Whether the session had counts of both sorts and has none now.
    forgets: bool,
}

impl Handled {
    fn asks(&self) -> bool {
        self.command == Command::Levels
    }

    fn sets_level(&self) -> bool {
        matches!(self.command, Command::Change(Change::Level(_, 1..)))
    }

    fn sets_spoken(&self) -> bool {
        matches!(self.command, Command::Change(Change::Spoken(1..)))
    }
}

/// What a command was that found a session that stood so.
pub fn known(
    was: &Session,
    console: &Console,
    command: Command,
    number: Option<u8>,
) -> Option<Handled> {
    match command {
        Command::Levels
        | Command::Change(Change::Level(..) | Change::Spoken(_))
        | Command::Call(Call::Start(..)) => {}
        _ => return None,
    }
    let has_both = was.spoken != 0 && was.levels.iter().any(|count| *count != 0);
    Some(Handled {
        command,
        number,
        same: *was == console.session,
        sound: broken(&console.session, &console.tables).is_empty(),
        wrong: !wrong_counts(console).is_empty(),
        forgets: has_both && console.session == Session::empty(),
    })
}
