//! The places that commands name, addresses and rectangles, and words for the calls.

use crate::address::Address;
use crate::line::{Call, Command};
use crate::rectangle::Rectangle;

/// A place, with a word for the call that names it.
pub enum Place {
    Address(&'static str, Address),
    Rectangle(Rectangle),
}

pub const ADDRESS: &str = "address";
pub const OPERATION: &str = "operation";
pub const RECTANGLE: &str = "rectangle";
pub const OPEN: &str = "open";
pub const COMMIT: &str = "commit";
pub const ABORT: &str = "abort";

/// The calls that are refused by 1 exactly where the session's tables are not sound.
pub const CALLS_ON_SESSION: [&str; 5] = [OPEN, OPERATION, RECTANGLE, COMMIT, ABORT];

pub fn call_on_session(command: Command) -> Option<&'static str> {
    match command {
        Command::Call(Call::Open(_)) => Some(OPEN),
        Command::Call(Call::Operate(..)) => Some(OPERATION),
        Command::Sweep(..) => Some(RECTANGLE),
        Command::Call(Call::Commit(_)) => Some(COMMIT),
        Command::Call(Call::Abort(_)) => Some(ABORT),
        _ => None,
    }
}

pub fn place_of(command: Command) -> Option<Place> {
    match command {
        Command::Address(address) => Some(Place::Address(ADDRESS, address)),
        Command::Call(Call::Operate(_, _, address)) => Some(Place::Address(OPERATION, address)),
        Command::Sweep(_, _, rectangle) => Some(Place::Rectangle(rectangle)),
        Command::Call(Call::Start(..) | Call::Open(_) | Call::Commit(_) | Call::Abort(_))
        | Command::Lend(..)
        | Command::Read(_)
        | Command::Replay(..)
        | Command::Mend(..)
        | Command::Levels
        | Command::Sum
        | Command::Show
        | Command::Help
        | Command::Change(_) => None,
    }
}
