//! One line of the console: a word and its numbers, to the byte.

use crate::address::Address;
use crate::operation::{Origin, Procedure};
use crate::rectangle::{Rectangle, Sweep};
use crate::rule::Rule;

#[derive(Clone, Copy, Debug, PartialEq, Eq)]
pub enum Command {
    Lend(u32, u32, u32),
    Call(Call),
    Sweep(Origin, Sweep, Rectangle),
    Address(Address),
    Read(u32),
    Replay(u32, u32),
    Mend(u32, u32, u32),
    Levels,
    Sum,
    Show,
    Help,
    Change(Change),
}

/// The calls that are answered by a reply.
#[derive(Clone, Copy, Debug, PartialEq, Eq)]
pub enum Call {
    Start(u32, Rule),
    Open(u8),
    Operate(Origin, Procedure, Address),
    Commit(u8),
    Abort(u8),
}

/// Changes of the tables and the session from outside.
#[derive(Clone, Copy, Debug, PartialEq, Eq)]
pub enum Change {
    Tile(u32, u32),
    Entry(u32, u64),
    Byte(u32, u8),
    Tiles(u32),
    Operations(u32),
    Journal(u32),
    Mark(u8, bool),
    Rule(Rule),
    Level(u8, u32),
    Spoken(u32),
}

/// No command has more numbers than this, and no word or number of one more bytes.
const MOST_NUMBERS: usize = 8;
const LONGEST_WORD: usize = "operations".len();
const LONGEST_NUMBER: usize = "18446744073709551615".len();

/// A line with more bytes than this is no command.
pub const MOST_BYTES: usize = LONGEST_WORD + MOST_NUMBERS * (1 + LONGEST_NUMBER);

/// The command a line says; none if it is no such line.
pub fn parse(line: &[u8]) -> Option<Command> {
    let mut parts = line.split(|byte| *byte == b' ');
    let word = parts.next()?;
    // One number more than any command has is enough to see that there are too many.
    let numbers: Vec<&[u8]> = parts.take(MOST_NUMBERS + 1).collect();
    parse_other(word, &numbers)
        .or_else(|| parse_call(word, &numbers).map(Command::Call))
        .or_else(|| parse_change(word, &numbers).map(Command::Change))
}

/// The commands that have an answer of their own.
fn parse_other(word: &[u8], numbers: &[&[u8]]) -> Option<Command> {
    Some(match (word, numbers) {
        (b"lend", [tiles, operations, journal]) => {
            Command::Lend(count(tiles)?, count(operations)?, count(journal)?)
        }
        (b"insall", numbers) => swept(Sweep::Insert, numbers)?,
        (b"delall", numbers) => swept(Sweep::Delete, numbers)?,
        (b"address", place) => Command::Address(address(place)?),
        (b"read", [place]) => Command::Read(count(place)?),
        (b"replay", [tiles, length]) => Command::Replay(count(tiles)?, count(length)?),
        (b"mend", [tiles, length, room]) => {
            Command::Mend(count(tiles)?, count(length)?, count(room)?)
        }
        (b"levels", []) => Command::Levels,
        (b"sum", []) => Command::Sum,
        (b"show", []) => Command::Show,
        (b"help", []) => Command::Help,
        _ => return None,
    })
}

fn parse_call(word: &[u8], numbers: &[&[u8]]) -> Option<Call> {
    Some(match (word, numbers) {
        (b"start", [tiles, number]) => Call::Start(count(tiles)?, rule(number)?),
        (b"open", [job]) => Call::Open(small(job)?),
        (b"ins", numbers) => operate(Procedure::Insert, numbers)?,
        (b"del", numbers) => operate(Procedure::Delete, numbers)?,
        (b"mem", numbers) => operate(Procedure::Member, numbers)?,
        (b"commit", [job]) => Call::Commit(small(job)?),
        (b"abort", [job]) => Call::Abort(small(job)?),
        _ => return None,
    })
}

fn parse_change(word: &[u8], numbers: &[&[u8]]) -> Option<Change> {
    Some(match (word, numbers) {
        (b"tile", [place, key]) => Change::Tile(count(place)?, count(key)?),
        (b"entry", [place, entry]) => Change::Entry(count(place)?, natural(entry)?),
        (b"byte", [place, byte]) => Change::Byte(count(place)?, small(byte)?),
        (b"tiles", [used]) => Change::Tiles(count(used)?),
        (b"operations", [used]) => Change::Operations(count(used)?),
        (b"journal", [used]) => Change::Journal(count(used)?),
        (b"mark", [job, mark]) => Change::Mark(small(job)?, bit(mark)?),
        (b"rule", [number]) => Change::Rule(rule(number)?),
        (b"level", [zoom, tiles]) => Change::Level(small(zoom)?, count(tiles)?),
        (b"spoken", [places]) => Change::Spoken(count(places)?),
        _ => return None,
    })
}

fn operate(procedure: Procedure, numbers: &[&[u8]]) -> Option<Call> {
    let (origin, place) = origin(numbers)?;
    Some(Call::Operate(origin, procedure, address(place)?))
}

fn swept(sweep: Sweep, numbers: &[&[u8]]) -> Option<Command> {
    let (origin, place) = origin(numbers)?;
    Some(Command::Sweep(origin, sweep, rectangle(place)?))
}

/// The job and the sheet, and the numbers behind them.
fn origin<'a, 'b>(numbers: &'a [&'b [u8]]) -> Option<(Origin, &'a [&'b [u8]])> {
    match numbers {
        [job, number, place @ ..] => {
            let (job, sheet) = (small(job)?, sheet(number)?);
            Some((Origin { job, sheet }, place))
        }
        _ => None,
    }
}

fn rectangle(numbers: &[&[u8]]) -> Option<Rectangle> {
    match numbers {
        [edition, zoom, west, east, top, bottom] => Some(Rectangle {
            edition: small(edition)?,
            zoom: small(zoom)?,
            west: signed(west)?,
            east: signed(east)?,
            top: signed(top)?,
            bottom: signed(bottom)?,
        }),
        _ => None,
    }
}

fn address(numbers: &[&[u8]]) -> Option<Address> {
    match numbers {
        [edition, zoom, column, row] => Some(Address {
            edition: small(edition)?,
            zoom: small(zoom)?,
            column: signed(column)?,
            row: signed(row)?,
        }),
        _ => None,
    }
}

/// Decimal digits without a leading zero.
fn natural(text: &[u8]) -> Option<u64> {
    let plain = text == b"0" || text.first().map_or(false, |first| *first != b'0');
    if !plain {
        return None;
    }
    text.iter().try_fold(0u64, |value, byte| {
        let digit = byte.checked_sub(b'0').filter(|digit| *digit <= 9)?;
        value.checked_mul(10)?.checked_add(u64::from(digit))
    })
}

fn count(text: &[u8]) -> Option<u32> {
    natural(text).and_then(|value| u32::try_from(value).ok())
}

fn small(text: &[u8]) -> Option<u8> {
    natural(text).and_then(|value| u8::try_from(value).ok())
}

fn sheet(text: &[u8]) -> Option<u16> {
    natural(text).and_then(|value| u16::try_from(value).ok())
}

fn bit(text: &[u8]) -> Option<bool> {
    small(text)
        .filter(|number| *number <= 1)
        .map(|number| number == 1)
}

fn rule(text: &[u8]) -> Option<Rule> {
    small(text).and_then(Rule::from_number)
}

fn signed(text: &[u8]) -> Option<i32> {
    let value = match text.strip_prefix(b"-") {
        None => i64::try_from(natural(text)?).ok()?,
        Some(digits) => {
            let below_zero = natural(digits).filter(|value| *value != 0)?;
            -i64::try_from(below_zero).ok()?
        }
    };
    i32::try_from(value).ok()
}
