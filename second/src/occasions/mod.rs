//! Occasions that the number in an answer does not show: what is special about a command before it
//! is obeyed, and about the place that it names once it is answered. The census counts them, so
//! that none is left out.

mod before;
mod editions;
mod forms;
mod handled_counts;
mod kept_counts;
mod large_ends;
mod listed;
mod mending;
mod named;
mod own_tiles;
mod places;
mod rectangles;
mod rooms;
mod sheets;
mod turns;
mod wrong_counts;

use crate::console::Console;
use crate::line::Command;
use listed::{listed, Listed};
use named::{applying, name_of_call, names_of};
use places::{place_of, OPERATION, RECTANGLE};

pub use before::Before;
pub use places::call_on_session;

/// The occasions that a command is, on the console as it stands.
pub fn occasions(console: &Console, command: Command) -> Vec<String> {
    let names = [
        applying(&own_tiles::NAMED, own_tiles::known(console, command)),
        applying(&rectangles::SHAPES, rectangles::shape(command)),
        applying(&mending::NAMED, mending::known(console, command)),
    ]
    .concat();
    let listed = listed(console, command);
    let of_list = listed.map_or(Vec::new(), |listed| occasions_listed(console, &listed));
    let names = names.into_iter().map(str::to_string);
    let of_journal = forms::of_command(console, command);
    names.chain(of_list).chain(of_journal).collect()
}

fn occasions_listed(console: &Console, listed: &Listed) -> Vec<String> {
    let names = [
        applying(&rooms::NAMED, rooms::known(console, listed)),
        applying(&sheets::NAMED, sheets::known(listed)),
    ]
    .concat();
    let of_call = |name| name_of_call(listed.call, name);
    names.into_iter().map(of_call).collect()
}

/// The occasions that a printed replay of the journal is.
pub fn occasions_printed(journal: &[u8]) -> Vec<String> {
    forms::of_printed(journal)
}

/// The occasions that a command is by the number that it is answered.
pub fn occasions_told(command: Command, number: u8) -> Vec<String> {
    let place = place_of(command);
    place.map_or(Vec::new(), |place| {
        [turns::told(&place, number), editions::told(&place, number)].concat()
    })
}

/// What a command has to do with the kept counts, by how the session stood before it and by the
/// number that it is answered.
pub fn occasions_of_counts(
    before: &Before,
    console: &Console,
    command: Command,
    number: Option<u8>,
) -> Vec<String> {
    let handled = handled_counts::known(&before.session, console, command, number);
    let names = applying(&handled_counts::NAMED, handled).into_iter();
    let of_call = match number {
        Some(0) => kept_counts::done(before, console, command),
        Some(1) => wrong_counts::refused(console, command),
        _ => Vec::new(),
    };
    names.map(str::to_string).chain(of_call).collect()
}

/// The occasions that a command is as the end of a job, by what it left where it was done.
pub fn occasions_of_ends(
    before: &Before,
    console: &Console,
    command: Command,
    number: Option<u8>,
) -> Vec<String> {
    match number {
        Some(0) => large_ends::done(before, console, command),
        Some(_) | None => Vec::new(),
    }
}

pub fn all_names() -> impl Iterator<Item = String> {
    let of_calls = [OPERATION, RECTANGLE].into_iter().flat_map(|call| {
        let names = names_of(&rooms::NAMED).chain(names_of(&sheets::NAMED));
        names.map(move |name| name_of_call(call, name))
    });
    names_of(&own_tiles::NAMED)
        .chain(names_of(&rectangles::SHAPES))
        .chain(names_of(&mending::NAMED))
        .chain(names_of(&handled_counts::NAMED))
        .map(str::to_string)
        .chain(of_calls)
        .chain(turns::all_names())
        .chain(editions::all_names())
        .chain(forms::all_names())
        .chain(kept_counts::all_names())
        .chain(large_ends::all_names())
        .chain(wrong_counts::all_names())
}
