//! What only rule 2 allows.

use crate::console::Console;
use crate::line::{Call, Command};
use crate::occasions::named::Named;
use crate::operation::Procedure;
use crate::rule::Rule;
use crate::state::State;
use crate::tile::Tile;

pub const NAMED: [Named<Known>; 4] = [
    ("a start by rule 2 with no byte to spare", |known| {
        matches!(known, Known::Start { journal: 4 })
    }),
    ("an operation on a tile that its job changed", |known| {
        matches!(known, Known::Operation { own: true, .. })
    }),
    ("an insert into its job's own place, the last", |known| {
        matches!(
            known,
            Known::Operation {
                own: true,
                inserts: true,
                full: true
            }
        )
    }),
    ("an abort of changes of one tile", |known| {
        matches!(
            known,
            Known::Abort {
                changed_again: true
            }
        )
    }),
];

/// What there is to know about a start by rule 2, or a call on a sound session by it.
pub enum Known {
    Start {
        journal: usize,
    },
    /// Whether the job changed the tile before, whether this inserts it where it is absent, and
    /// whether every place is spoken for.
    Operation {
        own: bool,
        inserts: bool,
        full: bool,
    },
    /// Whether the job changed some tile more than once.
    Abort {
        changed_again: bool,
    },
}

pub fn known(console: &Console, command: Command) -> Option<Known> {
    if let Command::Call(call) = command {
        known_of(console, call)
    } else {
        None
    }
}

fn known_of(console: &Console, call: Call) -> Option<Known> {
    match call {
        Call::Start(_, Rule::JobAsOne) => Some(Known::Start {
            journal: console.tables.journal.len(),
        }),
        Call::Operate(origin, procedure, address) => {
            let state = state_by_rule_2(console)?;
            Some(operation(&state, origin.job, procedure, address.tile()?))
        }
        Call::Abort(job) => Some(abort(&state_by_rule_2(console)?, job)),
        Call::Start(_, Rule::EachAlone) | Call::Open(_) | Call::Commit(_) => None,
    }
}

fn state_by_rule_2(console: &Console) -> Option<State> {
    match console.session.rule {
        Rule::EachAlone => None,
        Rule::JobAsOne => State::decode(&console.session, &console.tables),
    }
}

fn operation(state: &State, job: u8, procedure: Procedure, tile: Tile) -> Known {
    Known::Operation {
        own: changes_of(state, job).contains(&tile),
        inserts: procedure == Procedure::Insert && !state.tiles.contains(&tile),
        full: state.places_taken() == state.tile_places,
    }
}

fn abort(state: &State, job: u8) -> Known {
    let changed = changes_of(state, job);
    let is_again = |place: usize| changed[..place].contains(&changed[place]);
    Known::Abort {
        changed_again: (0..changed.len()).any(is_again),
    }
}

/// The tiles that an open job changed, in order, each as often as it did.
fn changes_of(state: &State, job: u8) -> Vec<Tile> {
    let entries = state.admitted.iter();
    let changed = entries.filter(|entry| entry.job() == job && entry.kind.changes_tiles());
    changed.map(|entry| entry.tile).collect()
}
