//! What an operation or a rectangle asks of a sound session in which its job is open.

use crate::console::Console;
use crate::line::{Call, Command};
use crate::occasions::places::{OPERATION, RECTANGLE};
use crate::operation::{Origin, Procedure};
use crate::state::State;
use crate::tile::Tile;

pub struct Listed {
    pub call: &'static str,
    pub state: State,
    pub origin: Origin,
    pub procedure: Procedure,
    pub tiles: Vec<Tile>,
}

pub fn listed(console: &Console, command: Command) -> Option<Listed> {
    let (call, origin, procedure, tiles) = match command {
        Command::Call(Call::Operate(origin, procedure, address)) => {
            (OPERATION, origin, procedure, vec![address.tile()?])
        }
        Command::Sweep(origin, sweep, rectangle) => {
            let tiles = rectangle.tiles().ok()?;
            (RECTANGLE, origin, sweep.procedure(), tiles)
        }
        _ => return None,
    };
    let state = State::decode(&console.session, &console.tables)?;
    state.require_open(origin.job).ok()?;
    Some(Listed {
        call,
        state,
        origin,
        procedure,
        tiles,
    })
}
