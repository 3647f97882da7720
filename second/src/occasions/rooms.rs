//! Operations and rectangles at the last free place of each table.

use crate::console::Console;
use crate::encoding::free_bytes;
use crate::occasions::listed::Listed;
use crate::occasions::named::Named;
use crate::occasions::places::RECTANGLE;
use crate::reply::Refusal;
use crate::service::bytes_needed;

/// Of calls that nothing but room can refuse.
pub const NAMED: [Named<Rooms>; 6] = [
    ("into the last tile places", |rooms| {
        rooms.tiles.needed >= rooms.least && rooms.tiles.is_last() && rooms.all_fit()
    }),
    ("one tile place short", |rooms| {
        rooms.tiles.needed >= rooms.least && rooms.tiles.is_one_short()
    }),
    ("into the last entries", |rooms| {
        rooms.entries.needed >= rooms.least && rooms.entries.is_last() && rooms.all_fit()
    }),
    ("one entry short", |rooms| {
        rooms.entries.needed >= rooms.least && rooms.tiles.fits() && rooms.entries.is_one_short()
    }),
    ("into the last bytes", |rooms| {
        rooms.entries.needed >= rooms.least && rooms.bytes.is_last() && rooms.all_fit()
    }),
    ("one byte short", |rooms| {
        let others_fit = rooms.tiles.fits() && rooms.entries.fits();
        rooms.entries.needed >= rooms.least && others_fit && rooms.bytes.is_one_short()
    }),
];

/// What a call needs of a table, and what is free there.
struct Room {
    needed: usize,
    free: usize,
}

impl Room {
    fn fits(&self) -> bool {
        self.needed <= self.free
    }

    fn is_last(&self) -> bool {
        self.needed == self.free
    }

    fn is_one_short(&self) -> bool {
        self.needed == self.free + 1
    }
}

/// The rooms in the tile table, the operations table and the journal; and the least need that is
/// worth a name, which for a rectangle is that of two tiles: what one needs is an operation's.
pub struct Rooms {
    tiles: Room,
    entries: Room,
    bytes: Room,
    least: usize,
}

impl Rooms {
    fn all_fit(&self) -> bool {
        self.tiles.fits() && self.entries.fits() && self.bytes.fits()
    }
}

pub fn known(console: &Console, listed: &Listed) -> Option<Rooms> {
    let Listed {
        call,
        state,
        origin,
        procedure,
        tiles,
    } = listed;
    let wanted = state.wanted(*origin, *procedure, tiles);
    if let Err(Refusal::Held(_)) = state.examine(*origin, *procedure, tiles) {
        return None;
    }
    Some(Rooms {
        tiles: Room {
            needed: state.places_needed(&wanted),
            free: state.tile_places - state.places_taken(),
        },
        entries: Room {
            needed: wanted.len(),
            free: state.operation_places - state.admitted.len(),
        },
        bytes: Room {
            needed: bytes_needed(state, wanted.len()),
            free: free_bytes(&console.session, &console.tables)?,
        },
        least: if *call == RECTANGLE { 2 } else { 1 },
    })
}
