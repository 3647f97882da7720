//! How things stood before a command.

use crate::console::Console;
use crate::session::{length_of, Session};

/// A session with what its tables use; where a count is past the length, every place is used.
pub struct Before {
    pub session: Session,
    pub entries: Vec<u64>,
    pub tiles: Vec<u32>,
}

fn used<T: Copy>(places: &[T], count: u32) -> Vec<T> {
    places.iter().take(length_of(count)).copied().collect()
}

impl Before {
    pub fn of(console: &Console) -> Before {
        let session = console.session.clone();
        Before {
            entries: used(&console.tables.operations, session.operations),
            tiles: used(&console.tables.tiles, session.tiles),
            session,
        }
    }
}
