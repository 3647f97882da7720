//! A session with tables of its own, and a call as a value.

use crate::calls;
use crate::entry::Origin;
use crate::journal::Procedure;
use crate::rectangle::{Change, Rectangle};
use crate::reply::Reply;
use crate::rule::Rule;
use crate::session::{Session, Tables, MOST_JOURNAL, MOST_OPERATIONS, MOST_TILES};
use crate::soundness::{is_sound, Check};
use crate::tile::Address;

#[derive(Clone, Debug, PartialEq, Eq)]
pub struct World {
    pub session: Session,
    pub tiles: Vec<u32>,
    pub operations: Vec<u64>,
    pub journal: Vec<u8>,
}

#[derive(Clone, Copy, Debug, PartialEq, Eq)]
pub enum Call {
    Start(usize, Rule),
    Open(u8),
    Operation(Origin, Procedure, Address),
    Rectangle(Origin, Change, Rectangle),
    Commit(u8),
    Abort(u8),
}

impl World {
    /// Tables of the largest lengths with these tiles, which need not be in order, and no job.
    pub fn with_tiles(mut tiles: Vec<u32>) -> World {
        tiles.sort_unstable();
        let session = Session::fresh(Rule::Alone, &tiles);
        tiles.resize(MOST_TILES, 0);
        World {
            session,
            tiles,
            operations: vec![0; MOST_OPERATIONS],
            journal: vec![0; MOST_JOURNAL],
        }
    }

    pub fn lend(&mut self) -> (&mut Session, Tables<'_>) {
        let tables = Tables {
            tiles: &mut self.tiles,
            operations: &mut self.operations,
            journal: &mut self.journal,
        };
        (&mut self.session, tables)
    }

    pub fn is_sound(&mut self, check: Check) -> bool {
        let (session, tables) = self.lend();
        is_sound(check, session, &tables)
    }

    pub fn call(&mut self, check: Check, call: Call) -> Reply {
        let (session, tables) = self.lend();
        match call {
            Call::Start(count, rule) => calls::start(check, session, tables, count, rule),
            Call::Open(job) => calls::open(check, session, tables, job),
            Call::Operation(origin, procedure, address) => {
                calls::operation(check, session, tables, origin, procedure, address)
            }
            Call::Rectangle(origin, change, rectangle) => {
                calls::rectangle(check, session, tables, origin, change, rectangle)
            }
            Call::Commit(job) => calls::commit(check, session, tables, job),
            Call::Abort(job) => calls::abort(check, session, tables, job),
        }
    }

    /// With so many tile places, operation places and journal bytes fewer.
    pub fn without(mut self, [tiles, operations, bytes]: [usize; 3]) -> World {
        self.tiles.truncate(self.tiles.len() - tiles);
        self.operations.truncate(self.operations.len() - operations);
        self.journal.truncate(self.journal.len() - bytes);
        self
    }

    /// The journal: the used bytes only.
    pub fn written(&self) -> &[u8] {
        &self.journal[..self.session.journal]
    }
}
