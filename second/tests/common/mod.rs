//! A started session with its tables, and short names for the calls. Each of them compares the
//! turns of its reply with those that are due, and gives the rest of it.

pub mod counts;
pub mod cuts;
pub mod expected;
pub mod history;
pub mod tables;
pub mod talk;
pub mod turns;

use second::address::Address;
use second::operation::{Origin, Procedure};
use second::rectangle::{Rectangle, Sweep};
use second::reply::{numbers, sweep_numbers, Reply, Span, SweepReply};
use second::rule::Rule;
use second::service;
use second::session::{Session, Tables};
use second::soundness::fresh_counts;
use second::state::State;
use second::tile::Tile;
use std::collections::BTreeSet;
use turns::{span_of, turns_of};

pub const A: Address = Address {
    edition: 2,
    zoom: 4,
    column: -1,
    row: 5,
};
pub const B: Address = Address {
    edition: 2,
    zoom: 4,
    column: 16,
    row: 0,
};

/// The scope paper's table. Rows are the kinds 1 to 6; columns are ins =, ins other, del =, del
/// other, skip.
pub const TABLE: [[bool; 5]; 6] = [
    [false, true, false, true, true],
    [true, true, false, true, true],
    [false, true, false, true, true],
    [false, true, true, true, true],
    [true, true, false, true, true],
    [false, true, true, true, true],
];

/// Number and answer of a reply, and the job and the sheet of the holder.
pub type Told = (u8, u8, u8, u16);

pub const DONE: Told = (0, 0, 0, 0);
pub const OK: Told = (0, 1, 0, 0);
pub const FAIL: Told = (0, 0, 0, 0);

pub fn refused(number: u8) -> Told {
    (number, 0, 0, 0)
}

/// Held by an operation that a short name made.
pub fn held(job: u8) -> Told {
    held_by(usual(job))
}

pub fn held_by(holder: Origin) -> Told {
    (6, 0, holder.job, holder.sheet)
}

/// The short names give a sheet of its own to each job.
pub fn usual(job: u8) -> Origin {
    let sheet = 40_000 + u16::from(job);
    Origin { job, sheet }
}

/// What a reply tells besides its turns.
pub fn told(reply: Reply) -> (Told, i32) {
    let numbers = numbers(reply);
    let Origin { job, sheet } = numbers.holder;
    ((numbers.number, numbers.answer, job, sheet), numbers.turns)
}

/// The same for a rectangle, which has no answer.
pub fn told_of_sweep(reply: SweepReply) -> (Told, Span) {
    let numbers = sweep_numbers(reply);
    let Origin { job, sheet } = numbers.holder;
    ((numbers.number, 0, job, sheet), numbers.turns)
}

/// What a reply tells that carries no turns.
pub fn without_turns(reply: Reply) -> Told {
    let (told, turns) = told(reply);
    assert_eq!(turns, 0);
    told
}

pub fn tile(address: Address) -> Tile {
    address.tile().expect("a served address")
}

#[derive(Clone, Debug, PartialEq, Eq)]
pub struct Bench {
    pub session: Session,
    pub tables: Tables,
}

impl Bench {
    /// Tables of these lengths, started by rule 1 on the tiles at these addresses.
    pub fn started(lengths: (usize, usize, usize), present: &[Address]) -> Bench {
        Bench::started_by(Rule::EachAlone, lengths, present)
    }

    pub fn started_by(rule: Rule, lengths: (usize, usize, usize), present: &[Address]) -> Bench {
        let mut tables = Tables::lent(lengths.0, lengths.1, lengths.2);
        let tiles: BTreeSet<Tile> = present.iter().map(|address| tile(*address)).collect();
        for (place, tile) in tables.tiles.iter_mut().zip(&tiles) {
            *place = tile.key();
        }
        let (session, reply) = service::start(&mut tables, tiles.len() as u32, rule);
        assert_eq!(without_turns(reply), DONE);
        Bench { session, tables }
    }

    /// Ample room and jobs 1 and 2 open, by rule 1.
    pub fn ample(present: &[Address]) -> Bench {
        Bench::with_places(100, present)
    }

    pub fn with_places(places: usize, present: &[Address]) -> Bench {
        Bench::with_places_by(Rule::EachAlone, places, present)
    }

    pub fn with_places_by(rule: Rule, places: usize, present: &[Address]) -> Bench {
        let mut bench = Bench::started_by(rule, (places, 100, 1000), present);
        assert_eq!(bench.open(1), DONE);
        assert_eq!(bench.open(2), DONE);
        bench
    }

    pub fn open(&mut self, job: u8) -> Told {
        without_turns(service::open(&mut self.session, &mut self.tables, job))
    }

    pub fn operate(&mut self, job: u8, procedure: Procedure, address: Address) -> Told {
        self.operate_for(usual(job), procedure, address)
    }

    pub fn operate_for(&mut self, origin: Origin, word: Procedure, address: Address) -> Told {
        let (session, tables) = (&mut self.session, &mut self.tables);
        let reply = service::operate(session, tables, origin, word, address);
        if reply.is_err() {
            return without_turns(reply);
        }
        let (told, turns) = told(reply);
        assert_eq!(turns, turns_of(address.zoom, address.column));
        told
    }

    pub fn ins(&mut self, job: u8, address: Address) -> Told {
        self.operate(job, Procedure::Insert, address)
    }

    pub fn del(&mut self, job: u8, address: Address) -> Told {
        self.operate(job, Procedure::Delete, address)
    }

    pub fn mem(&mut self, job: u8, address: Address) -> Told {
        self.operate(job, Procedure::Member, address)
    }

    pub fn sweep(&mut self, job: u8, sweep: Sweep, rectangle: Rectangle) -> Told {
        self.sweep_for(usual(job), sweep, rectangle)
    }

    pub fn sweep_for(&mut self, origin: Origin, sweep: Sweep, rectangle: Rectangle) -> Told {
        let (session, tables) = (&mut self.session, &mut self.tables);
        let reply = service::sweep(session, tables, origin, sweep, rectangle);
        let (told, turns) = told_of_sweep(reply);
        let due = reply.map_or(Span::default(), |_| span_of(rectangle));
        assert_eq!(turns, due);
        told
    }

    pub fn commit(&mut self, job: u8) -> Told {
        without_turns(service::commit(&mut self.session, &mut self.tables, job))
    }

    pub fn abort(&mut self, job: u8) -> Told {
        without_turns(service::abort(&mut self.session, &mut self.tables, job))
    }

    /// Gives the session the counts that its tables have, as they stand.
    pub fn count_anew(&mut self) {
        let (levels, spoken) = fresh_counts(&self.session, &self.tables);
        self.session.levels = levels;
        self.session.spoken = spoken;
    }

    pub fn is_sound(&self) -> bool {
        State::decode(&self.session, &self.tables).is_some()
    }

    /// The used places of the tile table.
    pub fn keys(&self) -> &[u32] {
        &self.tables.tiles[..self.session.tiles as usize]
    }

    /// The used places of the operations table.
    pub fn entries(&self) -> &[u64] {
        &self.tables.operations[..self.session.operations as usize]
    }

    pub fn has(&self, address: Address) -> bool {
        self.keys().contains(&tile(address).key())
    }

    pub fn journal(&self) -> &[u8] {
        &self.tables.journal[..self.session.journal as usize]
    }
}

/// Tiles, their count, a number of operation places and a journal's length that a replay, and a
/// mend, refuses by 1.
pub fn refused_by_1() -> [(Vec<u32>, u32, usize, usize); 8] {
    let key = tile(A).key();
    [
        (vec![], 0, 1, 0),
        (vec![0; 4097], 0, 1, 0),
        (vec![0], 0, 0, 0),
        (vec![0], 0, 1025, 0),
        (vec![key], 0, 1, 0),
        (vec![key], 2, 1, 0),
        (vec![1], 1, 1, 0),
        (vec![key], 1, 1, 65_537),
    ]
}
