//! Operations on the set of tiles: what they find, what they answer and how they are undone.

use crate::tile::Tile;
use std::collections::BTreeSet;

#[derive(Clone, Copy, Debug, PartialEq, Eq)]
pub enum Procedure {
    Insert,
    Delete,
    Member,
}

pub const PROCEDURES: [Procedure; 3] = [Procedure::Insert, Procedure::Delete, Procedure::Member];

impl Procedure {
    /// The procedure's number in a journal record.
    pub fn number(self) -> u8 {
        match self {
            Procedure::Insert => 1,
            Procedure::Delete => 2,
            Procedure::Member => 3,
        }
    }

    pub fn from_number(number: u8) -> Option<Procedure> {
        PROCEDURES
            .iter()
            .copied()
            .find(|procedure| procedure.number() == number)
    }
}

/// What an operation was together with what it found; in the order of the kind numbers 1 to 6.
#[derive(Clone, Copy, Debug, PartialEq, Eq)]
pub enum Kind {
    Added,
    AlreadyThere,
    Removed,
    AlreadyGone,
    Seen,
    Missed,
}

pub const KINDS: [Kind; 6] = [
    Kind::Added,
    Kind::AlreadyThere,
    Kind::Removed,
    Kind::AlreadyGone,
    Kind::Seen,
    Kind::Missed,
];

impl Kind {
    pub fn of(procedure: Procedure, present: bool) -> Kind {
        match (procedure, present) {
            (Procedure::Insert, false) => Kind::Added,
            (Procedure::Insert, true) => Kind::AlreadyThere,
            (Procedure::Delete, true) => Kind::Removed,
            (Procedure::Delete, false) => Kind::AlreadyGone,
            (Procedure::Member, true) => Kind::Seen,
            (Procedure::Member, false) => Kind::Missed,
        }
    }

    pub fn number(self) -> u64 {
        match self {
            Kind::Added => 1,
            Kind::AlreadyThere => 2,
            Kind::Removed => 3,
            Kind::AlreadyGone => 4,
            Kind::Seen => 5,
            Kind::Missed => 6,
        }
    }

    pub fn from_number(number: u64) -> Option<Kind> {
        KINDS.iter().copied().find(|kind| kind.number() == number)
    }

    /// The operation that it was, whatever it found.
    pub fn procedure(self) -> Procedure {
        match self {
            Kind::Added | Kind::AlreadyThere => Procedure::Insert,
            Kind::Removed | Kind::AlreadyGone => Procedure::Delete,
            Kind::Seen | Kind::Missed => Procedure::Member,
        }
    }

    /// Whether the operation answers ok.
    pub fn answers_ok(self) -> bool {
        self != Kind::Missed
    }

    /// Whether the operation changed the tiles, so that undoing it does, too.
    pub fn changes_tiles(self) -> bool {
        match self {
            Kind::Added | Kind::Removed => true,
            Kind::AlreadyThere | Kind::AlreadyGone | Kind::Seen | Kind::Missed => false,
        }
    }
}

/// What undoes an operation.
#[derive(Clone, Copy, Debug, PartialEq, Eq)]
pub enum Recovery {
    Insert(Tile),
    Delete(Tile),
    Skip,
}

impl Recovery {
    pub fn run(self, tiles: &mut BTreeSet<Tile>) {
        match self {
            Recovery::Insert(tile) => {
                tiles.insert(tile);
            }
            Recovery::Delete(tile) => {
                tiles.remove(&tile);
            }
            Recovery::Skip => {}
        }
    }
}

/// Whose operation it is: the job's that does it, for the sheet that its call gives. Nothing but
/// the name of a holder depends on the sheet.
#[derive(Clone, Copy, Debug, Default, PartialEq, Eq)]
pub struct Origin {
    pub job: u8,
    pub sheet: u16,
}

/// An operation that was admitted and is not finished yet.
#[derive(Clone, Copy, Debug, PartialEq, Eq)]
pub struct Admitted {
    pub kind: Kind,
    pub origin: Origin,
    pub tile: Tile,
}

impl Admitted {
    pub fn job(&self) -> u8 {
        self.origin.job
    }

    pub fn recovery(&self) -> Recovery {
        match self.kind {
            Kind::Added => Recovery::Delete(self.tile),
            Kind::Removed => Recovery::Insert(self.tile),
            Kind::AlreadyThere | Kind::AlreadyGone | Kind::Seen | Kind::Missed => Recovery::Skip,
        }
    }

    /// Whether this operation may run before or after the given recovery alike. On its own tile
    /// it may only if it leaves the tile as the recovery leaves it, and found it so.
    pub fn commutes_with(&self, recovery: Recovery) -> bool {
        match recovery {
            Recovery::Skip => true,
            Recovery::Insert(tile) if tile == self.tile => {
                matches!(self.kind, Kind::AlreadyThere | Kind::Seen)
            }
            Recovery::Delete(tile) if tile == self.tile => {
                matches!(self.kind, Kind::AlreadyGone | Kind::Missed)
            }
            Recovery::Insert(_) | Recovery::Delete(_) => true,
        }
    }
}
