//! What makes tables sound, requirement by requirement on the plain numbers. The service decides
//! it while it decodes; this second wording is for tests and for the census of damaged tables.

use crate::rule::Rule;
use crate::session::{count_of, length_of, Session, Tables, JOBS};
use crate::tile::{Tile, LEVELS_SERVED, ZOOMS};

#[derive(Clone, Copy, Debug, PartialEq, Eq, PartialOrd, Ord)]
pub enum Requirement {
    TileLength,
    OperationLength,
    JournalLength,
    TileCount,
    OperationCount,
    JournalCount,
    TileKey,
    TileOrder,
    TileRest,
    EntryKind,
    EntryJob,
    EntryKey,
    EntryRest,
    AddedIsPresent,
    RemovedIsAbsent,
    NothingLater,
    ChangesAlternate,
    OneJobOnward,
    TileRoom,
    JournalRoom,
    /// The count of a level, by its zoom.
    LevelCount(u8),
    SpokenCount,
}

/// All but those of the levels, which are one for each zoom.
const REQUIREMENTS: [Requirement; 21] = [
    Requirement::TileLength,
    Requirement::OperationLength,
    Requirement::JournalLength,
    Requirement::TileCount,
    Requirement::OperationCount,
    Requirement::JournalCount,
    Requirement::TileKey,
    Requirement::TileOrder,
    Requirement::TileRest,
    Requirement::EntryKind,
    Requirement::EntryJob,
    Requirement::EntryKey,
    Requirement::EntryRest,
    Requirement::AddedIsPresent,
    Requirement::RemovedIsAbsent,
    Requirement::NothingLater,
    Requirement::ChangesAlternate,
    Requirement::OneJobOnward,
    Requirement::TileRoom,
    Requirement::JournalRoom,
    Requirement::SpokenCount,
];

/// The requirements of a rule. Three are asked by one rule only; the others by both, though rule 2
/// asks for presence, absence, room and the count of places spoken for in its own way.
pub fn requirements_of(rule: Rule) -> impl Iterator<Item = Requirement> {
    let asked = move |requirement: &Requirement| match rule {
        Rule::EachAlone => {
            *requirement != Requirement::ChangesAlternate
                && *requirement != Requirement::OneJobOnward
        }
        Rule::JobAsOne => *requirement != Requirement::NothingLater,
    };
    let of_levels = ZOOMS.map(Requirement::LevelCount);
    REQUIREMENTS.into_iter().filter(asked).chain(of_levels)
}

pub fn sheet_of(entry: u64) -> u16 {
    (entry >> 48) as u16
}

pub fn kind_of(entry: u64) -> u64 {
    entry >> 40 & 0xFF
}

pub fn job_of(entry: u64) -> usize {
    usize::from((entry >> 32) as u8)
}

pub fn key_of(entry: u64) -> u32 {
    entry as u32
}

/// Whether the entry is of a kind that changed its tile.
pub fn is_change(entry: u64) -> bool {
    kind_of(entry) == 1 || kind_of(entry) == 3
}

/// A key is valid only if it comes from an address.
pub fn is_key(key: u32) -> bool {
    let zoom = (key >> 28) as u8;
    let column = ((key >> 14) & 0x3FFF) as i32;
    let row = (key & 0x3FFF) as i32;
    Tile::at(zoom, column, row).map(Tile::key) == Some(key)
}

/// The tables as the requirements see them: a count past the length uses every place.
struct View<'a> {
    session: &'a Session,
    tables: &'a Tables,
    tiles: &'a [u32],
    entries: &'a [u64],
}

fn used<T>(places: &[T], count: u32) -> &[T] {
    places.get(..length_of(count)).unwrap_or(places)
}

/// The requirements of the session's rule that are broken, each looked at on its own.
pub fn broken(session: &Session, tables: &Tables) -> Vec<Requirement> {
    let view = View::of(session, tables);
    let broken = requirements_of(session.rule).filter(|requirement| !view.keeps(*requirement));
    broken.collect()
}

/// What a fresh count of the used places gives: the tiles of each level, and the places spoken for.
pub fn fresh_counts(session: &Session, tables: &Tables) -> ([u32; LEVELS_SERVED], u32) {
    let view = View::of(session, tables);
    let mut levels = [0; LEVELS_SERVED];
    for (level, zoom) in levels.iter_mut().zip(ZOOMS) {
        *level = count_of(view.on_level(zoom));
    }
    (levels, count_of(view.spoken_for()))
}

impl<'a> View<'a> {
    fn of(session: &'a Session, tables: &'a Tables) -> View<'a> {
        View {
            session,
            tables,
            tiles: used(&tables.tiles, session.tiles),
            entries: used(&tables.operations, session.operations),
        }
    }

    fn keeps(&self, requirement: Requirement) -> bool {
        let (session, tables) = (self.session, self.tables);
        let mut entries = self.entries.iter().copied();
        match requirement {
            Requirement::TileLength => (1..=4096).contains(&tables.tiles.len()),
            Requirement::OperationLength => (1..=1024).contains(&tables.operations.len()),
            Requirement::JournalLength => tables.journal.len() <= 65_536,
            Requirement::TileCount => length_of(session.tiles) <= tables.tiles.len(),
            Requirement::OperationCount => length_of(session.operations) <= tables.operations.len(),
            Requirement::JournalCount => length_of(session.journal) <= tables.journal.len(),
            Requirement::TileKey => self.tiles.iter().all(|key| is_key(*key)),
            Requirement::TileOrder => self.tiles.windows(2).all(|pair| pair[0] < pair[1]),
            Requirement::TileRest => is_clear(&tables.tiles[self.tiles.len()..]),
            Requirement::EntryKind => entries.all(|entry| (1..=6).contains(&kind_of(entry))),
            Requirement::EntryJob => entries.all(|entry| self.is_open(job_of(entry))),
            Requirement::EntryKey => entries.all(|entry| is_key(key_of(entry))),
            Requirement::EntryRest => is_clear(&tables.operations[self.entries.len()..]),
            Requirement::AddedIsPresent => self.says_truly(1, true),
            Requirement::RemovedIsAbsent => self.says_truly(3, false),
            Requirement::NothingLater => self.changes().all(|place| self.later(place).count() == 0),
            Requirement::ChangesAlternate => self.changes().all(|place| self.is_turned(place)),
            Requirement::OneJobOnward => self.changes().all(|place| self.keeps_its_job(place)),
            Requirement::TileRoom => self.tiles.len() + self.spoken_for() <= tables.tiles.len(),
            Requirement::JournalRoom => self.has_room_for_endings(),
            Requirement::LevelCount(zoom) => {
                length_of(session.tiles_of_zoom(zoom)) == self.on_level(zoom)
            }
            Requirement::SpokenCount => length_of(session.spoken) == self.spoken_for(),
        }
    }

    fn is_open(&self, job: usize) -> bool {
        job < JOBS && self.session.open[job]
    }

    fn has(&self, entry: u64) -> bool {
        self.tiles.contains(&key_of(entry))
    }

    /// The places of the changing entries.
    fn changes(&self) -> impl Iterator<Item = usize> + '_ {
        (0..self.entries.len()).filter(|place| is_change(self.entries[*place]))
    }

    /// The entries behind that place that have its tile.
    fn later(&self, place: usize) -> impl Iterator<Item = u64> + '_ {
        let same_tile = move |entry: &u64| key_of(*entry) == key_of(self.entries[place]);
        self.entries[place + 1..].iter().copied().filter(same_tile)
    }

    fn is_last_change(&self, place: usize) -> bool {
        !self.later(place).any(is_change)
    }

    /// Whether the entries of this kind, by rule 2 only the last changes among them, have their
    /// tile present or absent as their kind says.
    fn says_truly(&self, kind: u64, present: bool) -> bool {
        let of_kind = self
            .changes()
            .filter(|place| kind_of(self.entries[*place]) == kind);
        let mut asked = of_kind.filter(|place| match self.session.rule {
            Rule::EachAlone => true,
            Rule::JobAsOne => self.is_last_change(*place),
        });
        asked.all(|place| self.has(self.entries[place]) == present)
    }

    /// Whether the next change of the tile, if there is one, is of the other kind.
    fn is_turned(&self, place: usize) -> bool {
        let next = self.later(place).find(|entry| is_change(*entry));
        next.map_or(true, |entry| kind_of(entry) != kind_of(self.entries[place]))
    }

    fn keeps_its_job(&self, place: usize) -> bool {
        let job = job_of(self.entries[place]);
        self.later(place).all(|entry| job_of(entry) == job)
    }

    /// The tiles whose key says this zoom.
    fn on_level(&self, zoom: u8) -> usize {
        let of_zoom = |key: &&u32| **key >> 28 == u32::from(zoom);
        self.tiles.iter().filter(of_zoom).count()
    }

    /// Places besides those of the tiles: by rule 1 one for each entry of kind 3, by rule 2 one
    /// for each absent tile that has such an entry.
    fn spoken_for(&self) -> usize {
        let removed = self.entries.iter().filter(|entry| kind_of(**entry) == 3);
        match self.session.rule {
            Rule::EachAlone => removed.count(),
            Rule::JobAsOne => {
                let absent = removed.filter(|entry| !self.has(**entry));
                let mut keys: Vec<u32> = absent.map(|entry| key_of(*entry)).collect();
                keys.sort_unstable();
                keys.dedup();
                keys.len()
            }
        }
    }

    fn has_room_for_endings(&self) -> bool {
        let open = self.session.open.iter().filter(|mark| **mark).count();
        let taken = length_of(self.session.journal);
        self.tables.journal.len().saturating_sub(taken) >= 4 * open
    }
}

fn is_clear<T: Copy + Into<u64>>(places: &[T]) -> bool {
    places.iter().all(|place| (*place).into() == 0)
}
