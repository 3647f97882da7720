//! The lent tables of numbers as a state, if they are sound, and a state as tables.

use crate::operation::{Admitted, Kind, Origin};
use crate::rule::Rule;
use crate::session::{count_of, length_of, Session, Tables};
use crate::session::{JOBS, MOST_JOURNAL, MOST_OPERATIONS, MOST_TILES};
use crate::state::State;
use crate::tile::{Tile, LEVELS_SERVED};
use std::collections::BTreeSet;

const SHEET_STEP: u64 = 1 << 48;
const KIND_STEP: u64 = 1 << 40;
const JOB_STEP: u64 = 1 << 32;

/// Bytes of the record that ends a job; so many stay free for each open job.
pub const ENDING_BYTES: usize = 4;

/// The used places of a table; none if the count passes the length or an unused place is not 0.
fn used_places<T: Copy + Default + PartialEq>(places: &[T], count: u32) -> Option<&[T]> {
    let used = places.get(..length_of(count))?;
    let unused = places.get(used.len()..)?;
    if unused.iter().all(|place| *place == T::default()) {
        Some(used)
    } else {
        None
    }
}

/// The tiles of a table; none if they are not valid keys in strictly ascending order.
fn decode_tiles(places: &[u32], count: u32) -> Option<BTreeSet<Tile>> {
    let keys = used_places(places, count)?;
    let tiles: Option<Vec<Tile>> = keys.iter().map(|key| Tile::from_key(*key)).collect();
    let tiles = tiles?;
    if tiles.windows(2).all(|pair| pair[0] < pair[1]) {
        Some(tiles.into_iter().collect())
    } else {
        None
    }
}

fn decode_entry(entry: u64, open: &BTreeSet<u8>) -> Option<Admitted> {
    // Every sheet is sound.
    let sheet = u16::try_from(entry / SHEET_STEP).ok()?;
    let kind = Kind::from_number(entry % SHEET_STEP / KIND_STEP)?;
    let job = u8::try_from(entry % KIND_STEP / JOB_STEP).ok()?;
    let key = u32::try_from(entry % JOB_STEP).ok()?;
    let tile = Tile::from_key(key)?;
    let origin = Origin { job, sheet };
    Some(Admitted { kind, origin, tile }).filter(|_| open.contains(&job))
}

fn encode_entry(admitted: &Admitted) -> u64 {
    u64::from(admitted.origin.sheet) * SHEET_STEP
        + admitted.kind.number() * KIND_STEP
        + u64::from(admitted.job()) * JOB_STEP
        + u64::from(admitted.tile.key())
}

fn decode_open(marks: &[bool; JOBS]) -> BTreeSet<u8> {
    (0u8..)
        .zip(marks.iter())
        .filter(|(_, mark)| **mark)
        .map(|(job, _)| job)
        .collect()
}

/// Puts the numbers into the first places and 0 into the others.
fn fill<T: Copy + Default>(places: &mut [T], numbers: impl Iterator<Item = T>) {
    let padded = numbers.chain(std::iter::repeat(T::default()));
    for (place, number) in places.iter_mut().zip(padded) {
        *place = number;
    }
}

impl State {
    /// The state a start gives on this tile table; none if it would not be sound.
    pub fn started(
        rule: Rule,
        tiles: &[u32],
        count: u32,
        operation_places: usize,
    ) -> Option<State> {
        let tile_places = tiles.len();
        let lengths_fit = (1..=MOST_TILES).contains(&tile_places)
            && (1..=MOST_OPERATIONS).contains(&operation_places);
        if !lengths_fit {
            return None;
        }
        let mut state = State {
            rule,
            tiles: decode_tiles(tiles, count)?,
            tile_places,
            admitted: Vec::new(),
            operation_places,
            open: BTreeSet::new(),
            levels: [0; LEVELS_SERVED],
            spoken: 0,
        };
        state.count_anew();
        Some(state)
    }

    /// The state that the lent tables stand for; none if they are not sound.
    pub fn decode(session: &Session, tables: &Tables) -> Option<State> {
        let operation_places = tables.operations.len();
        let (rule, count) = (session.rule, session.tiles);
        let mut state = State::started(rule, &tables.tiles, count, operation_places)?;
        state.open = decode_open(&session.open);
        let entries = used_places(&tables.operations, session.operations)?;
        let admitted: Option<Vec<Admitted>> = entries
            .iter()
            .map(|entry| decode_entry(*entry, &state.open))
            .collect();
        state.admitted = admitted?;
        // The levels are counted above, as a start does; the entries are there only now.
        state.spoken = state.spoken_by(|_| true);
        let counts_stand = state.levels == session.levels && state.spoken == session.spoken;
        let free = free_bytes(session, tables)?;
        let sound = tables.journal.len() <= MOST_JOURNAL
            && free >= ENDING_BYTES * state.open.len()
            && state.changes_stand()
            && state.places_taken() <= state.tile_places
            && counts_stand;
        if sound {
            Some(state)
        } else {
            None
        }
    }

    pub fn encode_tiles(&self, places: &mut [u32]) -> u32 {
        fill(places, self.tiles.iter().map(|tile| tile.key()));
        count_of(self.tiles.len())
    }

    /// Writes the state into the session and the tables, all but the journal.
    pub fn encode(&self, session: &mut Session, tables: &mut Tables) {
        session.rule = self.rule;
        session.tiles = self.encode_tiles(&mut tables.tiles);
        fill(
            &mut tables.operations,
            self.admitted.iter().map(encode_entry),
        );
        session.operations = count_of(self.admitted.len());
        session.levels = self.levels;
        session.spoken = self.spoken;
        for (job, mark) in (0u8..).zip(session.open.iter_mut()) {
            *mark = self.open.contains(&job);
        }
    }
}

/// Journal bytes that are not used; none if the count passes the length.
pub fn free_bytes(session: &Session, tables: &Tables) -> Option<usize> {
    tables.journal.len().checked_sub(length_of(session.journal))
}
