//! What a session's rule decides: whether an operation is held, whether it lacks a tile place, which
//! places are spoken for, and whether the unfinished changes of the tiles fit together.

use crate::operation::{Admitted, Kind, Origin, Procedure};
use crate::reply::Refusal;
use crate::rule::Rule;
use crate::session::{count_of, length_of};
use crate::state::State;
use crate::tile::{Tile, LEVELS_SERVED};
use std::collections::{BTreeMap, BTreeSet};

impl State {
    /// What one procedure of an open job on a list of different tiles would be admitted as, or why
    /// it is refused. No tile of the list decides about another, but they share the room.
    pub fn examine(
        &self,
        origin: Origin,
        procedure: Procedure,
        tiles: &[Tile],
    ) -> Result<Vec<Admitted>, Refusal> {
        let wanted = self.wanted(origin, procedure, tiles);
        if let Some(holder) = wanted.iter().find_map(|one| self.holder(one)) {
            return Err(Refusal::Held(holder));
        }
        if self.places_taken() + self.places_needed(&wanted) > self.tile_places {
            return Err(Refusal::NoTileRoom);
        }
        if self.admitted.len() + wanted.len() > self.operation_places {
            return Err(Refusal::OperationsFull);
        }
        Ok(wanted)
    }

    /// The operations of a list with what they find.
    pub fn wanted(&self, origin: Origin, procedure: Procedure, tiles: &[Tile]) -> Vec<Admitted> {
        let found = |tile: &Tile| Admitted {
            kind: Kind::of(procedure, self.tiles.contains(tile)),
            origin,
            tile: *tile,
        };
        tiles.iter().map(found).collect()
    }

    /// How many of the operations take a place that nobody has spoken for.
    pub fn places_needed(&self, wanted: &[Admitted]) -> usize {
        wanted.iter().filter(|one| self.needs_place(one)).count()
    }

    /// The origin of the first unfinished operation that stands in the way of a new one.
    fn holder(&self, wanted: &Admitted) -> Option<Origin> {
        let mut entries = self.admitted.iter();
        let holding = entries.find(|entry| self.holds(entry, wanted));
        holding.map(|entry| entry.origin)
    }

    /// Whether an unfinished operation stands in the way of a new one.
    fn holds(&self, entry: &Admitted, wanted: &Admitted) -> bool {
        match self.rule {
            Rule::EachAlone => !wanted.commutes_with(entry.recovery()),
            Rule::JobAsOne => {
                let others = entry.job() != wanted.job();
                others && entry.tile == wanted.tile && entry.kind.changes_tiles()
            }
        }
    }

    /// The unfinished deletes that took effect, in order of admission.
    fn removals(&self) -> impl Iterator<Item = &Admitted> {
        let removed = |entry: &&Admitted| entry.kind == Kind::Removed;
        self.admitted.iter().filter(removed)
    }

    /// The tile places that those of the entries may need back.
    pub fn spoken_by(&self, counts: impl Fn(&Admitted) -> bool) -> u32 {
        let removals = self.removals().filter(|entry| counts(entry));
        let places = match self.rule {
            Rule::EachAlone => removals.count(),
            Rule::JobAsOne => {
                let tiles = removals.map(|entry| entry.tile);
                let absent = tiles.filter(|tile| !self.tiles.contains(tile));
                absent.collect::<BTreeSet<Tile>>().len()
            }
        };
        count_of(places)
    }

    /// Counts what every call then keeps: the tiles of each level and the places spoken for.
    pub fn count_anew(&mut self) {
        self.levels = [0; LEVELS_SERVED];
        for tile in &self.tiles {
            self.levels[tile.level_place()] += 1;
        }
        self.spoken = self.spoken_by(|_| true);
    }

    /// Tile places in use, with those that an unfinished delete may need back.
    pub fn places_taken(&self) -> usize {
        self.tiles.len() + length_of(self.spoken)
    }

    /// Whether an absent tile's place is spoken for by a delete of the only job that may insert
    /// the tile again.
    pub fn has_its_place(&self, tile: Tile) -> bool {
        match self.rule {
            Rule::EachAlone => false,
            Rule::JobAsOne => self.removals().any(|entry| entry.tile == tile),
        }
    }

    fn needs_place(&self, wanted: &Admitted) -> bool {
        wanted.kind == Kind::Added && !self.has_its_place(wanted.tile)
    }

    /// Whether the unfinished changes can be undone from the tiles as they stand.
    pub fn changes_stand(&self) -> bool {
        let mut last_changes: BTreeMap<Tile, &Admitted> = BTreeMap::new();
        for entry in &self.admitted {
            let change = last_changes.get(&entry.tile);
            if change.map_or(false, |change| !self.may_follow(entry, change)) {
                return false;
            }
            if entry.kind.changes_tiles() {
                last_changes.insert(entry.tile, entry);
            }
        }
        let stands = |change: &&Admitted| {
            let present = self.tiles.contains(&change.tile);
            present == (change.kind == Kind::Added)
        };
        last_changes.values().all(stands)
    }

    /// Whether an entry may stand behind the last change of its tile.
    fn may_follow(&self, entry: &Admitted, change: &Admitted) -> bool {
        match self.rule {
            Rule::EachAlone => false,
            // What changes nothing has another kind than a change anyway.
            Rule::JobAsOne => entry.job() == change.job() && entry.kind != change.kind,
        }
    }
}
