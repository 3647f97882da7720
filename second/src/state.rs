//! The service's state in its decoded form: sets and lists in place of tables of numbers. The
//! counts of levels and of places spoken for follow each tile and each entry that comes or goes.

use crate::operation::{Admitted, Kind, Recovery};
use crate::reply::Refusal;
use crate::rule::Rule;
use crate::tile::{Tile, LEVELS_SERVED};
use std::collections::BTreeSet;

#[derive(Clone, Debug, PartialEq, Eq)]
pub struct State {
    pub rule: Rule,
    pub tiles: BTreeSet<Tile>,
    pub tile_places: usize,
    pub admitted: Vec<Admitted>,
    pub operation_places: usize,
    pub open: BTreeSet<u8>,
    pub levels: [u32; LEVELS_SERVED],
    pub spoken: u32,
}

impl State {
    pub fn require_open(&self, job: u8) -> Result<(), Refusal> {
        if self.open.contains(&job) {
            Ok(())
        } else {
            Err(Refusal::NotOpen)
        }
    }

    pub fn require_closed(&self, job: u8) -> Result<(), Refusal> {
        if self.open.contains(&job) {
            Err(Refusal::AlreadyOpen)
        } else {
            Ok(())
        }
    }

    fn put_tile(&mut self, tile: Tile) {
        self.tiles.insert(tile);
        self.levels[tile.level_place()] += 1;
    }

    fn take_tile(&mut self, tile: Tile) {
        self.tiles.remove(&tile);
        self.levels[tile.level_place()] -= 1;
    }

    pub fn admit(&mut self, wanted: Admitted) {
        match wanted.kind {
            Kind::Added => {
                self.spoken -= u32::from(self.has_its_place(wanted.tile));
                self.put_tile(wanted.tile);
            }
            Kind::Removed => {
                self.take_tile(wanted.tile);
                self.spoken += 1;
            }
            Kind::AlreadyThere | Kind::AlreadyGone | Kind::Seen | Kind::Missed => {}
        }
        self.admitted.push(wanted);
    }

    /// Undoes an operation whose entry is gone, and so are those of the job's later ones.
    fn undo(&mut self, entry: Admitted) {
        match entry.recovery() {
            Recovery::Insert(tile) => {
                self.put_tile(tile);
                self.spoken -= 1;
            }
            Recovery::Delete(tile) => {
                self.take_tile(tile);
                // An earlier delete of the job waits for the place again.
                self.spoken += u32::from(self.has_its_place(tile));
            }
            Recovery::Skip => {}
        }
    }

    /// Ends a job and keeps what it did.
    pub fn commit(&mut self, job: u8) {
        self.spoken -= self.spoken_by(|entry| entry.job() == job);
        self.admitted.retain(|entry| entry.job() != job);
        self.open.remove(&job);
    }

    /// Ends a job and undoes what it did. Newest first: by rule 2 a job may have changed a tile
    /// more than once.
    pub fn abort(&mut self, job: u8) {
        let own = |entry: &Admitted| entry.job() == job;
        while let Some(place) = self.admitted.iter().rposition(own) {
            let entry = self.admitted.remove(place);
            self.undo(entry);
        }
        self.open.remove(&job);
    }
}
