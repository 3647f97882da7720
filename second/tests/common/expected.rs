//! The reply to an operation by the definitions alone, and what they leave open.

use super::counts::{counts_of, KeptCounts};
use super::history::{Done, Trial};
use super::{held_by, refused, Told};
use second::operation::{Origin, Procedure, Recovery};
use second::rule::Rule;
use second::strictness::{commutes, most_tiles, step_on, strict, Step};
use second::tile::Tile;
use std::collections::BTreeSet;

impl Trial {
    /// The tiles of the unfinished deletes that took effect.
    fn deleted(&self) -> impl Iterator<Item = Tile> + '_ {
        let effective = |done: &&Done| done.step.recovery == Recovery::Insert(done.step.tile);
        self.unfinished()
            .filter(effective)
            .map(|done| done.step.tile)
    }

    /// The counts that the session should keep, from the history alone.
    pub fn due_counts(&self) -> KeptCounts {
        let deleted: Vec<Tile> = self.deleted().collect();
        counts_of(self.rule, &self.tiles(), &deleted)
    }

    /// The journal has room for everything here.
    pub fn due_reply(&mut self, job: u8, new: Step) -> Told {
        let mut with_new = self.steps();
        with_new.push(new);
        let holder = self.holder(job, new);
        self.compare_with_strictness(holder, &with_new);
        if let Some(holder) = holder {
            return held_by(holder);
        }
        if self.lacks_room(new, &with_new) {
            return refused(7);
        }
        if self.unfinished().count() >= self.bench.tables.operations.len() {
            return refused(8);
        }
        (0, u8::from(new.ok), 0, 0)
    }

    /// What a rectangle is told: its operations are taken one after another, each held or not as
    /// the tables stand now. Its steps, too.
    pub fn due_rectangle(
        &mut self,
        origin: Origin,
        transaction: usize,
        procedure: Procedure,
        tiles: &[Tile],
    ) -> (Told, Vec<Step>) {
        let now = self.tiles();
        let steps: Vec<Step> = tiles
            .iter()
            .map(|tile| step_on(transaction, procedure, *tile, &now))
            .collect();
        let holder = steps.iter().find_map(|step| self.holder(origin.job, *step));
        let with_list = [self.steps(), steps.clone()].concat();
        self.compare_with_strictness(holder, &with_list);
        if let Some(holder) = holder {
            return (held_by(holder), steps);
        }
        let number = self.due_number(origin, &steps);
        if self.rule == Rule::EachAlone {
            let places = self.bench.tables.tiles.len();
            let fits = most_tiles(self.rule, &self.start, &with_list) <= places;
            assert_eq!(number == 7, !fits);
        }
        (refused(number), steps)
    }

    /// The number that a list of operations gets that are not held.
    fn due_number(&mut self, origin: Origin, steps: &[Step]) -> u8 {
        let before = self.done.len();
        let mut number = 0;
        for step in steps {
            // One that only lacks an entry is taken all the same: a later one may lack a place.
            number = match self.due_reply(origin.job, *step).0 {
                0 => number,
                refused => refused,
            };
            if number == 7 {
                break;
            }
            let step = *step;
            self.done.push(Done { origin, step });
        }
        self.done.truncate(before);
        number
    }

    /// Whose unfinished operation is the first that stands in the way.
    fn holder(&self, job: u8, new: Step) -> Option<Origin> {
        let holds = |done: &&Done| match self.rule {
            Rule::EachAlone => !commutes(new, done.step.recovery),
            Rule::JobAsOne => {
                let on_tile = done.step.tile == new.tile;
                done.origin.job != job && on_tile && done.step.recovery != Recovery::Skip
            }
        };
        self.unfinished().find(holds).map(|done| done.origin)
    }

    /// By rule 1 held is exactly what strictness forbids; by rule 2 it may be more.
    fn compare_with_strictness(&mut self, holder: Option<Origin>, with_new: &[Step]) {
        let stays_strict = strict(self.rule, &self.start, with_new);
        assert!(stays_strict || holder.is_some());
        if stays_strict && holder.is_some() {
            assert_eq!(self.rule, Rule::JobAsOne);
            self.tally.held_though_strict += 1;
        }
    }

    /// By rule 1 room lacks exactly where some outcome needs more places; by rule 2 it may lack
    /// elsewhere, too.
    fn lacks_room(&mut self, new: Step, with_new: &[Step]) -> bool {
        let places = self.bench.tables.tiles.len();
        let fits = most_tiles(self.rule, &self.start, with_new) <= places;
        match self.rule {
            Rule::EachAlone => !fits,
            Rule::JobAsOne => {
                let lacks = self.lacks_room_by_rule_2(new, places);
                assert!(fits || lacks);
                self.tally.no_room_though_fitting += usize::from(fits && lacks);
                lacks
            }
        }
    }

    /// "Tile room now counts, besides the tiles, each absent tile with an unfinished delete that
    /// took effect, once; an insert of a tile so counted needs no further place, any other insert
    /// of an absent tile gets 7 exactly when the count equals the places."
    fn lacks_room_by_rule_2(&self, new: Step, places: usize) -> bool {
        let tiles = self.tiles();
        let absent = self.deleted().filter(|tile| !tiles.contains(tile));
        let counted: BTreeSet<Tile> = absent.collect();
        let inserts = new.procedure == Procedure::Insert && !tiles.contains(&new.tile);
        inserts && !counted.contains(&new.tile) && tiles.len() + counted.len() == places
    }
}
