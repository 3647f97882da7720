//! Random small histories by either rule. After every call the tables are compared with what the
//! report's definitions say of the history.

use super::{tile, Bench, DONE};
use second::address::Address;
use second::journal::{Record, Recorded};
use second::journals::some_sheet;
use second::operation::{Origin, Procedure, PROCEDURES};
use second::random::Random;
use second::rectangle::{Rectangle, SWEEPS};
use second::rule::Rule;
use second::strictness::{most_tiles, run, step_on, strict, Step, Tiles};
use second::tile::Tile;
use std::collections::BTreeMap;

const MOST_TRIES: usize = 45;
const JOBS: [u8; 4] = [0, 1, 2, 63];

/// The most operations of a history, and the most unfinished ones. By rule 2 the choices are of
/// jobs, of which there are few, so that more operations may be open.
pub fn most_done(rule: Rule) -> (usize, usize) {
    match rule {
        Rule::EachAlone => (12, 8),
        Rule::JobAsOne => (18, 12),
    }
}

/// An operation that is not struck out.
pub struct Done {
    pub origin: Origin,
    pub step: Step,
}

/// A record of the journal, by where it ends, with the operation that it is.
#[derive(Clone)]
pub struct Logged {
    pub end: usize,
    pub transaction: usize,
    pub record: Record,
    pub step: Option<Step>,
}

/// How often each reply was met, and how often what is not claimed.
#[derive(Default)]
pub struct Tally {
    pub replies: BTreeMap<u8, usize>,
    pub rectangles: BTreeMap<u8, usize>,
    pub held_though_strict: usize,
    pub no_room_though_fitting: usize,
    pub oldest_first_differs: usize,
}

pub struct Trial {
    pub rule: Rule,
    pub random: Random,
    pub bench: Bench,
    pub start: Tiles,
    pub addresses: Vec<Address>,
    pub done: Vec<Done>,
    pub open: BTreeMap<u8, usize>,
    pub log: Vec<Logged>,
    pub tally: Tally,
    transactions: usize,
}

/// The same few tiles in several spellings of both editions, some on both sides of the seam, and
/// now and then one on another level.
fn some_addresses(random: &mut Random) -> Vec<Address> {
    let columns = [-1, 15, 0, 16, i32::MIN, i32::MAX, 7];
    let count = random.between(2, 6);
    let some_address = |_| {
        let row = random.pick(&[5, 5, 5, 0]);
        let (edition, row) = random.pick(&[(1, 15 - row), (2, row)]);
        Address {
            edition,
            zoom: random.pick(&[4, 4, 4, 4, 9]),
            column: random.pick(&columns),
            row,
        }
    };
    (0..count).map(some_address).collect()
}

impl Trial {
    pub fn new(rule: Rule, seed: u64) -> Trial {
        let mut random = Random::seeded(seed);
        let addresses = some_addresses(&mut random);
        let mut present = addresses.clone();
        present.retain(|_| random.one_in(2));
        let start: Tiles = present.iter().map(|address| tile(*address)).collect();
        let places = (start.len() + random.pick(&[0, 0, 1, 2])).max(1);
        let operations = random.pick(&[2, 4, 20, 20, 20]);
        Trial {
            rule,
            bench: Bench::started_by(rule, (places, operations, 2000), &present),
            random,
            start,
            addresses,
            done: Vec::new(),
            open: BTreeMap::new(),
            log: Vec::new(),
            tally: Tally::default(),
            transactions: 0,
        }
    }

    /// Calls until the history is long enough.
    pub fn run(rule: Rule, seed: u64) -> Trial {
        let mut trial = Trial::new(rule, seed);
        for _ in 0..MOST_TRIES {
            if trial.done.len() < most_done(rule).0 {
                trial.step_on();
            }
        }
        trial
    }

    pub fn steps(&self) -> Vec<Step> {
        self.done.iter().map(|done| done.step).collect()
    }

    pub fn unfinished(&self) -> impl Iterator<Item = &Done> {
        self.done.iter().filter(|done| !done.step.finished)
    }

    /// The tiles that the history leaves.
    pub fn tiles(&self) -> Tiles {
        let history = run(&self.start, self.steps().iter());
        history.expect("the answers it had").tiles
    }

    fn note(&mut self, transaction: usize, record: Record) {
        self.log.push(Logged {
            end: self.bench.journal().len(),
            transaction,
            record,
            step: None,
        });
    }

    fn step_on(&mut self) {
        let job = self.random.pick(&JOBS);
        let crowded = self.unfinished().count() >= most_done(self.rule).1;
        let transaction = self.open.get(&job).copied();
        match (transaction, self.random.below(12)) {
            (None, _) => self.begin(job),
            (Some(transaction), 0) => self.finish(job, transaction),
            (Some(transaction), 1) => self.strike_out(job, transaction),
            (Some(transaction), _) if crowded => self.finish(job, transaction),
            (Some(transaction), 2) => self.try_rectangle(job, transaction),
            (Some(transaction), _) => self.try_operation(job, transaction),
        }
        self.check();
    }

    /// The tables are sound and have the history's tiles and counts; the history is strict, and
    /// whatever is dropped of it fits into the places.
    fn check(&self) {
        assert!(self.bench.is_sound());
        let keys = self.bench.keys().iter();
        let tiles: Tiles = keys.filter_map(|key| Tile::from_key(*key)).collect();
        assert_eq!(tiles, self.tiles());
        assert_eq!(self.bench.kept_counts(), self.due_counts());
        let steps = self.steps();
        assert!(strict(self.rule, &self.start, &steps));
        let places = self.bench.tables.tiles.len();
        assert!(most_tiles(self.rule, &self.start, &steps) <= places);
    }

    fn begin(&mut self, job: u8) {
        assert_eq!(self.bench.open(job), DONE);
        self.transactions += 1;
        self.open.insert(job, self.transactions);
        self.note(self.transactions, Record::Open(job));
    }

    fn finish(&mut self, job: u8, transaction: usize) {
        assert_eq!(self.bench.commit(job), DONE);
        self.open.remove(&job);
        for done in self.done.iter_mut() {
            done.step.finished |= done.step.transaction == transaction;
        }
        self.note(transaction, Record::Commit(job));
    }

    fn strike_out(&mut self, job: u8, transaction: usize) {
        let mut oldest_first = self.tiles();
        for done in self.unfinished().filter(|done| done.origin.job == job) {
            done.step.recovery.run(&mut oldest_first);
        }
        assert_eq!(self.bench.abort(job), DONE);
        self.open.remove(&job);
        self.done
            .retain(|done| done.step.transaction != transaction);
        self.note(transaction, Record::Abort(job));
        self.tally.oldest_first_differs += usize::from(oldest_first != self.tiles());
    }

    fn some_origin(&mut self, job: u8) -> Origin {
        let sheet = some_sheet(&mut self.random);
        Origin { job, sheet }
    }

    fn try_operation(&mut self, job: u8, transaction: usize) {
        let origin = self.some_origin(job);
        let procedure = self.random.pick(&PROCEDURES);
        let address = self.random.pick(&self.addresses);
        let new = step_on(transaction, procedure, tile(address), &self.tiles());
        let due = self.due_reply(job, new);
        let before = self.bench.clone();
        assert_eq!(self.bench.operate_for(origin, procedure, address), due);
        *self.tally.replies.entry(due.0).or_insert(0) += 1;
        if due.0 == 0 {
            self.admit(origin, procedure, &[new]);
        } else {
            assert_eq!(self.bench, before);
        }
    }

    /// Up to four tiles round those of the history, if it has room for so many more.
    fn try_rectangle(&mut self, job: u8, transaction: usize) {
        let west = self
            .random
            .pick(&[-1, 14, 15, 0, 6, i32::MIN, i32::MAX - 1]);
        let top = self.random.pick(&[5, 5, 4, 0]);
        let bottom = top + self.random.pick(&[0, 0, 1]);
        let counted = [(1, 15 - top, 15 - bottom), (2, top, bottom)];
        let (edition, top, bottom) = self.random.pick(&counted);
        let place = Rectangle {
            edition,
            zoom: 4,
            west,
            east: west + self.random.pick(&[0, 1, 1]),
            top,
            bottom,
        };
        let tiles = place.tiles().expect("a rectangle that is taken");
        if self.unfinished().count() + tiles.len() > most_done(self.rule).1 {
            return;
        }
        let (origin, sweep) = (self.some_origin(job), self.random.pick(&SWEEPS));
        let (due, steps) = self.due_rectangle(origin, transaction, sweep.procedure(), &tiles);
        let before = self.bench.clone();
        assert_eq!(self.bench.sweep_for(origin, sweep, place), due);
        *self.tally.rectangles.entry(due.0).or_insert(0) += 1;
        if due.0 == 0 {
            self.admit(origin, sweep.procedure(), &steps);
        } else {
            assert_eq!(self.bench, before);
        }
    }

    /// To the history a rectangle is its operations; their records stand one behind the other.
    fn admit(&mut self, origin: Origin, procedure: Procedure, steps: &[Step]) {
        let end = self.bench.journal().len();
        for (step, behind) in steps.iter().zip((0..steps.len()).rev()) {
            let step = *step;
            self.done.push(Done { origin, step });
            self.log.push(Logged {
                end: end - 12 * behind,
                transaction: step.transaction,
                record: Record::Operation(Recorded {
                    job: origin.job,
                    procedure,
                    ok: step.ok,
                    tile: step.tile,
                    sheet: Some(origin.sheet),
                }),
                step: Some(step),
            });
        }
    }
}
