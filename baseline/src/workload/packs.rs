//! Sound sessions of several sorts, most of them with full tables.

use super::counts::recount;
use super::histories::stretch_until;
use super::random::Random;
use super::world::World;
use crate::entry::{self, Origin, ALREADY_GONE, ALREADY_THERE, DELETED, INSERTED, NOT_SEEN, SEEN};
use crate::rectangle::MOST_LISTED;
use crate::rule::Rule;
use crate::session::{JOBS, MOST_OPERATIONS, MOST_TILES};
use crate::soundness::{slot, SPREAD};
use crate::tile::is_key;
use std::collections::HashSet;

#[derive(Clone, Copy, Debug, PartialEq, Eq)]
pub enum Sort {
    Mixed,
    Changing,
    Unchanging,
    Colliding,
    LittleUsed,
    Small,
    Roomy,
    Own,
    Replaced,
    ReplacedApart,
}

/// A job that is closed in every pack; all others are open.
pub const CLOSED_JOB: u8 = JOBS as u8 - 1;

/// A job that is open and has no entries, until it is given some.
pub const IDLE_JOB: u8 = 0;

/// So many tiles were replaced where the operations table is full of it.
const REPLACED: usize = MOST_OPERATIONS / 2;

impl Sort {
    /// Those that are sound by both rules, but for the one with room for a rectangle.
    pub const OF_BOTH: [Sort; 6] = [
        Sort::Mixed,
        Sort::Changing,
        Sort::Unchanging,
        Sort::Colliding,
        Sort::LittleUsed,
        Sort::Small,
    ];

    /// Those in which jobs went on with what they changed.
    pub const OF_TOGETHER: [Sort; 3] = [Sort::Own, Sort::Replaced, Sort::ReplacedApart];

    /// Every sort of these, by every rule by which it is sound.
    pub fn all() -> impl Iterator<Item = (Rule, Sort)> {
        let of_both = |rule| Sort::OF_BOTH.into_iter().map(move |sort| (rule, sort));
        let of_together = Sort::OF_TOGETHER.into_iter();
        let of_together = of_together.map(|sort| (Rule::Together, sort));
        Rule::ALL.into_iter().flat_map(of_both).chain(of_together)
    }

    /// Those that are full, of which the idle job can be given any even number of entries.
    pub fn full() -> impl Iterator<Item = (Rule, Sort)> {
        let others = [Sort::LittleUsed, Sort::Small, Sort::Own];
        Sort::all().filter(move |(_, sort)| !others.contains(sort))
    }

    pub fn name(self) -> &'static str {
        match self {
            Sort::Mixed => "full, mixed kinds",
            Sort::Changing => "full, all changing (1 and 3)",
            Sort::Unchanging => "full, none changing (2, 4, 5, 6)",
            Sort::Colliding => "full, keys collide in the filter",
            Sort::LittleUsed => "100 tiles, 12 entries in use",
            Sort::Small => "full, 64 and 16 places",
            Sort::Roomy => "full but for 256, mixed kinds",
            Sort::Own => "full, mixed kinds on own tiles",
            Sort::Replaced => "full, each deleted, inserted again",
            Sort::ReplacedApart => "full, all deleted, all inserted again",
        }
    }

    fn kinds(self) -> &'static [u64] {
        match self {
            Sort::Changing => &[INSERTED, DELETED],
            Sort::Unchanging => &[ALREADY_THERE, ALREADY_GONE, SEEN, NOT_SEEN],
            Sort::Colliding => &[INSERTED],
            _ => &[
                INSERTED,
                ALREADY_THERE,
                DELETED,
                ALREADY_GONE,
                SEEN,
                NOT_SEEN,
            ],
        }
    }

    /// Tile places and entries in use; a reserved place counts as used.
    fn usage(self) -> (usize, usize) {
        match self {
            Sort::LittleUsed => (100, 12),
            Sort::Small => (64, 16),
            Sort::Roomy => (MOST_TILES - MOST_LISTED, MOST_OPERATIONS - MOST_LISTED),
            _ => (MOST_TILES, MOST_OPERATIONS),
        }
    }

    pub fn pack(self, rule: Rule, seed: u64) -> World {
        let mut random = Random::seeded(seed);
        let mut world = match self {
            Sort::Own => own_tiles(&mut random),
            Sort::Replaced => replaced(&mut random, |at| (at / 2, at % 2 == 0)),
            Sort::ReplacedApart => replaced(&mut random, |at| (at % REPLACED, at < REPLACED)),
            _ => self.changed_once(&mut random),
        };
        world.session.rule = rule;
        recount(&mut world);
        world
    }

    /// The same with so many of the entries given to the idle job.
    pub fn employed_pack(self, rule: Rule, seed: u64, entries: usize) -> World {
        let mut world = self.pack(rule, seed);
        match self {
            Sort::Replaced | Sort::ReplacedApart => employ_on_replaced(&mut world, entries),
            _ => employ_idle_job(&mut world, entries),
        }
        world
    }

    fn changed_once(self, random: &mut Random) -> World {
        let (places, entries) = self.usage();
        let kinds: Vec<u64> = (0..entries).map(|_| random.pick(self.kinds())).collect();
        let own_keys = match self {
            Sort::Colliding => colliding_keys(random.key(), entries),
            _ => Vec::new(),
        };
        let keys = random.distinct_keys(own_keys, places + 2 * entries);
        let mut world = world_of(random, places, &kinds, &keys);
        if self == Sort::Small {
            world.tiles.truncate(places);
            world.operations.truncate(entries);
        }
        world
    }
}

/// The first keys are present, those behind them absent. An entry that changed its tile has one
/// of its own; the others share what is left.
fn world_of(random: &mut Random, places: usize, kinds: &[u64], keys: &[u32]) -> World {
    let deleted = kinds.iter().filter(|&&kind| kind == DELETED).count();
    let (present, absent) = keys.split_at(places - deleted);
    let mut world = World::with_tiles(present.to_vec());
    for (at, &kind) in kinds.iter().enumerate() {
        let shared = kinds.len() + random.below(kinds.len());
        let key = match kind {
            INSERTED => present[at],
            DELETED => absent[at],
            ALREADY_THERE | SEEN => present[shared],
            _ => absent[shared],
        };
        world.operations[at] = entry::entry(kind, random.origin(employed_job(at)), key);
    }
    world.session.operations = kinds.len();
    open_jobs(&mut world);
    world
}

/// A job that is neither idle nor closed.
fn employed_job(at: usize) -> u8 {
    1 + (at % usize::from(CLOSED_JOB - 1)) as u8
}

fn open_jobs(world: &mut World) {
    world.session.marks = [true; JOBS];
    world.session.marks[usize::from(CLOSED_JOB)] = false;
}

/// Tiles that a job each deleted and inserted again. For every entry it is given which tile it has
/// and whether it is the delete.
fn replaced(random: &mut Random, entry_at: fn(usize) -> (usize, bool)) -> World {
    let keys = random.distinct_keys(Vec::new(), MOST_TILES);
    let mut world = World::with_tiles(keys.clone());
    for (at, place) in world.operations.iter_mut().enumerate() {
        let (tile, is_delete) = entry_at(at);
        let kind = if is_delete { DELETED } else { INSERTED };
        *place = entry::entry(kind, random.origin(employed_job(tile)), keys[tile]);
    }
    world.session.operations = MOST_OPERATIONS;
    open_jobs(&mut world);
    world
}

/// What calls leave, by which jobs often went on with what they changed.
fn own_tiles(random: &mut Random) -> World {
    let keys = random.distinct_keys(Vec::new(), 2 * MOST_TILES);
    let mut world = World::with_tiles(keys[..MOST_TILES - 64].to_vec());
    world.session.rule = Rule::Together;
    open_jobs(&mut world);
    world.session.marks[usize::from(IDLE_JOB)] = false;
    stretch_until(random, &keys, &mut world, usize::MAX);
    world.session.journal = 0;
    open_jobs(&mut world);
    world
}

/// Keys that all have the slot of this one in the filter.
fn colliding_keys(example: u32, count: usize) -> Vec<u32> {
    let product = slot(example) << 16;
    (0..1 << 16)
        .map(|low| (product as u32 | low).wrapping_mul(inverse_of_spread()))
        .filter(|&key| is_key(key))
        .take(count)
        .collect()
}

/// The inverse of the multiplier by 2^32; each step of Newton's doubles the number of right bits.
fn inverse_of_spread() -> u32 {
    (0..5).fold(SPREAD, |inverse, _| {
        inverse.wrapping_mul(2u32.wrapping_sub(SPREAD.wrapping_mul(inverse)))
    })
}

/// Gives the idle job so many of the entries, evenly spread.
pub fn employ_idle_job(world: &mut World, count: usize) {
    let used = world.session.operations;
    for at in (0..count).map(|n| n * used / count) {
        give_to_idle_job(&mut world.operations[at]);
    }
}

/// The same where each tile was replaced: all that changed a tile is of one job, so that the two
/// entries of a tile go together.
pub fn employ_on_replaced(world: &mut World, count: usize) {
    let deletes = world
        .operations
        .iter()
        .filter(|&&e| entry::kind(e) == DELETED);
    let replaced: Vec<u32> = deletes.map(|&e| entry::key(e)).collect();
    let tiles = count / 2;
    let chosen = (0..tiles).map(|n| replaced[n * replaced.len() / tiles]);
    let chosen: HashSet<u32> = chosen.collect();
    let entries = world.operations.iter_mut();
    for own in entries.filter(|e| chosen.contains(&entry::key(**e))) {
        give_to_idle_job(own);
    }
}

fn give_to_idle_job(own: &mut u64) {
    let origin = Origin {
        job: IDLE_JOB,
        ..entry::origin(*own)
    };
    *own = entry::entry(entry::kind(*own), origin, entry::key(*own));
}
