//! Lists of calls.

use super::editions::{address_of, any_edition};
use super::random::Random;
use super::rectangles::any_rectangle;
use super::turns::{off_the_level, turned};
use super::world::{Call, World};
use crate::entry::{job, key};
use crate::journal::Procedure;
use crate::rectangle::Change;
use crate::reply::Refusal;
use crate::rule::Rule;
use crate::session::{JOBS, MOST_OPERATIONS};
use crate::soundness::Check;
use crate::tile::Address;

pub const PROCEDURES: [Procedure; 3] = [Procedure::Insert, Procedure::Delete, Procedure::Member];

/// Small tables with few tiles, on which every reply comes up soon.
pub fn small_world(random: &mut Random, keys: &[u32]) -> World {
    let places = 1 + random.below(keys.len());
    let tiles = keys[..random.below(places + 1)].to_vec();
    let mut world = World::with_tiles(tiles);
    world.tiles.truncate(places);
    world.operations.truncate(1 + random.below(12));
    world.journal.truncate(40 + random.below(400));
    world
}

/// Any call, on one of these tiles, from either end and often some turns away, or now and then on
/// an address that has no key.
pub fn any_call(random: &mut Random, keys: &[u32], jobs: usize) -> Call {
    let job = match random.below(24) {
        0 => random.below(256),
        _ => random.below(jobs),
    } as u8;
    let origin = random.origin(job);
    match random.below(16) {
        0..=2 => Call::Open(job),
        3 => Call::Commit(job),
        4 => Call::Abort(job),
        5..=7 => Call::Rectangle(
            origin,
            random.pick(&Change::ALL),
            any_rectangle(random, keys),
        ),
        _ => Call::Operation(origin, random.pick(&PROCEDURES), any_address(random, keys)),
    }
}

/// The same; but often a rectangle near the tile of an entry for its job, where it may go on.
pub fn any_next_call(random: &mut Random, keys: &[u32], jobs: usize, world: &World) -> Call {
    match own_entry(random, world).filter(|_| random.one_in(2)) {
        Some(entry) => {
            let origin = random.origin(job(entry));
            let rectangle = any_rectangle(random, &[key(entry)]);
            Call::Rectangle(origin, random.pick(&Change::ALL), rectangle)
        }
        None => any_call(random, keys, jobs),
    }
}

/// By the second rule, often, an entry; for a job may go on with what it changed.
fn own_entry(random: &mut Random, world: &World) -> Option<u64> {
    let entries = &world.operations[..world.session.operations];
    let may_go_on = world.session.rule == Rule::Together && !entries.is_empty();
    (may_go_on && random.one_in(2)).then(|| random.pick(entries))
}

fn any_address(random: &mut Random, keys: &[u32]) -> Address {
    let key = random.pick(keys);
    let mut address = address_of(random, key);
    address.column = turned(random, address.zoom, address.column);
    match random.below(32) {
        0 => address.zoom = random.below(17) as u8,
        1 => address.row = [-1, 1 << address.zoom, i32::MIN, i32::MAX][random.below(4)],
        2 => address.column = off_the_level(random, address.zoom),
        3 => address.edition = any_edition(random),
        _ => {}
    }
    address
}

/// A job and a tile for its next operation, often those of an entry where it may go on.
pub fn job_and_tile(random: &mut Random, keys: &[u32], world: &World) -> (u8, u32) {
    match own_entry(random, world) {
        Some(entry) => (job(entry), key(entry)),
        None => {
            let key = random.pick(keys);
            (random.below(JOBS) as u8, key)
        }
    }
}

/// Operations that follow some calls that make room for them.
pub struct Stretch {
    pub freeing: Vec<Call>,
    pub operations: Vec<Call>,
}

/// A list of operations on tables that stay full, with the worlds before and after it.
pub struct Recorded {
    pub start: World,
    pub stretches: Vec<Stretch>,
    pub end: World,
}

/// Inserts are asked for more often than deletes, so that the tiles stay at the limit.
const ASKED: [Procedure; 6] = [
    Procedure::Insert,
    Procedure::Insert,
    Procedure::Insert,
    Procedure::Delete,
    Procedure::Member,
    Procedure::Member,
];

pub fn recorded(rule: Rule, seed: u64, operations: usize) -> Recorded {
    let mut random = Random::seeded(seed);
    let keys = random.distinct_keys(Vec::new(), 6_000);
    let mut world = World::with_tiles(keys[..4_000].to_vec());
    world.session.rule = rule;
    for job in 0..JOBS as u8 {
        let opened = world.call(Check::Filter, Call::Open(job));
        debug_assert!(opened.is_ok());
    }
    stretch_until(&mut random, &keys, &mut world, usize::MAX);
    world.session.journal = 0;
    let start = world.clone();
    let mut stretches = Vec::new();
    let mut left = operations;
    while left > 0 {
        let freeing = free_a_job(&mut random, &mut world);
        let operations = stretch_until(&mut random, &keys, &mut world, left);
        left -= operations.len();
        stretches.push(Stretch {
            freeing,
            operations,
        });
    }
    Recorded {
        start,
        stretches,
        end: world,
    }
}

/// Operations until the table of operations is found full some times, or there are so many.
pub fn stretch_until(
    random: &mut Random,
    keys: &[u32],
    world: &mut World,
    most: usize,
) -> Vec<Call> {
    let mut operations = Vec::new();
    let mut found_full = 0;
    while found_full < 2 && operations.len() < most {
        let (job, key) = job_and_tile(random, keys, world);
        let origin = random.origin(job);
        let call = Call::Operation(origin, random.pick(&ASKED), address_of(random, key));
        let reply = world.call(Check::Filter, call);
        // or it would go on for ever
        assert_ne!(reply, Err(Refusal::NotSound), "before {call:?}");
        found_full += usize::from(reply == Err(Refusal::NoOperationRoom));
        operations.push(call);
    }
    operations
}

fn free_a_job(random: &mut Random, world: &mut World) -> Vec<Call> {
    debug_assert!(world.session.operations == MOST_OPERATIONS);
    let job = random.below(JOBS) as u8;
    let end = random.pick(&[Call::Commit(job), Call::Abort(job)]);
    let calls = vec![end, Call::Open(job)];
    for &call in &calls {
        let ended = world.call(Check::Filter, call);
        debug_assert!(ended.is_ok());
    }
    calls
}
