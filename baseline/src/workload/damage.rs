//! Changes that most often make a sound session unsound.

use super::counts::recount;
use super::random::Random;
use super::world::World;
use crate::entry::{entry, job, key, kind, origin, Origin};
use crate::levels::LEVELS;
use crate::rule::Rule;
use crate::session::{Session, JOBS, MOST_JOURNAL, MOST_OPERATIONS, MOST_TILES};

/// Makes one change; now and then the session is sound after it all the same.
pub fn damage(random: &mut Random, world: &mut World) {
    match random.below(5) {
        0 => damage_tiles(random, &mut world.tiles),
        1 => damage_entries(random, &mut world.operations, world.session.operations),
        2 => damage_session(random, world),
        3 => damage_lengths(random, world),
        _ => return damage_counts(random, &mut world.session),
    }
    // lest the counts of levels and of what is spoken for be wrong wherever something else is
    if random.one_in(2) {
        recount(world);
    }
}

fn damage_tiles(random: &mut Random, tiles: &mut [u32]) {
    let (one, other) = (random.below(tiles.len()), random.below(tiles.len()));
    match random.below(4) {
        0 => tiles[one] ^= 1 << random.below(32),
        1 => tiles.swap(one, other),
        2 => tiles[one] = tiles[other],
        _ => tiles[one] = random.key(),
    }
}

fn damage_entries(random: &mut Random, operations: &mut [u64], used: usize) {
    let any = random.below(operations.len());
    if used == 0 {
        operations[any] = random.number();
        return;
    }
    let (one, other) = (random.below(used), random.below(used));
    match random.below(9) {
        0 => operations[any] ^= 1 << random.below(64),
        1 => operations.swap(one, other),
        // the neighbour, and then any other, gets the same tile
        2 => operations[one] = with_key_of(operations[one], operations[(one + 1) % used]),
        3 => operations[one] = with_key_of(operations[one], operations[other]),
        4 => operations[one] ^= (1 + random.below(7) as u64) << 40,
        // an insert becomes a delete, and a delete an insert
        5 => operations[one] ^= 2 << 40,
        6 => operations[one] = with_job_of(operations[one], operations[other]),
        // the entry stands once more, on the place of its neighbour or of any other
        7 => operations[(one + random.pick(&[1, other])) % used] = operations[one],
        _ => operations[one] = with_key_of(operations[one], u64::from(random.key())),
    }
}

fn with_key_of(one: u64, other: u64) -> u64 {
    entry(kind(one), origin(one), key(other))
}

fn with_job_of(one: u64, other: u64) -> u64 {
    let origin = Origin {
        job: job(other),
        ..origin(one)
    };
    entry(kind(one), origin, key(one))
}

fn damage_session(random: &mut Random, world: &mut World) {
    let session = &mut world.session;
    match random.below(7) {
        0 => session.marks[random.below(JOBS)] ^= true,
        1 => session.tiles = random.below(MOST_TILES + 2),
        2 => session.operations = random.below(MOST_OPERATIONS + 2),
        3 => session.journal = world.journal.len() + 4 - random.below(300).min(world.journal.len()),
        4 => session.tiles = usize::MAX - random.below(2),
        _ => {
            session.rule = match session.rule {
                Rule::Alone => Rule::Together,
                Rule::Together => Rule::Alone,
            }
        }
    }
}

fn damage_lengths(random: &mut Random, world: &mut World) {
    match random.below(6) {
        0 => world.tiles.truncate(random.below(MOST_TILES)),
        1 => world.operations.truncate(random.below(MOST_OPERATIONS)),
        2 => world.journal.truncate(random.below(400)),
        3 => world.tiles.resize(MOST_TILES + 1, 0),
        4 => world.operations.resize(MOST_OPERATIONS + 1, 0),
        _ => world.journal.resize(MOST_JOURNAL + 1, 0),
    }
}

/// Changes what is spoken for or a level alone, or two levels so that they add up as before.
fn damage_counts(random: &mut Random, session: &mut Session) {
    let (one, other) = (random.below(LEVELS), random.below(LEVELS));
    let levels = &mut session.levels;
    match random.below(3) {
        0 => session.spoken = another_count(random, session.spoken),
        1 => levels[one] = another_count(random, levels[one]),
        _ => {
            let moved = another_count(random, levels[one]).min(levels[one]);
            levels[one] -= moved;
            levels[other] += moved;
        }
    }
}

/// One next to it, none, the most that 32 bits hold, or any; now and then it is the same.
fn another_count(random: &mut Random, count: usize) -> usize {
    let any = random.below(MOST_TILES + 1);
    let most = u32::MAX as usize;
    random.pick(&[count + 1, count.saturating_sub(1), 0, most, any])
}
