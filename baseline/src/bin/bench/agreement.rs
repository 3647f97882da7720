//! Holds every way against the first: each field of a reply, the session and all buffers.

use crate::census::{Census, Compared};
use crate::ways::{Way, WAYS};
use baseline::journal::{read, Reading, Record};
use baseline::rectangle::Change;
use baseline::rule::Rule;
use baseline::workload::damage::damage;
use baseline::workload::histories::{any_call, any_next_call, recorded, small_world};
use baseline::workload::journals::{spoilt, with_older_records, write_full, Load};
use baseline::workload::packs::{Sort, IDLE_JOB};
use baseline::workload::random::Random;
use baseline::workload::rectangles::roomy_pack;
use baseline::workload::world::{Call, World};
use std::fmt::Debug;

type Agreed = Result<(), String>;

const PACKS_OF_A_SORT: u64 = 8;
const DAMAGES_OF_A_PACK: usize = 30;
const SMALL_HISTORIES: usize = 150;
const CALLS_OF_A_HISTORY: usize = 160;
const SPOILT_JOURNALS: usize = 200;
const RECORDED_OPERATIONS: usize = 600;
const ENTRIES_OF_A_JOB: [usize; 10] = [2, 16, 64, 94, 96, 98, 128, 256, 512, 1_024];

/// Fails with the first difference, or if some reply never came up.
pub fn compare_all() -> Result<Census, String> {
    let mut census = Census::default();
    compare_packs(&mut census)?;
    compare_ends(&mut census)?;
    for rule in Rule::ALL {
        compare_small_histories(&mut census, rule)?;
        compare_recorded(&mut census, rule)?;
        compare_large_rectangles(&mut census, rule)?;
        compare_full_journals(&mut census, rule)?;
    }
    match census.missing() {
        Some(missing) => Err(missing),
        None => Ok(census),
    }
}

/// Makes a call in every way on copies of the world, and leaves the world as they do.
fn compare_call(census: &mut Census, world: &mut World, call: Call) -> Agreed {
    let before = world.clone();
    let expected = WAYS[0].call(world, call);
    let (compared, rule) = match call {
        Call::Start(_, rule) => (Compared::Start, rule),
        Call::Rectangle(..) => (Compared::Rectangle, before.session.rule),
        _ => (Compared::Call, before.session.rule),
    };
    census.count(compared, rule, expected[0].unsigned_abs());
    for way in &WAYS[1..] {
        let mut other = before.clone();
        let reply = way.call(&mut other, call);
        compare(
            *way,
            &format!("{call:?}"),
            (expected, world),
            (reply, &other),
        )?;
    }
    Ok(())
}

/// The same for a replay onto the world's tiles.
fn compare_replay(census: &mut Census, journal: &[u8], start: &World) -> Agreed {
    let mut world = start.clone();
    let expected = WAYS[0].replay(journal, &mut world);
    let rule = match read(journal, 0) {
        Reading::Whole(Record::Together) => Rule::Together,
        _ => Rule::Alone,
    };
    census.count(Compared::Replay, rule, expected[0]);
    for way in &WAYS[1..] {
        let mut other = start.clone();
        let reply = way.replay(journal, &mut other);
        let what = format!("the replay of {} bytes", journal.len());
        compare(*way, &what, (expected, &world), (reply, &other))?;
    }
    Ok(())
}

fn compare<T: PartialEq + Debug>(
    way: Way,
    what: &str,
    expected: (T, &World),
    got: (T, &World),
) -> Agreed {
    let (one, other) = (WAYS[0].name(), way.name());
    if expected.0 != got.0 {
        let replies = format!("told {:?} and {:?}", expected.0, got.0);
        return Err(format!("{what}, by {one} and by {other}: {replies}"));
    }
    let part = match (expected.1, got.1) {
        (a, b) if a.session != b.session => "the session",
        (a, b) if a.tiles != b.tiles => "the tiles",
        (a, b) if a.operations != b.operations => "the operations",
        (a, b) if a.journal != b.journal => "the journal",
        _ => return Ok(()),
    };
    Err(format!("{what}, by {one} and by {other}: {part} after it"))
}

fn compare_checks(world: &mut World) -> Agreed {
    let sound = WAYS[0].is_sound(world);
    match WAYS.iter().find(|way| way.is_sound(world) != sound) {
        Some(way) => {
            let (one, other) = (WAYS[0].name(), way.name());
            Err(format!("the check by {one} says {sound}, by {other} not"))
        }
        None => Ok(()),
    }
}

/// Ends of jobs with few and with many entries on full tables: of a large job the proved call moves
/// the tiles at once, and of a small one each by itself.
fn compare_ends(census: &mut Census) -> Agreed {
    for (rule, sort) in Sort::full() {
        for entries in ENTRIES_OF_A_JOB {
            for end in [Call::Commit(IDLE_JOB), Call::Abort(IDLE_JOB)] {
                let mut pack = sort.employed_pack(rule, 9, entries);
                compare_call(census, &mut pack, end)?;
            }
        }
    }
    Ok(())
}

/// Full and small tables, sound and damaged: the check, starts and a few calls.
fn compare_packs(census: &mut Census) -> Agreed {
    let mut random = Random::seeded(1);
    for (rule, sort) in Sort::all() {
        for seed in 0..PACKS_OF_A_SORT {
            let pack = sort.pack(rule, seed);
            compare_pack(census, &mut random, pack.clone())?;
            for _ in 0..DAMAGES_OF_A_PACK {
                let mut damaged = pack.clone();
                damage(&mut random, &mut damaged);
                compare_pack(census, &mut random, damaged)?;
            }
        }
    }
    Ok(())
}

fn compare_pack(census: &mut Census, random: &mut Random, mut world: World) -> Agreed {
    compare_checks(&mut world)?;
    for rule in Rule::ALL {
        compare_start(census, random, world.clone(), rule)?;
    }
    let keys = random.distinct_keys(world.tiles.iter().copied().take(64).collect(), 128);
    for _ in 0..4 {
        let call = any_call(random, &keys, 64);
        compare_call(census, &mut world, call)?;
    }
    Ok(())
}

/// A start on used tables, now and then with a journal that is short or with another count.
fn compare_start(census: &mut Census, random: &mut Random, mut world: World, rule: Rule) -> Agreed {
    world.journal.fill(0xEE);
    let mut count = world.session.tiles;
    if random.one_in(4) {
        world.journal.truncate(random.below(6));
    }
    if random.one_in(8) {
        count = count.wrapping_add(1);
    }
    compare_call(census, &mut world, Call::Start(count, rule))
}

/// Histories on small tables, and replays of what they wrote, with and without older records:
/// whole, cut and spoilt.
fn compare_small_histories(census: &mut Census, rule: Rule) -> Agreed {
    let mut random = Random::seeded(2);
    for _ in 0..SMALL_HISTORIES {
        let keys = random.distinct_keys(Vec::new(), 8);
        let mut world = small_world(&mut random, &keys);
        let start = world.clone();
        let count = world.session.tiles;
        compare_call(census, &mut world, Call::Start(count, rule))?;
        for _ in 0..CALLS_OF_A_HISTORY {
            let call = any_next_call(&mut random, &keys, 5, &world);
            compare_checks(&mut world)?;
            compare_call(census, &mut world, call)?;
        }
        let older = with_older_records(&mut random, world.written());
        let journal = random.pick(&[world.written(), &older]);
        for bytes in 0..=journal.len() {
            compare_replay(census, &journal[..bytes], &start)?;
        }
        compare_spoilt(census, &mut random, journal, &start, 40)?;
    }
    Ok(())
}

/// A wrong journal, or now and then the right one on damaged tables.
fn compare_spoilt(
    census: &mut Census,
    random: &mut Random,
    journal: &[u8],
    start: &World,
    times: usize,
) -> Agreed {
    for _ in 0..times {
        if random.one_in(8) {
            let mut damaged = start.clone();
            damage(random, &mut damaged);
            compare_replay(census, journal, &damaged)?;
        } else {
            compare_replay(census, &spoilt(random, journal), start)?;
        }
    }
    Ok(())
}

fn compare_recorded(census: &mut Census, rule: Rule) -> Agreed {
    let recorded = recorded(rule, 3, RECORDED_OPERATIONS);
    let mut world = recorded.start;
    for stretch in recorded.stretches {
        for call in stretch.freeing.into_iter().chain(stretch.operations) {
            compare_call(census, &mut world, call)?;
        }
    }
    Ok(())
}

/// Rectangles of the most tiles on full tables with room for just them, with less, and damaged.
fn compare_large_rectangles(census: &mut Census, rule: Rule) -> Agreed {
    let mut random = Random::seeded(6);
    for seed in 0..PACKS_OF_A_SORT {
        for change in Change::ALL {
            let (pack, rectangle) = roomy_pack(rule, change, seed);
            let call = Call::Rectangle(random.origin(IDLE_JOB), change, rectangle);
            for lacking in [[0, 0, 0], [1, 0, 0], [0, 1, 0], [0, 0, 1]] {
                let mut world = pack.clone().without(lacking);
                compare_call(census, &mut world, call)?;
                compare_checks(&mut world)?;
                compare_call(census, &mut world, call)?;
                compare_call(census, &mut world, Call::Abort(IDLE_JOB))?;
            }
            for _ in 0..DAMAGES_OF_A_PACK {
                let mut damaged = pack.clone();
                damage(&mut random, &mut damaged);
                compare_call(census, &mut damaged, call)?;
            }
        }
    }
    Ok(())
}

fn compare_full_journals(census: &mut Census, rule: Rule) -> Agreed {
    let mut random = Random::seeded(4);
    for load in Load::ALL {
        for tiles in [0, 4_000] {
            let keys = random.distinct_keys(Vec::new(), 5_000);
            let start = World::with_tiles(keys[..tiles].to_vec());
            let written = write_full(&mut random, rule, load, start, &keys);
            let (journal, start) = (&written.journal, &written.start);
            compare_replay(census, journal, start)?;
            let too_long = [&journal[..], &[0; 65_536]].concat();
            compare_replay(census, &too_long, start)?;
            let older = with_older_records(&mut random, journal);
            compare_replay(census, &older, start)?;
            compare_spoilt(census, &mut random, &older, start, SPOILT_JOURNALS)?;
        }
    }
    Ok(())
}
