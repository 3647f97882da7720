//! The counts of levels and of places spoken for: every call keeps them as a fresh count gives
//! them.

use crate::common::*;
use baseline::levels::{counted, hold_by_pass, hold_by_stretches, Levels, LEVELS};
use baseline::rectangle::Change;
use baseline::reply::Refusal;
use baseline::rule::Rule;
use baseline::session::Session;
use baseline::soundness::Check;
use baseline::workload::counts::{fresh_levels, fresh_spoken};
use baseline::workload::histories::{any_next_call, recorded, small_world};
use baseline::workload::packs::{employ_idle_job, Sort, IDLE_JOB};
use baseline::workload::random::Random;
use baseline::workload::rectangles::roomy_pack;
use baseline::workload::world::{Call, World};
use std::collections::BTreeSet;

fn assert_fresh(world: &World, after: Call) {
    let session = &world.session;
    assert_eq!(session.levels, fresh_levels(world), "after {after:?}");
    assert_eq!(session.spoken, fresh_spoken(world), "after {after:?}");
    let all: usize = session.levels.iter().sum();
    assert_eq!(all, session.tiles, "after {after:?}");
}

/// Makes a call that is done, and answers by how much it raised what is spoken for.
fn raised(world: &mut World, call: Call) -> isize {
    let before = world.session.spoken;
    world.call(Check::Filter, call).unwrap();
    assert_fresh(world, call);
    world.session.spoken as isize - before as isize
}

fn name_of(call: Call) -> &'static str {
    match call {
        Call::Start(..) => "start",
        Call::Open(_) => "open",
        Call::Operation(..) => "operation",
        Call::Rectangle(..) => "rectangle",
        Call::Commit(_) => "commit",
        Call::Abort(_) => "abort",
    }
}

/// What calls did to the number of places that are spoken for.
type Moves = BTreeSet<(&'static str, isize)>;

fn history(random: &mut Random, rule: Rule, moves: &mut Moves, seen: &mut Levels) {
    let keys = random.distinct_keys(Vec::new(), 8);
    let mut world = small_world(random, &keys);
    let mut call = Call::Start(world.session.tiles, rule);
    for _ in 0..160 {
        let before = world.session.spoken as isize;
        let reply = world.call(Check::Filter, call);
        assert_fresh(&world, call);
        if reply.is_ok() {
            let raise = world.session.spoken as isize - before;
            moves.insert((name_of(call), raise.signum()));
        }
        for (seen, count) in seen.iter_mut().zip(world.session.levels) {
            *seen += count;
        }
        call = any_next_call(random, &keys, 5, &world);
    }
}

#[test]
fn every_call_keeps_the_counts() {
    let lowered: [(&str, isize); 2] = [("commit", -1), ("abort", -1)];
    let raised: [(&str, isize); 2] = [("operation", 1), ("rectangle", 1)];
    let taken: [(&str, isize); 2] = [("operation", -1), ("rectangle", -1)];
    for rule in Rule::ALL {
        let (mut moves, mut seen) = (Moves::new(), [0; LEVELS]);
        let mut random = Random::seeded(71);
        for _ in 0..300 {
            history(&mut random, rule, &mut moves, &mut seen);
        }
        assert!(seen.iter().all(|&count| count > 0), "{seen:?}");
        moves.retain(|&(_, raise)| raise != 0);
        let mut expected = Moves::from_iter(lowered.into_iter().chain(raised));
        // by the second rule alone an insert takes a place that was spoken for
        if rule == Rule::Together {
            expected.extend(taken);
        }
        assert_eq!(moves, expected);
    }
}

#[test]
fn the_recorded_list_keeps_the_counts() {
    for rule in Rule::ALL {
        let recorded = recorded(rule, 3, 400);
        let mut world = recorded.start;
        assert!(world.session.spoken > 50, "{}", world.session.spoken);
        for stretch in recorded.stretches {
            for call in stretch.freeing.into_iter().chain(stretch.operations) {
                let _ = world.call(Check::Filter, call);
                assert_fresh(&world, call);
            }
        }
    }
}

#[test]
fn a_rectangle_and_its_end_keep_the_counts_on_full_tables() {
    let origin = of_job(IDLE_JOB);
    for rule in Rule::ALL {
        for (change, raise) in [(Change::Insert, 0), (Change::Delete, 256)] {
            let (pack, rectangle) = roomy_pack(rule, change, 2);
            for end in [Call::Commit(IDLE_JOB), Call::Abort(IDLE_JOB)] {
                let mut world = pack.clone();
                let put = Call::Rectangle(origin, change, rectangle);
                assert_eq!(raised(&mut world, put), raise);
                assert_eq!(raised(&mut world, end), -raise);
            }
        }
    }
}

#[test]
fn the_end_of_a_large_job_keeps_the_counts() {
    for end in [Call::Commit(IDLE_JOB), Call::Abort(IDLE_JOB)] {
        for (rule, sort) in Sort::all() {
            let mut world = sort.pack(rule, 6);
            let used = world.session.operations;
            employ_idle_job(&mut world, used);
            let spoken = world.session.spoken as isize;
            assert_eq!(raised(&mut world, end), -spoken, "{sort:?}");
        }
    }
}

/// Levels of the tiles of B and of A and C, as they stand in the session, and what is spoken for.
fn told(case: &Case) -> [usize; 3] {
    let Session { levels, spoken, .. } = case.world.session;
    assert_eq!(levels[1..LEVELS - 1], [0; LEVELS - 2]);
    [levels[LEVELS - 1], levels[0], spoken]
}

#[test]
fn a_tile_that_its_job_deletes_again_and_again() {
    for (end, left) in [(Call::Commit(1), [1, 0, 0]), (Call::Abort(1), [1, 1, 0])] {
        let mut case = Case::by(Rule::Together, 2, &[A, B]);
        assert_eq!(told(&case), [1, 1, 0]);
        for (call, expected) in [
            (Case::delete as fn(&mut Case, u8, _) -> Answer, [1, 0, 1]),
            (Case::insert, [1, 1, 0]),
            (Case::delete, [1, 0, 1]),
            (Case::delete, [1, 0, 1]),
        ] {
            assert_eq!(call(&mut case, 1, A), OK);
            assert_eq!(told(&case), expected);
        }
        assert_eq!(case.insert(2, C), Err(Refusal::NoTileRoom));
        assert_eq!(case.call(end), DONE);
        assert_eq!(told(&case), left);
    }
}

#[test]
fn a_tile_that_its_job_inserted_and_deleted() {
    for end in [Call::Commit(1), Call::Abort(1)] {
        let mut case = Case::by(Rule::Together, 2, &[]);
        assert_eq!(case.insert(1, A), OK);
        assert_eq!(told(&case), [0, 1, 0]);
        assert_eq!(case.delete(1, A), OK);
        assert_eq!(told(&case), [0, 0, 1]);
        assert_eq!(case.insert(1, B), OK);
        assert_eq!(told(&case), [1, 0, 1]);
        assert_eq!(case.call(end), DONE);
        let kept = usize::from(end == Call::Commit(1));
        assert_eq!(told(&case), [kept, 0, 0]);
    }
}

#[test]
fn only_the_ended_job_gives_its_places_back() {
    for rule in Rule::ALL {
        let mut case = Case::by(rule, 3, &[A, B, C]);
        assert_eq!(case.delete(1, A), OK);
        assert_eq!(case.delete(2, B), OK);
        assert_eq!(case.delete(1, C), OK);
        assert_eq!(told(&case), [0, 0, 3]);
        assert_eq!(case.commit(1), DONE);
        assert_eq!(told(&case), [0, 0, 1]);
        assert_eq!(case.abort(2), DONE);
        assert_eq!(told(&case), [1, 0, 0]);
    }
}

#[test]
fn a_start_makes_the_counts_and_a_refused_one_has_none() {
    for rule in Rule::ALL {
        let mut case = Case::by(rule, 3, &[A, B, C]);
        assert_eq!(told(&case), [1, 2, 0]);
        assert_eq!(case.delete(1, A), OK);
        assert_eq!(case.call(Call::Start(2, rule)), DONE);
        assert_eq!(told(&case), [1, 1, 0]);
        assert_eq!(case.call(Call::Start(1, rule)), Err(Refusal::NotSound));
        assert_eq!(told(&case), [0, 0, 0]);
    }
}

#[test]
fn the_pack_screen_asks_by_zoom() {
    let mut session = Session::fresh(Rule::Alone, &[]);
    for (level, count) in session.levels.iter_mut().enumerate() {
        *count = 100 + level;
    }
    for zoom in 0..=255 {
        let expected = match zoom {
            4..=14 => 96 + usize::from(zoom),
            _ => 0,
        };
        assert_eq!(session.tiles_of_zoom(zoom), expected);
    }
}

/// All ways to count say what a fresh count does, and both that nothing else holds.
fn assert_counted(tiles: &[u32]) {
    let right = counted(tiles);
    assert_eq!(right, fresh_levels(&World::with_tiles(tiles.to_vec())));
    for (one, other) in (0..LEVELS * LEVELS).map(|at| (at / LEVELS, at % LEVELS)) {
        let mut levels = right;
        levels[one] = levels[one].wrapping_sub(1);
        levels[other] = levels[other].wrapping_add(1);
        assert_eq!(hold_by_pass(&levels, tiles), one == other);
        assert_eq!(hold_by_stretches(&levels, tiles), one == other);
    }
}

#[test]
fn every_way_to_count_says_the_same() {
    let mut random = Random::seeded(72);
    for count in (0..60).chain([4_096]) {
        let mut tiles = random.distinct_keys(Vec::new(), count);
        tiles.sort_unstable();
        assert_counted(&tiles);
        // the same with a level that has none
        tiles.retain(|&tile| tile >> 28 != 4 + count as u32 % 11);
        assert_counted(&tiles);
    }
}
