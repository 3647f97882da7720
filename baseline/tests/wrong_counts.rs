//! Where the count of a level or of the places spoken for is wrong, no call is made.

use crate::common::*;
use baseline::levels::LEVELS;
use baseline::reply::Refusal;
use baseline::rule::Rule;
use baseline::session::Session;
use baseline::workload::damage::damage;
use baseline::workload::packs::Sort;
use baseline::workload::random::Random;
use baseline::workload::world::{Call, World};
use std::collections::BTreeSet;

/// Every session with one count that is not right, and those in which two levels are wrong that
/// add up as before.
fn with_wrong_counts(right: Session) -> Vec<Session> {
    let mut wrong = Vec::new();
    let most = u32::MAX as usize;
    let others = |count: usize| [count.wrapping_sub(1), count + 1, most, most + 1, usize::MAX];
    for spoken in others(right.spoken) {
        wrong.push(Session { spoken, ..right });
    }
    for level in 0..LEVELS {
        let with = |count: usize| {
            let mut session = right;
            session.levels[level] = count;
            session
        };
        wrong.extend(others(right.levels[level]).map(with));
        let mut moved = with(right.levels[level].wrapping_sub(1));
        let next = (level + 1) % LEVELS;
        moved.levels[next] = moved.levels[next].wrapping_add(1);
        wrong.push(moved);
    }
    wrong
}

#[test]
fn no_call_is_made_where_a_count_is_wrong() {
    let calls = [Call::Open(3), Call::Commit(1), Call::Abort(64)];
    for rule in Rule::ALL {
        let mut case = Case::by(rule, 3, &[A, B]);
        assert_eq!(case.delete(1, A), OK);
        for session in with_wrong_counts(case.world.session) {
            for call in calls {
                let mut world = case.world.clone();
                world.session = session;
                assert_eq!(Case { world }.call(call), Err(Refusal::NotSound));
            }
        }
    }
}

#[test]
fn full_tables_with_a_wrong_count_are_not_sound() {
    for (rule, sort) in Sort::all() {
        let mut world = sort.pack(rule, 7);
        for session in with_wrong_counts(world.session) {
            world.session = session;
            assert!(!is_sound(&mut world), "{sort:?} {session:?}");
        }
    }
}

/// Which counts differ: each level by its place, and behind them what is spoken for.
fn wrong_counts(damaged: &World, pack: &World) -> Vec<usize> {
    let all = |world: &World| {
        let session = &world.session;
        session.levels.into_iter().chain([session.spoken])
    };
    let pairs = all(damaged).zip(all(pack)).enumerate();
    let wrong = pairs.filter(|(_, (one, other))| one != other);
    wrong.map(|(at, _)| at).collect()
}

/// The proved check is compared on what this damage makes.
#[test]
fn damage_reaches_each_count_alone_and_levels_that_add_up() {
    let mut random = Random::seeded(73);
    let pack = Sort::Mixed.pack(Rule::Alone, 8);
    let (mut alone, mut moved) = (BTreeSet::new(), 0);
    for _ in 0..2_000 {
        let mut damaged = pack.clone();
        damage(&mut random, &mut damaged);
        let wrong = wrong_counts(&damaged, &pack);
        damaged.session.levels = pack.session.levels;
        damaged.session.spoken = pack.session.spoken;
        if damaged != pack {
            continue;
        }
        match wrong[..] {
            [one] => drop(alone.insert(one)),
            [_, _] => moved += 1,
            _ => {}
        }
    }
    assert_eq!(alone, (0..=LEVELS).collect());
    assert!(moved > 50, "{moved}");
}
