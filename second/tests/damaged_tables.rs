//! Tables damaged in any way: refusals leave everything, accepted calls leave sound tables.

use crate::common::tables::{any_call, damage, some_bench, some_count};
use crate::common::*;
use second::random::Random;
use second::replay::replay;
use second::rule::Rule;
use second::service;
use second::session::Session;
use second::soundness::broken;
use std::collections::BTreeSet;

const ROUNDS: usize = 12_000;

/// Journal bytes before the used ones and behind the new record stay as they were.
fn check_journal(before: &Bench, after: &Bench) {
    let old = before.session.journal as usize;
    let new = after.session.journal as usize;
    let (was, is) = (&before.tables.journal, &after.tables.journal);
    assert!(new - old == 4 || new - old == 12);
    assert_eq!(was[..old], is[..old]);
    assert_eq!(was[new..], is[new..]);
}

#[test]
fn refusals_leave_everything_and_accepted_calls_leave_sound_tables() {
    let mut random = Random::seeded(7);
    let (mut accepted, mut refusals) = ([0, 0], BTreeSet::new());
    for _ in 0..ROUNDS {
        let mut bench = some_bench(&mut random);
        damage(&mut random, &mut bench);
        let requirements = broken(&bench.session, &bench.tables);
        let keeps_all = requirements.is_empty();
        assert_eq!(
            bench.is_sound(),
            keeps_all,
            "{:?} {:?}",
            requirements,
            bench
        );
        for _ in 0..6 {
            let (sound, before) = (bench.is_sound(), bench.clone());
            let reply = any_call(&mut random, &mut bench);
            assert_eq!(reply.0 == 1, !sound);
            if reply.0 == 0 {
                assert!(bench.is_sound());
                check_journal(&before, &bench);
                accepted[usize::from(bench.session.rule.number() - 1)] += 1;
            } else {
                assert_eq!(bench, before);
                refusals.insert((bench.session.rule.number(), reply.0));
            }
        }
    }
    assert!(accepted.iter().all(|times| *times > 1000), "{:?}", accepted);
    let numbers = || (1..=9).chain(Some(14));
    let all = (1..=2).flat_map(|rule| numbers().map(move |number| (rule, number)));
    assert_eq!(refusals, all.collect());
}

#[test]
fn starts_and_replays_on_damaged_tables() {
    let mut random = Random::seeded(8);
    for _ in 0..ROUNDS {
        let mut bench = some_bench(&mut random);
        damage(&mut random, &mut bench);
        let before = bench.clone();
        let count = some_count(&mut random, before.tables.tiles.len());
        let (session, reply) = service::start(&mut bench.tables, count, Rule::EachAlone);
        assert_eq!(bench.tables.journal, before.tables.journal);
        let started = without_turns(reply) == DONE;
        let mut again = before.tables.clone();
        let outcome = replay(&[], &mut again.tiles, count, &mut again.operations);
        assert_eq!(outcome.reply == 0, started);
        if started {
            assert!(broken(&session, &bench.tables).is_empty());
            assert_eq!(bench.tables.tiles, before.tables.tiles);
            assert_eq!(again, bench.tables);
        } else {
            assert_eq!(session, Session::empty());
            assert_eq!(bench.tables, before.tables);
            assert_eq!((outcome.count, again), (count, before.tables));
        }
    }
}

#[test]
fn a_start_by_rule_2_differs_by_the_rule_and_four_bytes() {
    let mut random = Random::seeded(9);
    for _ in 0..ROUNDS {
        let mut bench = some_bench(&mut random);
        damage(&mut random, &mut bench);
        let count = some_count(&mut random, bench.tables.tiles.len());
        let (mut old, mut new) = (bench.tables.clone(), bench.tables.clone());
        let (mut session, old_reply) = service::start(&mut old, count, Rule::EachAlone);
        let (new_session, new_reply) = service::start(&mut new, count, Rule::JobAsOne);
        if old_reply.is_ok() && old.journal.len() < 4 {
            assert_eq!(without_turns(new_reply), refused(9));
            assert_eq!((new_session, new), (Session::empty(), bench.tables));
            continue;
        }
        assert_eq!(new_reply, old_reply);
        if old_reply.is_ok() {
            session.rule = Rule::JobAsOne;
            session.journal = 4;
            old.journal[..4].copy_from_slice(&[5, 0, 1, 2]);
            assert!(broken(&new_session, &new).is_empty());
        }
        assert_eq!((new_session, new), (session, old));
    }
}
