//! Starts by both rules: by what they are refused, what they write and what they leave.

use crate::common::*;
use baseline::reply::Refusal;
use baseline::rule::Rule;
use baseline::session::Session;
use baseline::workload::world::{Call, World};

/// One tile, and tables in which nothing else is 0.
fn used_case() -> Case {
    let mut world = World::with_tiles(vec![A.key().unwrap()]);
    world.session.rule = Rule::Together;
    world.operations.fill(99);
    world.journal.fill(0xEE);
    Case { world }
}

/// Starts, and is refused; nothing is touched but the session, which is empty, by the first rule.
fn is_refused(mut case: Case, count: usize, rule: Rule, refusal: Refusal) {
    let before = case.world.clone();
    assert_eq!(case.call(Call::Start(count, rule)), Err(refusal));
    assert_eq!(case.world.session, Session::fresh(Rule::Alone, &[]));
    case.world.session = before.session;
    assert!(case.world == before);
}

#[test]
fn a_start_clears_the_operations_and_writes_its_rule() {
    for (rule, written) in [(Rule::Alone, &[][..]), (Rule::Together, &[5, 0, 1, 2][..])] {
        let mut case = used_case();
        let tiles = case.world.tiles.clone();
        assert_eq!(case.call(Call::Start(1, rule)), DONE);
        let world = case.world;
        assert_eq!(world.operations, [0; 1_024]);
        assert_eq!(world.tiles, tiles);
        assert_eq!(world.written(), written);
        let behind = &world.journal[written.len()..];
        assert!(behind.iter().all(|&byte| byte == 0xEE));
        let mut fresh = Session::fresh(rule, &tiles[..1]);
        fresh.journal = written.len();
        assert_eq!(world.session, fresh);
    }
}

#[test]
fn what_would_not_be_sound_is_refused_by_both_rules() {
    let breaches: [fn(&mut World); 6] = [
        |world| world.tiles[0] = 1,
        |world| world.tiles[1] = 1,
        |world| world.tiles.resize(4_097, 0),
        |world| world.operations.clear(),
        |world| world.operations.resize(1_025, 0),
        |world| world.journal.push(0),
    ];
    for rule in Rule::ALL {
        for count in [0, 2, 4_097, usize::MAX] {
            is_refused(used_case(), count, rule, Refusal::NotSound);
        }
        for breach in breaches {
            let mut case = used_case();
            breach(&mut case.world);
            is_refused(case, 1, rule, Refusal::NotSound);
        }
    }
}

#[test]
fn the_second_rule_needs_four_journal_bytes() {
    for bytes in 0..8 {
        let short = || {
            let mut case = used_case();
            case.world.journal.truncate(bytes);
            case
        };
        assert_eq!(short().call(Call::Start(1, Rule::Alone)), DONE);
        is_refused(short(), 2, Rule::Together, Refusal::NotSound);
        if bytes < 4 {
            is_refused(short(), 1, Rule::Together, Refusal::NoJournalRoom);
        } else {
            assert_eq!(short().call(Call::Start(1, Rule::Together)), DONE);
        }
    }
}

#[test]
fn every_call_keeps_the_rule() {
    for rule in Rule::ALL {
        let mut case = Case::by(rule, 4, &[]);
        let kept = |case: &Case| assert_eq!(case.world.session.rule, rule);
        assert_eq!(case.insert(1, A), OK);
        kept(&case);
        assert_eq!(case.member(2, A), held(1));
        kept(&case);
        assert_eq!(case.commit(1), DONE);
        kept(&case);
        assert_eq!(case.abort(2), DONE);
        kept(&case);
    }
}
