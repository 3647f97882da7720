//! Random small histories by both rules against the report's definition, over all choices; and the
//! journal of each history, in both forms of records, cut at every byte, replayed and mended.

use crate::common::cuts::Chronicle;
use crate::common::history::{most_done, Tally, Trial};
use second::random::Random;
use second::rule::Rule;

const HISTORIES: u64 = 400;

/// As the session wrote it, or with all its operations in the old form, or some.
fn in_some_form(written: Chronicle, seed: u64) -> Chronicle {
    let mut random = Random::seeded(seed);
    match seed % 3 {
        0 => written,
        1 => written.with_old_records(|| true),
        _ => written.with_old_records(|| random.one_in(2)),
    }
}

/// Every outcome was met often, or this would show little.
fn many_histories(rule: Rule) -> Tally {
    let mut sum = Tally::default();
    let mut most_unfinished = 0;
    for seed in 0..HISTORIES {
        let trial = Trial::run(rule, seed);
        let written = trial.chronicle();
        written.reads_back();
        let journal = in_some_form(written, seed);
        journal.reads_back();
        journal.cut_everywhere();
        journal.mend_everywhere();
        most_unfinished = most_unfinished.max(trial.unfinished().count());
        for (reply, times) in &trial.tally.replies {
            *sum.replies.entry(*reply).or_insert(0) += times;
        }
        for (reply, times) in &trial.tally.rectangles {
            *sum.rectangles.entry(*reply).or_insert(0) += times;
        }
        sum.held_though_strict += trial.tally.held_though_strict;
        sum.no_room_though_fitting += trial.tally.no_room_though_fitting;
        sum.oldest_first_differs += trial.tally.oldest_first_differs;
    }
    for reply in [0, 6, 7, 8] {
        let times = sum.replies.get(&reply).copied().unwrap_or(0);
        assert!(times > 100, "{:?}", sum.replies);
        let times = sum.rectangles.get(&reply).copied().unwrap_or(0);
        assert!(times > 20, "{:?}", sum.rectangles);
    }
    assert_eq!(most_unfinished, most_done(rule).1);
    sum
}

#[test]
fn by_rule_1_operations_are_held_exactly_when_the_history_would_not_be_strict() {
    let sum = many_histories(Rule::EachAlone);
    assert_eq!(sum.held_though_strict, 0);
    assert_eq!(sum.oldest_first_differs, 0);
}

#[test]
fn by_rule_2_admitted_histories_are_strict_and_the_converse_does_not_hold() {
    let sum = many_histories(Rule::JobAsOne);
    assert!(sum.held_though_strict > 10);
    assert!(sum.no_room_though_fitting > 10);
    assert!(sum.oldest_first_differs > 10);
}
