//! Replay: refusals, what stops it, and that it leaves what the cut journal leaves.

use crate::common::*;
use second::journals::journal;
use second::replay::{replay, Replayed};

fn replayed(reply: u8, offset: u32, undone: u32, count: u32) -> Replayed {
    Replayed {
        reply,
        offset,
        undone,
        count,
    }
}

/// Replays onto no tiles with this room; gives the outcome and the tables.
fn run(bytes: &[u8], places: usize, operations: usize) -> (Replayed, Vec<u32>, Vec<u64>) {
    let (mut tiles, mut entries) = (vec![0; places], vec![77; operations]);
    let outcome = replay(bytes, &mut tiles, 0, &mut entries);
    (outcome, tiles, entries)
}

#[test]
fn a_refused_replay_changes_nothing() {
    for (tiles, count, operations, length) in refused_by_1() {
        let (mut after, mut entries) = (tiles.clone(), vec![5; operations]);
        let outcome = replay(&vec![0; length], &mut after, count, &mut entries);
        assert_eq!(outcome, replayed(1, 0, 0, count));
        assert_eq!((after, entries), (tiles, vec![5; operations]));
    }
}

#[test]
fn each_reason_to_stop() {
    let open = |job| vec![1, 0, 1, job];
    let ins = |job, column| vec![2, 0, 7, job, 1, 1, 0x40, 0, 0, column];
    let mem = |job, answer, row| vec![2, 0, 7, job, 3, answer, 0x40, 0, 0, row];
    let cases = [
        (vec![open(1), vec![9]], 10),
        (vec![open(1), open(1)], 11),
        (vec![open(1), vec![3, 0, 1, 2]], 11),
        (vec![open(1), vec![4, 0, 1, 2]], 11),
        (vec![open(1), ins(2, 0)], 11),
        (vec![open(1), ins(1, 0), mem(1, 1, 0)], 11),
        (vec![open(1), ins(1, 0), mem(1, 0, 0)], 11),
        (vec![open(1), ins(1, 0), ins(1, 1), ins(1, 2)], 11),
        (
            vec![
                open(1),
                mem(1, 0, 3),
                mem(1, 0, 4),
                mem(1, 0, 5),
                mem(1, 1, 6),
            ],
            11,
        ),
        (vec![open(1), mem(1, 1, 0)], 12),
    ];
    for (records, reply) in cases {
        let (last, before) = records.split_last().expect("some records");
        let offset = before.concat().len() as u32;
        let (outcome, tiles, entries) = run(&records.concat(), 2, 3);
        assert_eq!(outcome, replayed(reply, offset, 1, 0), "{:?}", last);
        assert_eq!(tiles, [0, 0]);
        assert_eq!(entries, [0, 0, 0]);
    }
}

/// Each list of records with its reply by rule 2, and without the rule record.
#[test]
fn a_replay_runs_by_the_rule_that_the_journal_names() {
    let open = |job| vec![1, 0, 1, job];
    let ins = |job| vec![2, 0, 7, job, 1, 1, 0x40, 0, 0, 0];
    let del = |job| vec![2, 0, 7, job, 2, 1, 0x40, 0, 0, 0];
    let mem = |job, answer| vec![2, 0, 7, job, 3, answer, 0x40, 0, 0, 0];
    let cases = [
        (vec![open(1), ins(1), mem(1, 1)], (0, 11)),
        (vec![open(1), ins(1), mem(1, 0)], (12, 11)),
        (vec![open(1), ins(1), del(1)], (0, 11)),
        (vec![open(1), ins(1), del(1), ins(1), mem(1, 1)], (0, 11)),
        (vec![open(1), open(2), ins(1), mem(2, 1)], (11, 11)),
        (vec![open(1), open(2), mem(1, 0), ins(2)], (0, 0)),
    ];
    for (records, (by_rule_2, by_rule_1)) in cases {
        let records = records.concat();
        let (outcome, ..) = run(&records, 2, 9);
        assert_eq!(outcome.reply, by_rule_1, "{:?}", records);
        let (outcome, ..) = run(&[vec![5, 0, 1, 2], records.clone()].concat(), 2, 9);
        assert_eq!(outcome.reply, by_rule_2, "{:?}", records);
    }
}

#[test]
fn rule_records_elsewhere_or_with_other_fields_stop_a_replay() {
    let journal = [5, 0, 1, 2, 1, 0, 1, 3, 5, 0, 1, 2, 3, 0, 1, 3];
    assert_eq!(run(&journal, 1, 1).0, replayed(10, 8, 1, 0));
    assert_eq!(run(&journal[4..], 1, 1).0, replayed(10, 4, 1, 0));
    assert_eq!(run(&journal[..11], 1, 1).0, replayed(0, 8, 1, 0));
    assert_eq!(run(&journal[..4], 1, 1).0, replayed(0, 4, 0, 0));
    for length in 0..4 {
        assert_eq!(run(&journal[..length], 1, 1).0, replayed(0, 0, 0, 0));
    }
    for field in [0, 1, 3, 255] {
        assert_eq!(run(&[5, 0, 1, field], 1, 1).0, replayed(10, 0, 0, 0));
    }
}

#[test]
fn a_stopped_replay_leaves_what_the_cut_journal_leaves() {
    let mut stopped = 0;
    for seed in 0..160 {
        let bytes = journal(seed);
        for (places, operations) in [(1, 2), (3, 5), (4096, 1024)] {
            let (outcome, tiles, entries) = run(&bytes, places, operations);
            if outcome.reply == 1 {
                continue;
            }
            let (due, due_tiles, due_entries) =
                run(&bytes[..outcome.offset as usize], places, operations);
            assert_eq!(
                due,
                Replayed {
                    reply: 0,
                    ..outcome
                }
            );
            assert_eq!((tiles, entries), (due_tiles, due_entries));
            stopped += usize::from(outcome.reply != 0);
        }
    }
    assert!(stopped > 200, "{}", stopped);
}

#[test]
fn a_replay_starts_on_the_tiles_it_is_given() {
    let mut bench = Bench::ample(&[A]);
    bench.del(1, A);
    bench.ins(2, B);
    bench.commit(1);
    let mut tiles = vec![tile(A).key(), 0];
    let mut entries = vec![u64::MAX; 2];
    let outcome = replay(bench.journal(), &mut tiles, 1, &mut entries);
    // Job 2 is open at the end and is undone.
    assert_eq!(outcome, replayed(0, 36, 1, 0));
    assert_eq!((tiles, entries), (vec![0, 0], vec![0, 0]));
}
