//! Mending: what is copied and added, the exact bounds of 18, and every kind of stop.

use crate::common::*;
use second::journal::{Reader, Reading, Record};
use second::journals::{journal, KINDS};
use second::mend::{mend, Mended};
use second::replay::{replay, Replayed};
use second::rule::{Rule, RULES};
use std::collections::BTreeMap;

const UNTOUCHED: u8 = 0xAA;
const MOST: usize = 65_536;

#[derive(Clone, Debug, PartialEq, Eq)]
struct Lent {
    tiles: Vec<u32>,
    operations: Vec<u64>,
    output: Vec<u8>,
}

/// No tiles, with something in the operations table and in the output.
fn lent(places: usize, operations: usize, room: usize) -> Lent {
    Lent {
        tiles: vec![0; places],
        operations: vec![77; operations],
        output: vec![UNTOUCHED; room],
    }
}

impl Lent {
    fn mend(&mut self, journal: &[u8], count: u32) -> Mended {
        let (tiles, operations) = (&mut self.tiles, &mut self.operations);
        mend(journal, tiles, count, operations, &mut self.output)
    }

    fn replay(&mut self, journal: &[u8], count: u32) -> Replayed {
        replay(journal, &mut self.tiles, count, &mut self.operations)
    }
}

fn mended(reply: u8, length: usize, left_out: usize, aborted: u32, count: u32) -> Mended {
    Mended {
        reply,
        length: length as u32,
        left_out: left_out as u32,
        aborted,
        count,
    }
}

/// The jobs that are open behind so many bytes of whole records, by the records alone.
fn open_jobs(journal: &[u8]) -> Vec<u8> {
    let mut reader = Reader::at(journal, 0);
    let mut open = [false; 64];
    while let Reading::Whole(record) = reader.read() {
        match record {
            Record::Open(job) => open[usize::from(job)] = true,
            Record::Commit(job) | Record::Abort(job) => open[usize::from(job)] = false,
            Record::Operation(_) | Record::JobAsOne => {}
        }
    }
    (0..64).filter(|job| open[usize::from(*job)]).collect()
}

/// The records up to there, and an abort for each job that is open, in rising order.
fn result_at(journal: &[u8], offset: usize) -> Vec<u8> {
    let mut result = journal[..offset].to_vec();
    for job in open_jobs(&journal[..offset]) {
        result.extend([4, 0, 1, job]);
    }
    result
}

/// Mends with ample room, then with just enough and with one byte less.
fn check_mend(bytes: &[u8], places: usize, operations: usize) -> Replayed {
    let before = lent(places, operations, MOST + 300);
    let mut replayed = before.clone();
    let outcome = replayed.replay(bytes, 0);
    let mut ample = before.clone();
    let reply = ample.mend(bytes, 0);
    if outcome.reply == 1 {
        assert_eq!((reply, &ample), (mended(1, 0, 0, 0, 0), &before));
        return outcome;
    }
    let result = result_at(bytes, outcome.offset as usize);
    if result.len() > MOST {
        assert_eq!((reply, &ample), (mended(18, 0, 0, 0, 0), &before));
        return outcome;
    }
    let left_out = bytes.len() - outcome.offset as usize;
    let due = mended(0, result.len(), left_out, outcome.undone, outcome.count);
    assert_eq!(reply, due);
    assert_eq!(ample.output[..result.len()], result);
    let behind = &ample.output[result.len()..];
    assert!(behind.iter().all(|byte| *byte == UNTOUCHED));
    assert_eq!(
        (&ample.tiles, &ample.operations),
        (&replayed.tiles, &replayed.operations)
    );
    check_replay_of(&result, &due, &ample, before.clone());
    check_rooms(bytes, &result, &due, &before);
    outcome
}

fn check_replay_of(result: &[u8], due: &Mended, left: &Lent, mut before: Lent) {
    let again = before.replay(result, 0);
    let whole = (0, result.len() as u32, 0, due.count);
    let outcome = (again.reply, again.offset, again.undone, again.count);
    assert_eq!(outcome, whole);
    assert_eq!(before.tiles, left.tiles);
}

fn check_rooms(bytes: &[u8], result: &[u8], due: &Mended, before: &Lent) {
    let mut exact = before.clone();
    exact.output.truncate(result.len());
    assert_eq!(exact.mend(bytes, 0), *due);
    assert_eq!(exact.output, result);
    if !result.is_empty() {
        let mut short = before.clone();
        short.output.truncate(result.len() - 1);
        let as_it_was = short.clone();
        assert_eq!(short.mend(bytes, 0), mended(18, 0, 0, 0, 0));
        assert_eq!(short, as_it_was);
    }
}

#[test]
fn every_kind_of_stop() {
    let mut met: BTreeMap<(u8, bool), usize> = BTreeMap::new();
    for seed in 0..5 * KINDS {
        let bytes = journal(seed);
        for (places, operations) in [(1, 2), (3, 5), (4096, 1024)] {
            let outcome = check_mend(&bytes, places, operations);
            let to_the_end = outcome.offset as usize == bytes.len();
            *met.entry((outcome.reply, to_the_end)).or_insert(0) += 1;
        }
    }
    let stops = [
        (0, true),
        (0, false),
        (1, false),
        (10, false),
        (11, false),
        (12, false),
    ];
    for stop in stops {
        let times = met.get(&stop).copied().unwrap_or(0);
        assert!(times > 3, "{:?}: {:?}", stop, met);
    }
}

#[test]
fn a_whole_journal_with_no_open_job_comes_back() {
    for rule in RULES {
        let mut bench = Bench::with_places_by(rule, 5, &[]);
        assert_eq!(bench.ins(1, A), OK);
        assert_eq!(bench.ins(2, B), OK);
        assert_eq!(bench.commit(2), DONE);
        assert_eq!(bench.abort(1), DONE);
        let bytes = bench.journal();
        let mut tables = lent(5, 3, bytes.len() + 9);
        let due = mended(0, bytes.len(), 0, 0, 1);
        assert_eq!(tables.mend(bytes, 0), due);
        assert_eq!(tables.output[..bytes.len()], *bytes);
        assert_eq!(tables.output[bytes.len()..], [UNTOUCHED; 9]);
        assert_eq!(tables.tiles[..], bench.tables.tiles[..5]);
        assert_eq!(tables.operations, [0, 0, 0]);
    }
}

#[test]
fn aborts_stand_in_rising_order_of_the_jobs() {
    let jobs = [63, 7, 0, 40];
    let mut bytes: Vec<u8> = jobs.iter().flat_map(|job| [1, 0, 1, *job]).collect();
    bytes.extend([3, 0, 1, 40, 9]);
    let mut tables = lent(1, 1, 100);
    assert_eq!(tables.mend(&bytes, 0), mended(0, 32, 1, 3, 0));
    assert_eq!(tables.output[..20], bytes[..20]);
    assert_eq!(tables.output[20..32], [4, 0, 1, 0, 4, 0, 1, 7, 4, 0, 1, 63]);
    assert_eq!(tables.output[32..], [UNTOUCHED; 68]);
}

#[test]
fn refused_by_1_as_a_replay_is() {
    for (tiles, count, operations, length) in refused_by_1() {
        // With no output at all, so that 18 would be due as well where there is a result.
        let mut tables = Lent {
            tiles,
            operations: vec![5; operations],
            output: Vec::new(),
        };
        let before = tables.clone();
        let journal = vec![1; length];
        assert_eq!(tables.mend(&journal, count), mended(1, 0, 0, 0, count));
        assert_eq!(tables, before);
    }
}

#[test]
fn a_mend_starts_on_the_tiles_it_is_given() {
    let mut bench = Bench::ample(&[A]);
    bench.del(1, A);
    bench.ins(2, B);
    bench.commit(1);
    let mut tables = lent(2, 2, 40);
    tables.tiles[0] = tile(A).key();
    assert_eq!(tables.mend(bench.journal(), 1), mended(0, 40, 0, 1, 0));
    assert_eq!(tables.output[..36], *bench.journal());
    assert_eq!(tables.output[36..], [4, 0, 1, 2]);
    let mut short = lent(2, 2, 39);
    short.tiles[0] = tile(A).key();
    assert_eq!(short.mend(bench.journal(), 1), mended(18, 0, 0, 0, 1));
    assert_eq!(short.tiles, [tile(A).key(), 0]);
}

/// Records of so many bytes: job 0 looks for a tile so often and commits, is opened and committed
/// again and again, and at the end so many other jobs are opened. None where nothing comes out at
/// that length.
fn journal_with_open_jobs(rule: Rule, length: usize, looks: usize, open: u8) -> Option<Vec<u8>> {
    let mut bytes = Record::naming(rule).map_or(Vec::new(), |record| record.bytes());
    bytes.extend([1, 0, 1, 0]);
    bytes.extend([2, 0, 7, 0, 3, 0, 0x40, 0, 0, 0].repeat(looks));
    for record in [[3, 0, 1, 0], [1, 0, 1, 0]].iter().cycle() {
        if bytes.len() + 4 * usize::from(open) >= length {
            break;
        }
        bytes.extend(record);
    }
    bytes.extend((1..=open).flat_map(|job| [1, 0, 1, job]));
    Some(bytes).filter(|bytes| bytes.len() == length)
}

#[test]
fn results_at_the_most_bytes_and_beyond() {
    for rule in RULES {
        let mut met: BTreeMap<usize, usize> = BTreeMap::new();
        for length in (65_524..=65_536).step_by(2) {
            for (looks, open) in [
                (0, 0),
                (0, 1),
                (0, 2),
                (1, 1),
                (1, 2),
                (2, 1),
                (2, 2),
                (3, 2),
            ] {
                if let Some(bytes) = journal_with_open_jobs(rule, length, looks, open) {
                    let outcome = check_mend(&bytes, 1, 4);
                    let result = length + 4 * outcome.undone as usize;
                    *met.entry(result).or_insert(0) += usize::from(outcome.undone > 0);
                }
            }
        }
        // One below, the most and one beyond, as far as records allow: their lengths are even.
        for result in [MOST - 2, MOST, MOST + 2] {
            assert!(met.get(&result).copied().unwrap_or(0) > 0, "{:?}", met);
        }
    }
}
