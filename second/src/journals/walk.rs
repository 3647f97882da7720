//! Records of random calls that the service accepted.

use crate::journal::{Record, Recorded};
use crate::journals::forms::{in_some_form, some_sheet};
use crate::operation::PROCEDURES;
use crate::random::Random;
use crate::replay::{take, Stop};
use crate::rule::{Rule, RULES};
use crate::session::{MOST_OPERATIONS, MOST_TILES};
use crate::state::State;
use crate::tile::Tile;

const JOBS: [u8; 6] = [0, 1, 2, 3, 62, 63];

pub fn bytes_of(records: &[Record]) -> Vec<u8> {
    records.iter().flat_map(|record| record.bytes()).collect()
}

/// Few tiles, most of them on both sides of the seam.
fn some_tile(random: &mut Random) -> Option<Tile> {
    let zoom = random.pick(&[4, 4, 4, 4, 14, 9]);
    let column = random.pick(&[-1, 0, 15, 16, i32::MIN, i32::MAX, 7]);
    Tile::at(zoom, column, random.pick(&[0, 5, 15]))
}

pub fn some_record(random: &mut Random) -> Option<Record> {
    let job = random.pick(&JOBS);
    Some(match random.below(10) {
        0 | 1 => Record::Open(job),
        2 => Record::Commit(job),
        3 => Record::Abort(job),
        _ => Record::Operation(Recorded {
            job,
            procedure: random.pick(&PROCEDURES),
            ok: true,
            tile: some_tile(random)?,
            sheet: Some(some_sheet(random)).filter(|_| random.one_in(2)),
        }),
    })
}

/// The same record with the answer fail.
fn failed(record: Record) -> Record {
    match record {
        Record::Operation(recorded) => Record::Operation(Recorded {
            ok: false,
            ..recorded
        }),
        Record::Open(_) | Record::Commit(_) | Record::Abort(_) | Record::JobAsOne => record,
    }
}

/// The record with the answer that belongs to it, if the state admits it.
fn accepted(state: &mut State, record: Record) -> Option<Record> {
    let record = match take(state, record) {
        Ok(()) => return Some(record),
        Err(Stop::NotAdmissible) => return None,
        Err(Stop::AnswerDiffers) => failed(record),
    };
    take(state, record).ok().map(|()| record)
}

/// Tries so many random calls by either rule and keeps the records of the accepted ones.
pub fn walk(random: &mut Random, tries: usize) -> Vec<Record> {
    let rule = random.pick(&RULES);
    walk_by(rule, random, tries)
}

pub fn walk_by(rule: Rule, random: &mut Random, tries: usize) -> Vec<Record> {
    let started = State::started(rule, &[0; MOST_TILES], 0, MOST_OPERATIONS);
    let mut state = match started {
        None => return Vec::new(),
        Some(state) => state,
    };
    let tried = (0..tries).filter_map(|_| some_record(random));
    let records = tried.filter_map(|record| accepted(&mut state, record));
    let records = Record::naming(rule).into_iter().chain(records).collect();
    in_some_form(random, records)
}

pub fn short_walk(random: &mut Random) -> Vec<Record> {
    let tries = random.between(0, 120);
    walk(random, tries)
}
