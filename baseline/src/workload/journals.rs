//! Journals to replay: one that the calls wrote until it was full, and older and wrong versions.

use super::editions::address_of;
use super::histories::job_and_tile;
use super::random::Random;
use super::world::{Call, World};
use crate::journal::{read, Procedure, Reading, Record, RULE_RECORD};
use crate::reply::Refusal;
use crate::rule::Rule;
use crate::soundness::Check;

/// How many entries are open while a journal is written.
#[derive(Clone, Copy, Debug, PartialEq, Eq)]
pub enum Load {
    Few,
    Many,
}

impl Load {
    pub const ALL: [Load; 2] = [Load::Few, Load::Many];

    /// One call in so many of an open job ends it.
    fn calls_of_a_job(self) -> usize {
        match self {
            Load::Few => 4,
            Load::Many => 40,
        }
    }
}

/// A journal, and the worlds before the start and after the calls that wrote it.
pub struct Written {
    pub journal: Vec<u8>,
    pub start: World,
    pub end: World,
}

const ASKED: [Procedure; 5] = [
    Procedure::Insert,
    Procedure::Insert,
    Procedure::Insert,
    Procedure::Delete,
    Procedure::Member,
];

/// A start by the rule and calls with these keys, until there is no journal room for one.
pub fn write_full(
    random: &mut Random,
    rule: Rule,
    load: Load,
    start: World,
    keys: &[u32],
) -> Written {
    let mut world = start.clone();
    let started = world.call(Check::Filter, Call::Start(start.session.tiles, rule));
    debug_assert!(started.is_ok());
    loop {
        let (job, key) = job_and_tile(random, keys, &world);
        let call = if !world.session.is_open(job) {
            Call::Open(job)
        } else if random.one_in(load.calls_of_a_job()) {
            random.pick(&[Call::Commit(job), Call::Commit(job), Call::Abort(job)])
        } else {
            let origin = random.origin(job);
            Call::Operation(origin, random.pick(&ASKED), address_of(random, key))
        };
        let reply = world.call(Check::Filter, call);
        // or it would go on for ever
        assert_ne!(reply, Err(Refusal::NotSound), "before {call:?}");
        if reply == Err(Refusal::NoJournalRoom) {
            break;
        }
    }
    Written {
        journal: world.written().to_vec(),
        start,
        end: world,
    }
}

/// The journal with some of its operations as older sessions wrote them, without their sheets.
pub fn with_older_records(random: &mut Random, journal: &[u8]) -> Vec<u8> {
    let mut older = vec![0; journal.len()];
    let (mut at, mut end) = (0, 0);
    while let Reading::Whole(mut record) = read(journal, at) {
        at += record.size();
        if let Record::Operation { sheet, .. } = &mut record {
            *sheet = sheet.filter(|_| random.one_in(2));
        }
        end = record.write(&mut older, end);
    }
    older.truncate(end);
    older
}

/// The journal with a byte changed, a piece missing or put in twice, its end cut off, or a rule
/// record put in or taken away.
pub fn spoilt(random: &mut Random, journal: &[u8]) -> Vec<u8> {
    let mut spoilt = journal.to_vec();
    if spoilt.is_empty() {
        return spoilt;
    }
    let at = random.below(spoilt.len());
    let end = spoilt.len().min(at + 1 + random.below(24));
    match random.below(9) {
        0 | 1 => spoilt[at] = random.below(10) as u8,
        2 => spoilt[at] ^= 1 << random.below(8),
        3 => {
            spoilt.drain(at..end);
        }
        4 => {
            let piece = spoilt[at..end].to_vec();
            spoilt.splice(at..at, piece);
        }
        5 => spoilt.truncate(at),
        6 => {
            spoilt.drain(..spoilt.len().min(RULE_RECORD));
        }
        _ => {
            let place = random.pick(&[0, 0, spoilt.len(), at]);
            let record = [5, 0, 1, random.pick(&[2, 2, 2, 0, 1, 3])];
            spoilt.splice(place..place, record);
        }
    }
    spoilt
}
