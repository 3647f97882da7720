//! Journals that were whole before something was cut, changed, put in or turned round.

use crate::journal::{Record, Recorded};
use crate::journals::forms::in_some_form;
use crate::journals::walk::{bytes_of, short_walk, some_record};
use crate::operation::Procedure;
use crate::random::Random;
use crate::tile::Tile;

pub fn cut(random: &mut Random) -> Vec<u8> {
    let mut journal = bytes_of(&short_walk(random));
    let length = random.below(journal.len() + 1);
    journal.truncate(length);
    journal
}

/// A byte that some field may have, or any.
fn some_byte(random: &mut Random) -> u8 {
    let stray = random.byte();
    random.pick(&[
        0, 1, 2, 3, 4, 5, 6, 7, 8, 9, 16, 63, 64, 68, 255, stray, stray,
    ])
}

/// One byte of one record is changed: tag, length, job, procedure, answer, key and sheet alike.
pub fn damaged(random: &mut Random) -> Vec<u8> {
    let records = short_walk(random);
    let before = random.below(records.len());
    let offset = bytes_of(&records[..before]).len();
    let size = records.get(before).map_or(0, |record| record.bytes().len());
    let mut journal = bytes_of(&records);
    if let Some(byte) = journal.get_mut(offset + random.below(size)) {
        *byte = some_byte(random);
    }
    journal
}

/// The last record is cut, and something in what is left of it is wrong: one byte anywhere, or all
/// of its field.
pub fn with_wrong_tail(random: &mut Random) -> Vec<u8> {
    let mut journal = bytes_of(&short_walk(random));
    let old: &[u8] = &[2, 0, 7, 63, 3, 1, 0x40, 0x03, 0xC0, 0x05];
    let record = random.pick(&[old, &[6, 0, 9, 63, 3, 1, 0x40, 0x03, 0xC0, 0x05, 0, 9]]);
    let mut tail = record[..random.between(1, record.len() - 1)].to_vec();
    let (first, count) = if random.one_in(2) {
        (random.below(tail.len()), 1)
    } else {
        (3, tail.len())
    };
    for byte in tail.iter_mut().skip(first).take(count) {
        *byte = random.byte();
    }
    journal.extend(tail);
    journal
}

/// The beginning of one journal and the end of another.
pub fn spliced(random: &mut Random) -> Vec<u8> {
    let mut journal = cut(random);
    if random.one_in(2) {
        // The cut falls between records more often than it would by chance.
        let records = short_walk(random);
        let kept = random.below(records.len() + 1);
        journal = bytes_of(&records[..kept]);
    }
    let other = bytes_of(&short_walk(random));
    journal.extend_from_slice(&other[random.below(other.len() + 1)..]);
    journal
}

/// Bytes of no meaning, often so small that some records come out whole.
pub fn noise(random: &mut Random) -> Vec<u8> {
    let values = random.pick(&[5, 9, 256]);
    let length = random.below(80);
    let bytes = (0..length).map(|_| random.below(values));
    bytes.filter_map(|value| u8::try_from(value).ok()).collect()
}

pub fn with_strangers(random: &mut Random) -> Vec<u8> {
    let mut records = short_walk(random);
    for _ in 0..random.between(1, 3) {
        let place = random.below(records.len() + 1);
        let stranger = some_record(random);
        records.splice(place..place, stranger);
    }
    bytes_of(&records)
}

pub fn with_strangers_and_damage(random: &mut Random) -> Vec<u8> {
    let mut journal = with_strangers(random);
    let place = random.below(journal.len());
    if let Some(byte) = journal.get_mut(place) {
        *byte = some_byte(random);
    }
    journal
}

/// Some operation record has the opposite answer, most often a member record.
pub fn with_wrong_answer(random: &mut Random) -> Vec<u8> {
    let mut records = short_walk(random);
    let only_members = !random.one_in(4);
    let mut answers: Vec<&mut bool> = records
        .iter_mut()
        .filter_map(|record| answer_of(record, only_members))
        .collect();
    let chosen = random.below(answers.len());
    if let Some(ok) = answers.get_mut(chosen) {
        **ok = !**ok;
    }
    bytes_of(&records)
}

fn answer_of(record: &mut Record, only_members: bool) -> Option<&mut bool> {
    match record {
        Record::Operation(recorded) => {
            let is_member = recorded.procedure == Procedure::Member;
            Some(&mut recorded.ok).filter(|_| is_member || !only_members)
        }
        Record::Open(_) | Record::Commit(_) | Record::Abort(_) | Record::JobAsOne => None,
    }
}

/// Behind a walk stands a member record that is both refused and wrong, most of the time.
pub fn refused_and_wrong(random: &mut Random) -> Vec<u8> {
    let mut journal = bytes_of(&short_walk(random));
    let (holder, job) = (40, random.pick(&[40, 41, 42]));
    let tile = match Tile::at(6, -1, 6) {
        None => return journal,
        Some(tile) => tile,
    };
    let operation = |job, procedure, ok| {
        Record::Operation(Recorded {
            job,
            procedure,
            ok,
            tile,
            sheet: None,
        })
    };
    let tail = [
        Record::Open(holder),
        Record::Open(41),
        operation(holder, Procedure::Insert, true),
        operation(job, Procedure::Member, random.one_in(3)),
        Record::Commit(holder),
    ];
    journal.extend(bytes_of(&in_some_form(random, tail.to_vec())));
    journal
}
