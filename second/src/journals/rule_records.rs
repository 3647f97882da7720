//! Journals with rule records where they belong, where they do not, with other fields and cut.

use crate::journal::Record;
use crate::journals::walk::{bytes_of, short_walk, walk_by};
use crate::random::Random;
use crate::rule::Rule;

/// The bytes of a rule record, often with the wrong number in its field.
fn some_rule_record(random: &mut Random) -> Vec<u8> {
    let stray = random.byte();
    let field = random.pick(&[2, 2, 2, 2, 0, 1, 3, 5, 255, stray]);
    vec![5, 0, 1, field]
}

/// Somewhere between the records, most often behind them and there often cut.
pub fn put_in(random: &mut Random) -> Vec<u8> {
    let records = short_walk(random);
    let before = match random.below(4) {
        0 => random.below(records.len() + 1),
        1 => usize::from(!records.is_empty()),
        _ => records.len(),
    };
    let mut journal = bytes_of(&records[..before]);
    journal.extend(some_rule_record(random));
    if before == records.len() && random.one_in(2) {
        journal.truncate(journal.len() - random.between(1, 3));
    }
    journal.extend(bytes_of(&records[before..]));
    journal
}

/// At the beginning of a journal by rule 1, or once more before one by rule 2; or nothing but it,
/// whole or cut.
pub fn at_the_beginning(random: &mut Random) -> Vec<u8> {
    let mut journal = some_rule_record(random);
    if random.one_in(3) {
        journal.truncate(random.between(1, 4));
        return journal;
    }
    let rule = random.pick(&[Rule::EachAlone, Rule::EachAlone, Rule::JobAsOne]);
    let tries = random.between(0, 60);
    journal.extend(bytes_of(&walk_by(rule, random, tries)));
    journal
}

/// A journal by rule 2 without its first record: rule 1 holds a job's own tiles against it.
pub fn left_out(random: &mut Random) -> Vec<u8> {
    let tries = random.between(10, 60);
    let mut records = walk_by(Rule::JobAsOne, random, tries);
    records.retain(|record| *record != Record::JobAsOne);
    if random.one_in(4) {
        // A part of the record in its place is no cut tail, for something stands behind it.
        let mut journal = Record::JobAsOne.bytes();
        journal.truncate(random.between(1, 3));
        journal.extend(bytes_of(&records));
        return journal;
    }
    bytes_of(&records)
}
