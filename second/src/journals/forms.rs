//! The two forms of operation records: the old one, of tag 2, and the one with a sheet, of tag 6.

use crate::journal::Record;
use crate::journals::walk::{bytes_of, short_walk};
use crate::random::Random;

/// Any sheet, most often one at an end or with a byte of 0.
pub fn some_sheet(random: &mut Random) -> u16 {
    let stray = random.word() as u16;
    random.pick(&[0, 1, 2, 255, 256, 32_768, 65_535, stray])
}

/// Gives all operations the old form, or none, or some.
pub fn in_some_form(random: &mut Random, mut records: Vec<Record>) -> Vec<Record> {
    let old_of_two = random.below(3);
    for record in records.iter_mut() {
        if let Record::Operation(recorded) = record {
            let is_old = random.below(2) < old_of_two;
            recorded.sheet = Some(some_sheet(random)).filter(|_| !is_old);
        }
    }
    records
}

/// The places where the operations of a journal begin, with their tags.
fn operations_in(records: &[Record]) -> Vec<(usize, u8)> {
    let mut place = 0;
    let mut operations = Vec::new();
    for record in records {
        let bytes = record.bytes();
        if let Record::Operation(_) = record {
            operations.push((place, bytes[0]));
        }
        place += bytes.len();
    }
    operations
}

/// A walk, with the place and the tag of one of its operations.
fn walk_to_an_operation(random: &mut Random) -> (Vec<u8>, Option<(usize, u8)>) {
    let records = short_walk(random);
    let operations = operations_in(&records);
    let chosen = operations.get(random.below(operations.len())).copied();
    (bytes_of(&records), chosen)
}

/// The journal ends inside an operation.
pub fn cut_inside_an_operation(random: &mut Random) -> Vec<u8> {
    let (mut journal, operation) = walk_to_an_operation(random);
    if let Some((place, tag)) = operation {
        let length = if tag == 2 { 10 } else { 12 };
        let kept = random.between(1, length - 1);
        journal.truncate(place + random.pick(&[kept, kept, length - 2, length - 1]));
    }
    journal
}

/// Behind a walk stands an operation that is whole but for one or two bytes of its sheet: it is as
/// long as an old one, or a byte longer.
pub fn cut_at_a_sheet(random: &mut Random) -> Vec<u8> {
    let mut journal = bytes_of(&short_walk(random));
    let operation = [6, 0, 9, 63, 3, 1, 0x40, 0x03, 0xC0, 0x05, random.byte()];
    journal.extend(&operation[..random.pick(&[10, 11])]);
    journal
}

/// Some bytes of sheets are changed, which leaves every record whole.
pub fn with_changed_sheets(random: &mut Random) -> Vec<u8> {
    let records = short_walk(random);
    let mut journal = bytes_of(&records);
    for (place, tag) in operations_in(&records) {
        if tag == 6 && random.one_in(2) {
            journal[place + random.pick(&[10, 11])] = random.byte();
        }
    }
    journal
}

/// One operation has the head of the other form: its field is two bytes too long or too short.
pub fn with_the_other_head(random: &mut Random) -> Vec<u8> {
    let (mut journal, operation) = walk_to_an_operation(random);
    if let Some((place, tag)) = operation {
        let head = if tag == 2 { [6, 0, 9] } else { [2, 0, 7] };
        journal[place..place + 3].copy_from_slice(&head);
    }
    journal
}
