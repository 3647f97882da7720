//! Journals up to the last byte, the last tile place and the last operations place, and past them.

use crate::journal::{Record, Recorded};
use crate::journals::forms::in_some_form;
use crate::journals::walk::{bytes_of, walk};
use crate::operation::Procedure;
use crate::random::Random;
use crate::rule::RULES;
use crate::session::{MOST_JOURNAL, MOST_OPERATIONS, MOST_TILES};
use crate::tile::Tile;

/// Tries that give more records than a journal can hold.
const MANY_TRIES: usize = 20_000;

/// As many records as a journal can hold.
pub fn long(random: &mut Random) -> Vec<u8> {
    let mut records = walk(random, MANY_TRIES);
    let mut length = 0;
    records.retain(|record| {
        length += record.bytes().len();
        length <= MOST_JOURNAL
    });
    bytes_of(&records)
}

/// No byte, the most bytes, and a few more; behind the records stands the beginning of another.
pub fn of_edge_length(random: &mut Random) -> Vec<u8> {
    let length = random.pick(&[0, 1, MOST_JOURNAL - 1, MOST_JOURNAL, MOST_JOURNAL]);
    let more = random.pick(&[0, 0, 1, 2, 4000]);
    let mut journal = long(random);
    journal.extend(Record::Open(0).bytes());
    journal.resize(length, 2);
    if length == MOST_JOURNAL {
        journal.resize(length + more, 0);
    }
    journal
}

/// Tile after tile is inserted, up to the last place or past it.
pub fn too_many_tiles(random: &mut Random) -> Vec<u8> {
    let tiles = MOST_TILES - 3 + random.below(6);
    let batch = random.between(500, MOST_OPERATIONS);
    let mut records = some_head(random);
    records.extend(inserted(tiles, batch));
    bytes_of(&in_some_form(random, records))
}

/// Job 5 inserts so many tiles, committing batch by batch.
fn inserted(tiles: usize, batch: usize) -> Vec<Record> {
    let mut records = vec![Record::Open(5)];
    for n in 0..tiles {
        if n % batch == batch - 1 {
            records.extend([Record::Commit(5), Record::Open(5)]);
        }
        records.extend(nth_operation(5, Procedure::Insert, true, n));
    }
    records.push(Record::Commit(5));
    records
}

/// The beginning of a journal by either rule. What rule 1 admits is admitted by rule 2 as well.
fn some_head(random: &mut Random) -> Vec<Record> {
    Record::naming(random.pick(&RULES)).into_iter().collect()
}

/// One job deletes many tiles of a table that is full or almost, and inserts them again, by rule
/// 2; then it tries new tiles, for which there may be no place.
pub fn replaced(random: &mut Random) -> Vec<u8> {
    let tiles = MOST_TILES - random.below(3);
    let again = random.between(1, MOST_OPERATIONS / 2 + 1);
    let first = random.below(tiles - again);
    let mut records = vec![Record::JobAsOne];
    records.extend(inserted(tiles, MOST_OPERATIONS));
    records.push(Record::Open(6));
    for procedure in [Procedure::Delete, Procedure::Insert] {
        let tiles = first..first + again;
        records.extend(tiles.filter_map(|n| nth_operation(6, procedure, true, n)));
    }
    let new_tiles = tiles..tiles + random.below(4);
    records.extend(new_tiles.filter_map(|n| nth_operation(6, Procedure::Insert, true, n)));
    records.push(random.pick(&[Record::Commit(6), Record::Abort(6), Record::Open(7)]));
    bytes_of(&in_some_form(random, records))
}

/// Two jobs look at tile after tile, up to the last place of the operations table or past it.
pub fn too_many_operations(random: &mut Random) -> Vec<u8> {
    let operations = MOST_OPERATIONS - 2 + random.below(5);
    let mut records = some_head(random);
    records.extend([Record::Open(1), Record::Open(2)]);
    for n in 0..operations {
        let job = random.pick(&[1, 2]);
        records.extend(nth_operation(job, Procedure::Member, false, n));
    }
    records.push(Record::Commit(1));
    records.extend(nth_operation(2, Procedure::Insert, true, operations));
    bytes_of(&in_some_form(random, records))
}

/// An operation on the n-th of many tiles.
fn nth_operation(job: u8, procedure: Procedure, ok: bool, n: usize) -> Option<Record> {
    let column = i32::try_from(n / 128).ok()?;
    let row = i32::try_from(n % 128).ok()?;
    Some(Record::Operation(Recorded {
        job,
        procedure,
        ok,
        tile: Tile::at(7, -column, row)?,
        sheet: None,
    }))
}
