//! Mends of the lent journal into outputs that just hold the result, or do not.

use crate::encoding::ENDING_BYTES;
use crate::journal::Record;
use crate::mend::mended_length;
use crate::random::Random;
use crate::replay::stopped;
use crate::scripts::addresses::EDITIONS;
use crate::scripts::rectangles::sized;
use crate::scripts::writer::Writer;
use crate::session::{length_of, MOST_JOURNAL, MOST_OPERATIONS};

/// Tiles of the rectangles that fill a journal, and bytes of a record and of all of them.
const SWEPT: usize = 256;
const RECORD_BYTES: usize = 12;
const SWEPT_BYTES: usize = RECORD_BYTES * SWEPT;

/// Mends so many bytes onto the tile table with this count.
pub fn mend(writer: &mut Writer, count: usize, length: usize) {
    let needed = result_length(writer, count, length);
    let room = some_room(&mut writer.random, needed);
    writer.tell(format!("mend {} {} {}", count, length, room));
}

/// The length of the result; 0 where there is none.
fn result_length(writer: &Writer, count: usize, length: usize) -> usize {
    let tables = &writer.console.tables;
    let journal = tables.journal.get(..length).unwrap_or(&[]);
    let count = u32::try_from(count).unwrap_or(u32::MAX);
    let stopped = stopped(journal, &tables.tiles, count, tables.operations.len());
    stopped.map_or(0, |stopped| mended_length(&stopped))
}

fn some_room(random: &mut Random, needed: usize) -> usize {
    match random.below(10) {
        0..=1 => needed.saturating_sub(1),
        2..=5 => needed,
        6 => needed + 1,
        7 => random.below(needed + 1),
        8 => random.pick(&[65_535, 65_536, 65_537, 66_000]),
        _ => random.pick(&[0, 66_000, 66_001, 4_294_967_295]),
    }
}

/// Journal bytes that are neither used nor kept for the ends of the open jobs.
fn free_bytes(writer: &Writer) -> usize {
    let endings = ENDING_BYTES * writer.open_jobs().len();
    let used = length_of(writer.console.session.journal);
    writer.console.tables.journal.len() - used - endings
}

/// Job 1 deletes so many tiles that are not there.
fn delete_absent(writer: &mut Writer, width: i32) {
    let edition = writer.random.pick(&EDITIONS);
    let rectangle = sized(edition, 9, (-3, 0), width, 1);
    writer.sweep("delall", 1, rectangle);
}

/// Job 1 deletes what is not there, rectangle after rectangle, until few bytes are left; these are
/// used up by opening jobs.
fn fill_journal(writer: &mut Writer) {
    writer.lend(3, MOST_OPERATIONS, MOST_JOURNAL);
    writer.start(0);
    writer.tell("open 1");
    while free_bytes(writer) > SWEPT_BYTES + 2 * ENDING_BYTES {
        let used = length_of(writer.console.session.operations);
        if used + SWEPT > MOST_OPERATIONS {
            writer.tell("commit 1");
            writer.tell("open 1");
        }
        delete_absent(writer, 256);
    }
    writer.tell("commit 1");
    writer.tell("open 1");
    // So many records that what is left can be used up by opens, which take eight bytes each.
    let free = free_bytes(writer);
    let operations = (0..=free / RECORD_BYTES)
        .rev()
        .find(|count| (free - RECORD_BYTES * count) % 8 == 0);
    let width = operations.and_then(|count| i32::try_from(count).ok());
    delete_absent(writer, width.unwrap_or(1));
    for job in 2..2 + free_bytes(writer) / 8 {
        writer.tell(format!("open {}", job));
    }
}

fn mend_at(writer: &mut Writer, length: usize, rooms: &[usize]) {
    for room in rooms {
        writer.tell(format!("mend 0 {} {}", length, room));
    }
}

/// A journal whose result has the most bytes that a journal can have; then one more job is open in
/// it, and the result would be longer; then all jobs end, and it is whole.
pub fn at_the_most_bytes(writer: &mut Writer) {
    fill_journal(writer);
    let used = length_of(writer.console.session.journal);
    let shorter = used - writer.random.pick(&[1, 4, 5, 10]);
    mend_at(writer, used, &[65_536, 65_535, 66_000]);
    mend_at(writer, shorter, &[66_000, 65_536]);
    let open = writer.open_jobs();
    for (byte, place) in Record::Open(60).bytes().iter().zip(used..) {
        writer.tell(format!("byte {} {}", place, byte));
    }
    mend_at(writer, used + 3, &[65_536]);
    mend_at(writer, used + 4, &[66_000, 65_544, 65_543, 65_536]);
    mend_at(writer, MOST_JOURNAL, &[66_000]);
    writer.tell("sum");
    for job in open {
        let word = writer.random.pick(&["commit", "abort"]);
        writer.tell(format!("{} {}", word, job));
    }
    mend_at(writer, MOST_JOURNAL, &[65_535, 65_536, 66_000]);
    writer.tell("sum");
}
