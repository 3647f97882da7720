//! Tables filled up to their last place, so that the refusals for want of room are reached.

use crate::rule::Rule;
use crate::scripts::addresses::{nth_tile, Pool};
use crate::scripts::calls;
use crate::scripts::nowhere::{entry_number, with_sheet};
use crate::scripts::spelling::address_of;
use crate::scripts::writer::Writer;
use crate::session::{MOST_JOURNAL, MOST_OPERATIONS, MOST_TILES};

/// Refused calls in a row after which a filling run ends.
const ENOUGH_REFUSALS: usize = 6;

/// Runs one word on tile after tile. When the operations table is full the job is committed and
/// opened again; any other refusal is tried a few times more and then ends the run.
fn run_through(writer: &mut Writer, word: &str, job: u8, first: usize) {
    let mut refusals = 0;
    let mut n = first;
    while refusals < ENOUGH_REFUSALS {
        let place = match nth_tile(n) {
            None => return,
            Some(tile) => address_of(&mut writer.random, tile),
        };
        let answer = writer.operate(word, job, place);
        n += 1;
        if answer.starts_with("reply 8 ") {
            writer.tell(format!("commit {}", job));
            writer.tell(format!("open {}", job));
            refusals += 1;
        } else if answer.starts_with("reply 0 ") {
            refusals = 0;
        } else {
            refusals += 1;
        }
        writer.sum_mostly();
    }
}

/// Every table at its largest: first the operations run out, again and again, then the tile
/// places, then the journal.
pub fn fill_largest_tables(writer: &mut Writer) {
    writer.lend(MOST_TILES, MOST_OPERATIONS, MOST_JOURNAL);
    writer.start(0);
    writer.tell("open 1");
    writer.tell("open 63");
    run_through(writer, "ins", 1, 0);
    writer.tell("sum");
    writer.tell("commit 1");
    run_through(writer, "mem", 63, MOST_TILES);
    writer.tell("sum");
    let pool = Pool::few(&mut writer.random);
    calls::run(writer, &pool, 10);
    writer.tell("sum");
    writer.tell(format!("replay 0 {}", MOST_JOURNAL));
    let tiles = writer.console.session.tiles;
    writer.tell(format!("replay {} {}", tiles, MOST_JOURNAL));
    writer.tell("sum");
}

/// The same with tables of a middle size, cheap enough for every script.
pub fn fill_middle_tables(writer: &mut Writer) {
    let tiles = writer.random.between(5, 60);
    let operations = writer.random.between(5, 40);
    let journal = writer.random.between(30, 1500);
    writer.lend(tiles, operations, journal);
    writer.start(0);
    writer.tell("open 0");
    writer.tell("open 2");
    run_through(writer, "ins", 0, 3);
    run_through(writer, "del", 2, 0);
    run_through(writer, "mem", 2, 500);
    let pool = Pool::few(&mut writer.random);
    calls::run(writer, &pool, 10);
}

/// The largest tile table, filled from outside up to its last places.
pub fn fill_tiles_from_outside(writer: &mut Writer) {
    let spare = writer.random.below(3);
    writer.lend(MOST_TILES, 20, 2000);
    let tiles = (0..MOST_TILES - spare).filter_map(nth_tile).collect();
    let count = writer.put_tiles(tiles);
    writer.start(count);
    writer.tell("open 7");
    run_through(writer, "del", 7, 10);
    writer.tell("open 8");
    run_through(writer, "ins", 8, MOST_TILES);
    writer.tell("abort 7");
    run_through(writer, "ins", 8, MOST_TILES + 20);
    writer.tell("sum");
    writer.tell("tiles 4097");
    writer.tell("open 9");
}

/// The largest operations table, filled from outside up to its last places.
pub fn fill_operations_from_outside(writer: &mut Writer) {
    let used = MOST_OPERATIONS - writer.random.below(3);
    writer.lend(3, MOST_OPERATIONS, MOST_JOURNAL);
    writer.tell("mark 6 1");
    let tiles: Vec<u32> = (0..used)
        .filter_map(nth_tile)
        .map(|tile| tile.key())
        .collect();
    for (place, key) in tiles.iter().enumerate() {
        let entry = with_sheet(entry_number(6, 6, u64::from(*key)), place as u16);
        writer.tell(format!("entry {} {}", place, entry));
    }
    writer.tell(format!("operations {}", used));
    writer.count_anew();
    writer.tell("open 7");
    run_through(writer, "ins", 7, 0);
    writer.tell("sum");
    let pool = Pool::few(&mut writer.random);
    calls::run(writer, &pool, 10);
    writer.tell("operations 1025");
    writer.tell("commit 6");
    writer.tell("sum");
}

/// The largest journal, with its count set to just before its end.
pub fn fill_journal_from_outside(writer: &mut Writer) {
    writer.lend(4, 9, MOST_JOURNAL);
    writer.start(0);
    let left = writer.random.below(90);
    writer.tell(format!("journal {}", MOST_JOURNAL - left));
    let pool = Pool::few(&mut writer.random);
    calls::run(writer, &pool, 25);
    writer.tell("sum");
}

/// A journal that a start by rule 2 fills.
pub fn fill_smallest_journal(writer: &mut Writer) {
    writer.lend(1, 1, 4);
    writer.start_by(Rule::JobAsOne, 0);
    writer.tell("open 1");
    writer.tell("sum");
}
