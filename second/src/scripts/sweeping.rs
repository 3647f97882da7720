//! Episodes of rectangles: mixed with other calls, at the last free place of each table, held by
//! several jobs, and on the largest tables.

use crate::journal::Record;
use crate::rectangle::Rectangle;
use crate::rule::{Rule, RULES};
use crate::scripts::addresses::{nth_tile, Pool, EDITIONS};
use crate::scripts::calls;
use crate::scripts::rectangles::{at_an_edge, large, middling, sized};
use crate::scripts::replays;
use crate::scripts::spelling::address_of;
use crate::scripts::writer::Writer;
use crate::session::{MOST_JOURNAL, MOST_OPERATIONS, MOST_TILES};
use crate::tile::Tile;

/// Rectangles and other calls side by side, with replays of what they leave.
pub fn episode(writer: &mut Writer) {
    let pool = Pool::few(&mut writer.random);
    let tiles = writer.random.pick(&[3, 6, 20, 60]);
    let operations = writer.random.pick(&[4, 8, 30, 90]);
    let journal = writer.random.pick(&[90, 300, 1000]);
    writer.lend(tiles, operations, journal);
    let starting = pool.some_tiles(&mut writer.random);
    let count = writer.put_tiles(starting);
    writer.start(count);
    for _ in 0..writer.random.between(5, 15) {
        calls::run(writer, &pool, 2);
        calls::rectangle(writer, &pool);
        writer.look();
    }
    if writer.random.one_in(4) {
        replays::replay_every_length(writer);
    }
    calls::run(writer, &pool, 6);
}

/// What is lent for what a rectangle needs: mostly just that, one less or one more.
fn about(writer: &mut Writer, needed: usize) -> usize {
    let one_more = needed + writer.random.pick(&[1, 1, 1, 1, 0, 2, 5]);
    one_more.saturating_sub(1).max(1)
}

/// A rectangle that takes the last tile places, entries or bytes, or one more than there are.
pub fn at_the_last_place(writer: &mut Writer) {
    let rectangle = if writer.random.one_in(16) {
        large(&mut writer.random)
    } else {
        middling(&mut writer.random)
    };
    let listed = rectangle.tiles().unwrap_or_default();
    let rule = writer.random.pick(&RULES);
    let mut present = listed.clone();
    present.retain(|_| writer.random.one_in(3));
    let deleted = deleted_before(writer, rule, &present);
    let open_jobs = writer.random.between(1, 3);
    let absent = listed.len() - present.len();
    let entries = deleted.len() + listed.len();
    let head = Record::naming(rule).map_or(0, |record| record.bytes().len());
    let opened = head + 4 * open_jobs;
    let places = about(writer, present.len() + absent);
    let operations = about(writer, entries);
    let journal = about(writer, opened + 12 * entries + 4 * open_jobs);
    writer.lend(places, operations, journal);
    let count = writer.put_tiles(present);
    writer.start_by(rule, count);
    for job in 1..=open_jobs {
        writer.tell(format!("open {}", job));
    }
    for tile in deleted {
        let place = address_of(&mut writer.random, tile);
        writer.operate("del", 1, place);
    }
    sweep_and_end(writer, rectangle);
}

/// Present tiles that the job deletes first: by rule 2 their places are its own.
fn deleted_before(writer: &mut Writer, rule: Rule, present: &[Tile]) -> Vec<Tile> {
    let mut deleted = present.to_vec();
    match rule {
        Rule::EachAlone => deleted.clear(),
        Rule::JobAsOne => deleted.retain(|_| writer.random.one_in(2)),
    }
    deleted
}

fn sweep_and_end(writer: &mut Writer, rectangle: Rectangle) {
    let first = writer
        .random
        .pick(&["insall", "insall", "insall", "delall"]);
    for word in [first, "delall", "insall"] {
        writer.sweep(word, 1, rectangle);
        writer.tell("sum");
    }
    let end = writer.random.pick(&["commit 1", "abort 1"]);
    writer.tell(end);
    writer.tell("sum");
}

/// Several jobs hold tiles of a rectangle, not in the order of its list.
pub fn held(writer: &mut Writer) {
    let rectangle = middling(&mut writer.random);
    let listed = rectangle.tiles().unwrap_or_default();
    writer.lend(16, 60, 1000);
    let mut present = listed.clone();
    present.retain(|_| writer.random.one_in(2));
    let count = writer.put_tiles(present);
    writer.start(count);
    for job in 1..=4 {
        writer.tell(format!("open {}", job));
    }
    for _ in 0..writer.random.between(2, 6) {
        let tile = match listed.get(writer.random.below(listed.len())) {
            None => break,
            Some(tile) => *tile,
        };
        let word = writer.random.pick(&["ins", "ins", "del", "mem"]);
        let job = writer.random.pick(&[1, 2, 3]);
        let place = address_of(&mut writer.random, tile);
        writer.operate(word, job, place);
        if writer.random.one_in(2) {
            let swept = writer.random.pick(&["insall", "delall"]);
            let job = writer.random.pick(&[1, 4, 4]);
            writer.sweep(swept, job, rectangle);
        }
    }
    writer.sweep("insall", 4, rectangle);
    writer.tell("sum");
    for job in [2, 1, 3, 4] {
        let word = writer.random.pick(&["commit", "abort"]);
        writer.tell(format!("{} {}", word, job));
        writer.sweep("insall", 4, rectangle);
    }
    writer.tell("sum");
}

/// Rectangles at the edges of what is taken, one after another, with room for the largest.
pub fn edges(writer: &mut Writer) {
    let pool = Pool::few(&mut writer.random);
    writer.lend(260, 260, 3200);
    writer.start(0);
    writer.tell("open 1");
    for _ in 0..writer.random.between(8, 16) {
        let rectangle = at_an_edge(&mut writer.random, &pool);
        sweep_alone(writer, rectangle);
    }
}

/// A rectangle of job 1, which is open. Where it is done a new start makes room for another.
pub fn sweep_alone(writer: &mut Writer, rectangle: Rectangle) {
    let word = writer.random.pick(&["insall", "delall"]);
    let answer = writer.sweep(word, 1, rectangle);
    if answer.starts_with("reply 0 ") {
        writer.tell("sum");
        writer.tell("abort 1");
        writer.start(0);
        writer.tell("open 1");
    }
}

/// Rectangles of 256 tiles on the largest tables, until each table is full in its turn.
pub fn fill_largest_tables(writer: &mut Writer) {
    writer.lend(MOST_TILES, MOST_OPERATIONS, MOST_JOURNAL);
    writer.start(0);
    writer.tell("open 1");
    let edition = writer.random.pick(&EDITIONS);
    let mut refusals = 0;
    for n in 0.. {
        let word = if n < 18 { "insall" } else { "delall" };
        let square = sized(edition, 9, (16 * (n % 18) - 32, 0), 16, 16);
        let answer = writer.sweep(word, 1, square);
        if answer.starts_with("reply 8 ") {
            writer.tell("commit 1");
            writer.tell("open 1");
            writer.sweep(word, 1, square);
        } else if !answer.starts_with("reply 0 ") {
            refusals += 1;
        }
        writer.sum_mostly();
        if refusals > 5 {
            break;
        }
    }
    writer.tell("sum");
    writer.tell(format!("replay 0 {}", MOST_JOURNAL));
    writer.tell("sum");
}

/// A table of tiles that is full but for some places, and rectangles that need about as many.
pub fn on_many_tiles(writer: &mut Writer) {
    let free = writer.random.between(0, 6);
    let tiles = writer.random.between(40, 120);
    writer.lend(tiles + free, 300, 6000);
    let count = writer.put_tiles((0..tiles).filter_map(nth_tile).collect());
    writer.start(count);
    writer.tell("open 1");
    writer.tell("open 2");
    for _ in 0..writer.random.between(4, 9) {
        let corner = (
            writer.random.between(0, 3) as i32,
            writer.random.between(0, 60) as i32,
        );
        let (width, height) = (writer.random.between(1, 3), writer.random.between(1, 9));
        let rectangle = sized(2, 7, corner, width as i32, height as i32);
        let word = writer.random.pick(&["insall", "insall", "delall"]);
        let job = writer.random.pick(&[1, 1, 1, 2]);
        writer.sweep(word, job, rectangle);
        writer.tell("sum");
    }
    writer.tell("abort 1");
    writer.tell("sum");
}
