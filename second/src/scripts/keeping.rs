//! The counts that a session keeps: asked for after every call that makes them rise or fall, and
//! each of them wrong alone, so that every call is refused until it is mended.

use crate::address::Address;
use crate::rule::{Rule, RULES};
use crate::scripts::addresses::{either_edition, last_row, EDITIONS, LEVELS};
use crate::scripts::rectangles::sized;
use crate::scripts::writer::Writer;
use crate::scripts::wrong_counts::{removals, Kept};
use crate::tile::Tile;

/// Columns of the tiles that are there at the beginning; the others are free.
const PRESENT: [i32; 4] = [0, 1, 2, 3];

/// Calls of two jobs on one level, with wrong counts between them, and the ends of both jobs.
pub fn episode(writer: &mut Writer) {
    let zoom = writer.random.pick(&LEVELS);
    let rule = writer.random.pick(&RULES);
    writer.lend(12, 24, 700);
    let other = writer.random.pick(&LEVELS);
    let tiles = PRESENT.iter().map(|column| Tile::at(zoom, *column, 0));
    let tiles = tiles.chain(Some(Tile::at(other, 7, 1)));
    start_on(writer, rule, tiles.flatten().collect());
    for job in [1, 2] {
        writer.tell(format!("open {}", job));
    }
    change_a_tile(writer, zoom);
    sweep_tiles(writer, zoom);
    for kept in [Kept::Level(zoom), Kept::Spoken] {
        make_wrong(writer, kept, zoom);
    }
    add_up(writer, zoom, other);
    end_both(writer);
}

fn start_on(writer: &mut Writer, rule: Rule, tiles: Vec<Tile>) {
    let count = writer.put_tiles(tiles);
    writer.start_by(rule, count);
    writer.tell("levels");
}

fn operate(writer: &mut Writer, word: &str, job: u8, zoom: u8, column: i32) {
    let from_north = Address {
        edition: 2,
        zoom,
        column,
        row: 0,
    };
    let place = either_edition(&mut writer.random, from_north);
    writer.operate(word, job, place);
    ask(writer);
}

fn ask(writer: &mut Writer) {
    writer.tell("levels");
    writer.sum_mostly();
}

/// Job 1 deletes a tile, by rule 2 puts it back and deletes it again, and looks for others.
fn change_a_tile(writer: &mut Writer, zoom: u8) {
    let times = writer.random.between(0, 5);
    for word in ["del", "ins"].into_iter().cycle().take(times) {
        operate(writer, word, 1, zoom, PRESENT[0]);
    }
    let others = [("ins", 8), ("ins", 1), ("del", 9), ("del", 0), ("mem", 2)];
    for (word, column) in others {
        if !writer.random.one_in(3) {
            operate(writer, word, 1, zoom, column);
        }
    }
}

/// Job 2 deletes two tiles and inserts others; by rule 2 it then inserts those two and one more.
fn sweep_tiles(writer: &mut Writer, zoom: u8) {
    for (word, west, width) in [("delall", 2, 2), ("insall", 11, 2), ("insall", 2, 3)] {
        if !writer.random.one_in(3) {
            sweep(writer, word, zoom, west, width);
        }
    }
}

/// Job 2 inserts or deletes tiles of the northernmost row.
fn sweep(writer: &mut Writer, word: &str, zoom: u8, west: i32, width: i32) {
    let edition = writer.random.pick(&EDITIONS);
    let row = if edition == 1 { last_row(zoom) } else { 0 };
    writer.sweep(word, 2, sized(edition, zoom, (west, row), width, 1));
    ask(writer);
}

fn end_both(writer: &mut Writer) {
    let first = writer.random.pick(&[1, 2]);
    for job in [first, 3 - first] {
        let word = writer.random.pick(&["commit", "abort"]);
        writer.tell(format!("{} {}", word, job));
        ask(writer);
    }
}

/// One more than is right, one less, and for the places spoken for what counts other things: each
/// is told and mended, and where nothing is wrong nothing changes.
fn make_wrong(writer: &mut Writer, kept: Kept, zoom: u8) {
    let right = kept.of(&writer.console.session);
    let mut wrongs = vec![right.checked_add(1), right.checked_sub(1)];
    if let Kept::Spoken = kept {
        let with_tiles = right + writer.console.session.tiles;
        wrongs.extend([Some(removals(writer)), Some(with_tiles)]);
    }
    let others = wrongs.into_iter().flatten();
    for wrong in others.filter(|wrong| *wrong != right) {
        writer.tell(kept.line(wrong));
        call_in_vain(writer, zoom);
        writer.tell(kept.line(right));
    }
    writer.tell(kept.line(right));
    operate(writer, "mem", 1, zoom, 5);
}

/// Every kind of call, each of which would be refused by nothing else.
fn call_in_vain(writer: &mut Writer, zoom: u8) {
    writer.tell("open 5");
    operate(writer, "mem", 1, zoom, 6);
    let edition = writer.random.pick(&EDITIONS);
    let word = writer.random.pick(&["insall", "delall"]);
    writer.sweep(word, 1, sized(edition, zoom, (6, 4), 2, 1));
    let [one, other] = writer
        .random
        .pick(&[["commit", "abort"], ["abort", "commit"]]);
    writer.tell(format!("{} 1", one));
    writer.tell(format!("{} 1", other));
    writer.sum_mostly();
}

/// One level has a tile too many and the other one too few.
fn add_up(writer: &mut Writer, zoom: u8, other: u8) {
    let (level, second) = (Kept::Level(zoom), Kept::Level(other));
    let session = &writer.console.session;
    let (one, two) = (level.of(session), second.of(session));
    writer.tell(level.line(one.wrapping_sub(1)));
    writer.tell(second.line(two.wrapping_add(1)));
    call_in_vain(writer, zoom);
    writer.tell(second.line(two));
    writer.tell(level.line(one));
}

/// By both rules, with a tile on every level: each count is made wrong on its own.
pub fn make_every_count_wrong(writer: &mut Writer) {
    for rule in RULES {
        writer.lend(14, 24, 700);
        let tiles = LEVELS.iter().map(|zoom| Tile::at(*zoom, 0, 0));
        let tiles = tiles.chain(Some(Tile::at(9, 1, 0)));
        start_on(writer, rule, tiles.flatten().collect());
        writer.tell("open 1");
        operate(writer, "del", 1, 9, 1);
        make_each_wrong(writer);
        writer.tell("abort 1");
        ask(writer);
    }
}

fn make_each_wrong(writer: &mut Writer) {
    for zoom in LEVELS {
        make_wrong(writer, Kept::Level(zoom), zoom);
    }
    make_wrong(writer, Kept::Spoken, LEVELS[0]);
}

/// On every level tiles come and go by operations, by rectangles and by aborts.
pub fn move_every_level(writer: &mut Writer) {
    let rule = writer.random.pick(&RULES);
    writer.lend(14, 24, 4000);
    let tiles = LEVELS.iter().map(|zoom| Tile::at(*zoom, 0, 0));
    start_on(writer, rule, tiles.flatten().collect());
    for zoom in LEVELS {
        writer.tell("open 1");
        writer.tell("open 2");
        operate(writer, "del", 1, zoom, 0);
        writer.tell("abort 1");
        sweep(writer, "insall", zoom, 3, 2);
        writer.tell("commit 2");
        writer.tell("open 2");
        sweep(writer, "delall", zoom, 3, 2);
        writer.tell("commit 2");
        writer.tell("open 1");
        operate(writer, "ins", 1, zoom, 5);
        writer.tell("abort 1");
        ask(writer);
    }
}

/// A start that is refused leaves no count: by 1, and by 9 for want of four bytes.
pub fn refused_starts(writer: &mut Writer) {
    let zoom = writer.random.pick(&LEVELS);
    let journal = writer.random.below(4);
    writer.lend(2, 2, journal);
    let tile = Tile::at(zoom, 1, 0);
    for (count, rule) in [
        (2, Rule::EachAlone),
        (0, Rule::JobAsOne),
        (1, Rule::JobAsOne),
    ] {
        start_on(writer, Rule::EachAlone, tile.into_iter().collect());
        // No delete can be unfinished where the journal is so short.
        writer.tell(Kept::Spoken.line(1));
        writer.start_by(rule, count);
        ask(writer);
    }
}
