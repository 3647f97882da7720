//! Replays and mends of the lent journal onto tables in all states.

use crate::journal::{Reader, Reading};
use crate::journals::short_journal;
use crate::random::Random;
use crate::scripts::addresses::Pool;
use crate::scripts::calls;
use crate::scripts::mending;
use crate::scripts::writer::Writer;

/// Replays or mends so many bytes onto the tile table with this count.
pub fn replay_or_mend(writer: &mut Writer, count: usize, length: usize) {
    if writer.random.one_in(2) {
        writer.tell(format!("replay {} {}", count, length));
    } else {
        mending::mend(writer, count, length);
    }
}

/// Replays and mends at several lengths, each onto a table that was set anew.
pub fn replay_often(writer: &mut Writer, pool: &Pool) {
    for _ in 0..writer.random.between(3, 8) {
        let count = if writer.random.one_in(5) {
            wild_count(writer)
        } else {
            set_tiles(writer, pool)
        };
        let length = some_length(writer);
        replay_or_mend(writer, count, length);
        writer.look();
    }
}

/// Replays and mends of the used journal and of every shorter one, onto no tiles.
pub fn replay_every_length(writer: &mut Writer) {
    let used = writer.console.used_journal().len().min(150);
    for length in 0..used + 1 {
        clear_tiles(writer);
        replay_or_mend(writer, 0, length);
        if length % 8 == 0 {
            writer.tell("sum");
        }
    }
}

fn clear_tiles(writer: &mut Writer) {
    let places = 0..writer.console.tables.tiles.len();
    let tiles = &writer.console.tables.tiles;
    let used: Vec<usize> = places.filter(|place| tiles[*place] != 0).collect();
    for place in used {
        writer.tell(format!("tile {} 0", place));
    }
}

/// Clears the tile table and puts some tiles of the pool into it, or none.
fn set_tiles(writer: &mut Writer, pool: &Pool) -> usize {
    clear_tiles(writer);
    if writer.random.one_in(2) {
        let tiles = pool.some_tiles(&mut writer.random);
        writer.put_tiles(tiles)
    } else {
        0
    }
}

fn wild_count(writer: &mut Writer) -> usize {
    let places = writer.console.tables.tiles.len();
    let near = writer.random.below(places + 2);
    writer
        .random
        .pick(&[near, near, places, places + 1, 2_147_483_648, 4_294_967_295])
}

fn some_length(writer: &mut Writer) -> usize {
    let lent = writer.console.tables.journal.len();
    let used = writer.console.used_journal().len();
    match writer.random.below(12) {
        0 => 0,
        1 => lent,
        2 => lent + 1,
        3 => writer.random.pick(&[65_536, 65_537, 66_000, 4_294_967_295]),
        4..=6 => writer.random.below(used + 1),
        7 => used.saturating_sub(1),
        _ => used,
    }
}

/// The places where whole records of the used journal begin, and the place behind them.
fn record_places(writer: &Writer) -> (Vec<usize>, usize) {
    let mut reader = Reader::at(writer.console.used_journal(), 0);
    let mut places = Vec::new();
    loop {
        let place = reader.place();
        match reader.read() {
            Reading::Whole(_) => places.push(place),
            Reading::End | Reading::Cut | Reading::Malformed => return (places, place),
        }
    }
}

/// A field of a record, by its place in the record, and a byte for it, mostly one it may have.
fn some_field(random: &mut Random) -> (usize, u8) {
    let stray = random.byte();
    match random.below(10) {
        0 => (0, random.pick(&[0, 1, 2, 3, 4, 5, 6, 7, 255])),
        1 => (random.pick(&[1, 2]), random.pick(&[0, 1, 7, 8, 9, stray])),
        2..=3 => (3, random.pick(&[0, 1, 2, 3, 62, 63, 64, 255])),
        4 => (4, random.pick(&[0, 1, 2, 3, 4])),
        5..=6 => (5, random.pick(&[0, 0, 1, 1, 2])),
        7 => (random.pick(&[10, 11]), stray),
        _ => (random.pick(&[6, 7, 8, 9]), random.pick(&[16, 68, stray])),
    }
}

/// Overwrites one byte of some records, and reads them whole and cut.
fn damage_journal(writer: &mut Writer) {
    for _ in 0..writer.random.between(1, 4) {
        let (places, _) = record_places(writer);
        let record = match places.get(writer.random.below(places.len())) {
            None => return,
            Some(place) => *place,
        };
        let (field, byte) = some_field(&mut writer.random);
        writer.tell(format!("byte {} {}", record + field, byte));
        writer.tell(format!("read {}", record));
        read_cut(writer, record);
    }
}

/// Makes a rule record of a record that is as long, wherever it stands.
fn put_rule_record(writer: &mut Writer) {
    let journal = writer.console.used_journal();
    let (mut places, _) = record_places(writer);
    places.retain(|place| ![2, 6].contains(&journal[*place]));
    let record = match places.get(writer.random.below(places.len().min(3))) {
        None => return,
        Some(place) => *place,
    };
    let rule = writer.random.pick(&[2, 2, 2, 1, 0]);
    writer.tell(format!("byte {} 5", record));
    writer.tell(format!("byte {} {}", record + 3, rule));
    writer.tell(format!("read {}", record));
    read_cut(writer, record);
}

/// Takes the used bytes to end inside the record, reads it, and gives them back.
fn read_cut(writer: &mut Writer, record: usize) {
    let used = writer.console.session.journal;
    let cut = record + writer.random.between(1, 11);
    writer.tell(format!("journal {}", cut));
    writer.tell(format!("read {}", record));
    writer.tell(format!("journal {}", used));
}

/// Turns the answer of an operation record round, most often of a member record.
fn turn_an_answer(writer: &mut Writer) {
    let only_members = !writer.random.one_in(4);
    let journal = writer.console.used_journal();
    let (places, _) = record_places(writer);
    let answers: Vec<(usize, u8)> = places
        .iter()
        .filter(|place| [2, 6].contains(&journal[**place]))
        .filter(|place| journal[**place + 4] == 3 || !only_members)
        .map(|place| (place + 5, 1 - journal[place + 5]))
        .collect();
    if let Some((place, byte)) = answers.get(writer.random.below(answers.len())) {
        writer.tell(format!("byte {} {}", place, byte));
    }
}

/// A journal that these tables did not write, put down byte by byte, often into too small tables.
pub fn foreign_journal(writer: &mut Writer) {
    let bytes = short_journal(&mut writer.random);
    let tiles = writer.random.pick(&[1, 2, 3, 20, 20]);
    let operations = writer.random.pick(&[1, 2, 5, 100, 100]);
    let journal = bytes.len() + writer.random.pick(&[0, 1, 4, 5, 80, 80]);
    writer.lend(tiles, operations, journal);
    for (place, byte) in bytes.iter().enumerate() {
        writer.tell(format!("byte {} {}", place, byte));
    }
    writer.tell(format!("journal {}", bytes.len()));
    let (places, behind) = record_places(writer);
    for place in places.iter().chain(Some(&behind)) {
        writer.tell(format!("read {}", place));
    }
    let pool = Pool::few(&mut writer.random);
    replay_or_mend(writer, 0, bytes.len());
    replay_often(writer, &pool);
    calls::read_here_and_there(writer, 5);
    // The session that goes on behind these bytes knows nothing of what they say.
    clear_tiles(writer);
    calls::run(writer, &pool, 5);
    replay_often(writer, &pool);
}

/// Calls that leave a journal, then readings and replays of it, whole and damaged.
pub fn episode(writer: &mut Writer) {
    let pool = Pool::few(&mut writer.random);
    let tiles = writer.random.between(1, 5);
    let operations = writer.random.between(1, 9);
    writer.lend(tiles, operations, 500);
    writer.start(0);
    let calls = writer.random.between(10, 40);
    calls::run(writer, &pool, calls);
    if writer.random.one_in(3) {
        replay_every_length(writer);
    }
    replay_often(writer, &pool);
    if writer.random.one_in(2) {
        turn_an_answer(writer);
        replay_often(writer, &pool);
    }
    damage_journal(writer);
    put_rule_record(writer);
    if writer.random.one_in(2) {
        calls::read_everywhere(writer);
    }
    replay_often(writer, &pool);
}
