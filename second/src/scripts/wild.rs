//! Wild damage: numbers put anywhere, plausible or not, and nothing is mended.

use crate::journals::some_sheet;
use crate::rule::RULES;
use crate::scripts::addresses::{Pool, LEVELS};
use crate::scripts::nowhere::{entry_number, with_sheet};
use crate::scripts::writer::Writer;
use crate::scripts::wrong_counts::Kept;
use crate::scripts::wrong_tiles::no_key;

pub fn put_numbers_anywhere(writer: &mut Writer, pool: &Pool) {
    for _ in 0..writer.random.between(1, 4) {
        let line = match writer.random.below(13) {
            0..=2 => wild_count_line(writer),
            3..=4 => wild_tile_line(writer, pool),
            5..=6 => wild_entry_line(writer, pool),
            7 => wild_byte_line(writer),
            8 => format!("rule {}", writer.random.pick(&RULES).number()),
            9..=10 => wild_kept_line(writer),
            _ => wild_mark_line(writer),
        };
        writer.tell(line);
    }
    if writer.random.one_in(2) {
        writer.count_anew();
    }
    writer.look();
}

fn wild_count_line(writer: &mut Writer) -> String {
    let tables = &writer.console.tables;
    let counts = [
        ("tiles", tables.tiles.len()),
        ("operations", tables.operations.len()),
        ("journal", tables.journal.len()),
    ];
    let (word, length) = writer.random.pick(&counts);
    let near = writer.random.below(length + 2);
    let choices = [near, near, near, 0, length, 4_294_967_295];
    format!("{} {}", word, writer.random.pick(&choices))
}

fn wild_kept_line(writer: &mut Writer) -> String {
    let kept = match writer.random.below(2) {
        0 => Kept::Level(writer.random.pick(&LEVELS)),
        _ => Kept::Spoken,
    };
    let stray = writer.random.word();
    kept.line(writer.random.pick(&[0, 1, 1, 2, 3, u32::MAX, stray]))
}

fn wild_tile_line(writer: &mut Writer, pool: &Pool) -> String {
    let place = writer.random.below(writer.console.tables.tiles.len());
    format!("tile {} {}", place, wild_key(writer, pool))
}

fn wild_entry_line(writer: &mut Writer, pool: &Pool) -> String {
    let place = writer.random.below(writer.console.tables.operations.len());
    format!("entry {} {}", place, wild_entry(writer, pool))
}

fn wild_byte_line(writer: &mut Writer) -> String {
    let place = writer.random.below(writer.console.tables.journal.len());
    format!("byte {} {}", place, writer.random.byte())
}

fn wild_mark_line(writer: &mut Writer) -> String {
    let job = writer.random.pick(&[0, 1, 2, 3, 62, 63]);
    format!("mark {} {}", job, writer.random.below(2))
}

fn wild_key(writer: &mut Writer, pool: &Pool) -> u32 {
    let tiles = pool.tiles();
    let random = &mut writer.random;
    let key = random.pick(&tiles).key();
    let (stray, wrong) = (random.word(), no_key(random, key));
    random.pick(&[key, key, key, 0, wrong, stray])
}

fn wild_entry(writer: &mut Writer, pool: &Pool) -> u64 {
    let key = u64::from(wild_key(writer, pool));
    let open = writer.open_jobs();
    let random = &mut writer.random;
    let job = match open.first() {
        Some(job) if !random.one_in(3) => *job,
        _ => random.pick(&[0, 1, 63, 64, 255]),
    };
    let kind = random.pick(&[1, 2, 3, 4, 5, 6, 0, 7]);
    let entry = entry_number(kind, u64::from(job), key);
    let entry = with_sheet(entry, some_sheet(random));
    let stray = random.number();
    random.pick(&[entry, entry, entry, entry, 0, stray, u64::MAX])
}
