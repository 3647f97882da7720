//! Random console scripts. A seed gives always the same script.

mod addresses;
mod bad_lines;
mod blocks;
mod breaking;
mod calls;
mod counting;
mod damage;
mod deeds;
mod episodes;
mod filling;
mod keeping;
mod large_ends;
mod long_lines;
mod mending;
mod nowhere;
mod rectangles;
mod replacing;
mod replays;
mod spelling;
mod sweeping;
mod turning;
mod wild;
mod writer;
mod wrong_counts;
mod wrong_entries;
mod wrong_tiles;

use writer::Writer;

/// Every so many seeds a script fills the largest tables, call by call or by rectangles, ends jobs of
/// every size, has lines of more than a mebibyte, or has so many lines that they are more together.
const SEEDS_ROUND: u64 = 32;
const FILLING_SEED: u64 = 5;
const LONG_LINES_SEED: u64 = 11;
const MANY_LINES_SEED: u64 = 17;
const SWEEPING_SEED: u64 = 21;
const LARGE_ENDS_SEED: u64 = 27;

pub const MEBIBYTE: usize = 1_048_576;

/// The script of a seed, of about so many lines.
pub fn script(seed: u64, lines: usize) -> Vec<u8> {
    let mut writer = Writer::new(seed);
    match seed % SEEDS_ROUND {
        FILLING_SEED => filling::fill_largest_tables(&mut writer),
        SWEEPING_SEED => write_sweeps(&mut writer),
        LARGE_ENDS_SEED => write_large_ends(&mut writer),
        LONG_LINES_SEED => write_long_lines(&mut writer, lines),
        MANY_LINES_SEED => write_many_lines(&mut writer),
        _ => write_episodes(&mut writer, lines),
    }
    writer.finish_without_line_feed();
    writer.into_text()
}

fn write_episodes(writer: &mut Writer, lines: usize) {
    // Before anything is lent every call has an answer, too.
    calls::some_calls(writer, 6);
    while writer.lines() < lines {
        episodes::episode(writer);
    }
}

/// The smallest journal comes here in every round, for chance misses it in some; and so does every
/// kept count, moved and made wrong on its own.
fn write_sweeps(writer: &mut Writer) {
    sweeping::fill_largest_tables(writer);
    filling::fill_smallest_journal(writer);
    keeping::move_every_level(writer);
    keeping::make_every_count_wrong(writer);
}

/// Every size comes in every round; behind them chance finds others.
fn write_large_ends(writer: &mut Writer) {
    large_ends::end_every_size(writer);
    for _ in 0..4 {
        large_ends::end_any_size(writer);
    }
}

/// Behind each very long line the others are answered as before.
fn write_long_lines(writer: &mut Writer, lines: usize) {
    let lengths = [MEBIBYTE - 1, MEBIBYTE, MEBIBYTE + 1];
    for (length, turn) in lengths.into_iter().zip(1..) {
        write_episodes(writer, lines * turn / lengths.len());
        let line = long_lines::of_length(&mut writer.random, length);
        writer.tell(line);
        writer.sum_mostly();
    }
    calls::some_calls(writer, 6);
}

/// Between the episodes stand many lines that are answered quickly.
fn write_many_lines(writer: &mut Writer) {
    while writer.bytes() <= MEBIBYTE {
        episodes::episode(writer);
        calls::address_steps(writer, 600);
    }
}
