//! Random journals by both rules and with both forms of operation records: whole, cut, damaged,
//! spliced, refused and too long. A seed gives always the same journal.

mod altered;
mod forms;
mod large;
mod rule_records;
mod walk;

use crate::random::Random;
pub use forms::some_sheet;

/// Every kind of journal comes in its turn, so that each is met often.
pub const KINDS: u64 = 28;

pub fn journal(seed: u64) -> Vec<u8> {
    let mut random = Random::seeded(seed);
    let random = &mut random;
    match seed % KINDS {
        0 => walk::bytes_of(&walk::short_walk(random)),
        1 => altered::cut(random),
        2..=6 => altered::damaged(random),
        7 => altered::with_wrong_tail(random),
        8 => altered::spliced(random),
        9 => altered::noise(random),
        10 | 11 => altered::with_strangers(random),
        12 | 13 => altered::with_wrong_answer(random),
        14 => altered::refused_and_wrong(random),
        15 => altered::with_strangers_and_damage(random),
        16 => large::long(random),
        17 => large::of_edge_length(random),
        18 => large::too_many_tiles(random),
        19 => large::too_many_operations(random),
        20 => large::replaced(random),
        21 => rule_records::put_in(random),
        22 => rule_records::at_the_beginning(random),
        23 => rule_records::left_out(random),
        24 => forms::with_changed_sheets(random),
        25 => forms::with_the_other_head(random),
        26 => forms::cut_inside_an_operation(random),
        _ => forms::cut_at_a_sheet(random),
    }
}

/// Bytes of the longest journal that a script puts down byte by byte.
const SHORT: usize = 240;

/// A short journal with anything wrong in it, or nothing.
pub fn short_journal(random: &mut Random) -> Vec<u8> {
    let mut journal = match random.below(14) {
        0 => altered::cut(random),
        1 => altered::damaged(random),
        2 => altered::with_wrong_tail(random),
        3 => altered::spliced(random),
        4 => altered::with_strangers(random),
        5 => altered::with_wrong_answer(random),
        6 => rule_records::put_in(random),
        7 => rule_records::at_the_beginning(random),
        8 => rule_records::left_out(random),
        9 => forms::with_changed_sheets(random),
        10 => forms::with_the_other_head(random),
        11 => forms::cut_inside_an_operation(random),
        _ => walk::bytes_of(&walk::short_walk(random)),
    };
    journal.truncate(SHORT);
    journal
}
