//! Columns off the level, of which a call that is done tells turns other than 0.

use super::random::Random;

/// One next to the level, at an end of 32 bits, or any.
pub fn off_the_level(random: &mut Random, zoom: u8) -> i32 {
    let any = random.number() as i32;
    random.pick(&[-1, 1 << zoom, i32::MIN, i32::MAX, any])
}

/// The column itself, or as often the same one some turns away.
pub fn turned(random: &mut Random, zoom: u8, column: i32) -> i32 {
    if random.one_in(2) {
        return column;
    }
    let turns = off_the_level(random, zoom) >> zoom;
    // a column that is not on the level, as of a damaged tile, may go beyond 32 bits
    column.saturating_add(turns << zoom)
}
