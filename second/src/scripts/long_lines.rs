//! Lines longer than any command, most of them as long as a buffer or almost so.

use crate::random::Random;

const BUFFERS: [usize; 3] = [256, 4096, 65_536];

/// What a long line begins with, what fills it, and what it ends in.
const SHAPES: [(&str, &str, &str); 9] = [
    ("", " ", "sum"),
    ("sum", " ", ""),
    ("sum", "\r", ""),
    ("read ", "0", "1"),
    ("read ", "9", ""),
    ("address 2 4 0 0", " ", ""),
    ("address 2 4 -", "0", "1 0"),
    ("", "x", ""),
    ("", "\u{0}", "sum"),
];

/// A line of exactly so many bytes.
pub fn of_length(random: &mut Random, length: usize) -> Vec<u8> {
    let (first, filling, last) = random.pick(&SHAPES);
    let filled = length.saturating_sub(first.len() + last.len());
    let mut line = (first.to_string() + &filling.repeat(filled) + last).into_bytes();
    line.truncate(length);
    line
}

/// A line as long as a buffer, one byte shorter or one longer.
pub fn about_a_buffer(random: &mut Random) -> Vec<u8> {
    let length = random.pick(&BUFFERS) - 1 + random.below(3);
    of_length(random, length)
}

/// A line that ends, behind so many bytes of the script, where a buffer does: with its line feed as
/// the last byte of it, the one before, or the first of the next.
pub fn to_the_end_of_a_buffer(random: &mut Random, written: usize) -> Vec<u8> {
    let buffer = random.pick(&BUFFERS);
    let feed = buffer + buffer - 2 + random.below(3);
    of_length(random, (feed - written % buffer) % buffer)
}
