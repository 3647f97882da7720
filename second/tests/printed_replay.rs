//! The printed example with every one of its prefixes, and the limits of the length.

use second::printed::printed_replay;

const EXAMPLE: [u8; 32] = [
    0x01, 0x00, 0x01, 0x03, 0x02, 0x00, 0x07, 0x03, 0x01, 0x01, 0x40, 0x03, 0xC0, 0x05, 0x03, 0x00,
    0x01, 0x03, 0x01, 0x00, 0x01, 0x04, 0x02, 0x00, 0x07, 0x04, 0x02, 0x01, 0x40, 0x03, 0xC0, 0x05,
];

/// The offset after the last whole record, and what is printed there.
fn expected(length: usize) -> String {
    let (tiles, undone, offset) = match length {
        0..=3 => (0, 0, 0),
        4..=13 => (0, 1, 4),
        14..=17 => (0, 1, 14),
        18..=21 => (1, 0, 18),
        22..=31 => (1, 1, 22),
        _ => (1, 1, 32),
    };
    let line = format!(
        "tiles {} undone {} stopped 0 at {}\n",
        tiles, undone, offset
    );
    if tiles == 1 {
        line + "4 15 5\n"
    } else {
        line
    }
}

#[test]
fn the_example_prints_exactly() {
    let text = printed_replay(&EXAMPLE);
    assert_eq!(text, "tiles 1 undone 1 stopped 0 at 32\n4 15 5\n");
}

#[test]
fn every_prefix_prints_exactly() {
    for length in 0..=EXAMPLE.len() {
        let text = printed_replay(&EXAMPLE[..length]);
        assert_eq!(text, expected(length), "length {}", length);
    }
    let text = printed_replay(&EXAMPLE[..17]);
    assert_eq!(text, "tiles 0 undone 1 stopped 0 at 14\n");
}

/// By rule 2 job 3 puts a tile into the pack and commits; job 4 replaces it and is cut off.
#[rustfmt::skip]
const REPLACED: [u8; 46] = [
    0x05, 0x00, 0x01, 0x02,
    0x01, 0x00, 0x01, 0x03, 0x02, 0x00, 0x07, 0x03, 0x01, 0x01, 0x40, 0x03, 0xC0, 0x05,
    0x03, 0x00, 0x01, 0x03,
    0x01, 0x00, 0x01, 0x04, 0x02, 0x00, 0x07, 0x04, 0x02, 0x01, 0x40, 0x03, 0xC0, 0x05,
    0x02, 0x00, 0x07, 0x04, 0x01, 0x01, 0x40, 0x03, 0xC0, 0x05,
];

#[test]
fn a_journal_by_rule_2_prints_as_any_other() {
    let printed = |length| printed_replay(&REPLACED[..length]);
    assert_eq!(printed(46), "tiles 1 undone 1 stopped 0 at 46\n4 15 5\n");
    assert_eq!(printed(45), "tiles 1 undone 1 stopped 0 at 36\n4 15 5\n");
    assert_eq!(printed(4), "tiles 0 undone 0 stopped 0 at 4\n");
    for length in 0..4 {
        assert_eq!(printed(length), "tiles 0 undone 0 stopped 0 at 0\n");
    }
    // Without its first record it runs by rule 1, which holds the insert.
    let text = printed_replay(&REPLACED[4..]);
    assert_eq!(text, "tiles 1 undone 1 stopped 11 at 32\n4 15 5\n");
}

#[test]
fn more_than_the_most_bytes_is_too_long() {
    assert_eq!(printed_replay(&vec![1; 65_537]), "too long\n");
    assert_eq!(printed_replay(&vec![0; 100_000]), "too long\n");
    let stopped = "tiles 0 undone 0 stopped 10 at 0\n";
    assert_eq!(printed_replay(&vec![0; 65_536]), stopped);
}

#[test]
fn tiles_are_printed_in_key_order() {
    let mut journal = vec![1, 0, 1, 0];
    for key in [4_026_531_839u32, 1_073_741_824, 1_073_987_589] {
        journal.extend_from_slice(&[2, 0, 7, 0, 1, 1]);
        journal.extend_from_slice(&key.to_be_bytes());
    }
    journal.extend_from_slice(&[3, 0, 1, 0]);
    let text = "tiles 3 undone 0 stopped 0 at 38\n4 0 0\n4 15 5\n14 16383 16383\n";
    assert_eq!(printed_replay(&journal), text);
}
