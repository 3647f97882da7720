//! Lines are answered as they come, whatever pieces they come in and however long they are.

use second::line::{parse, MOST_BYTES};
use second::scripts::{script, MEBIBYTE};
use second::talk::{answers, Talk};

/// The answers to a text that comes in pieces of so many bytes.
fn in_pieces(text: &[u8], size: usize) -> Vec<u8> {
    let mut talk = Talk::default();
    let mut said = Vec::new();
    for piece in text.chunks(size) {
        said.extend(talk.hear(piece).flat_map(String::into_bytes));
    }
    said
}

fn all_said(talk: &mut Talk, piece: &[u8]) -> String {
    talk.hear(piece).collect()
}

#[test]
fn a_line_is_answered_with_its_line_feed_and_not_before() {
    let mut talk = Talk::default();
    assert_eq!(all_said(&mut talk, b"lend 1 "), "");
    assert_eq!(all_said(&mut talk, b"1 8"), "");
    assert_eq!(all_said(&mut talk, b""), "");
    assert_eq!(all_said(&mut talk, b"\n"), "lent 1 1 8\n");
    let done = "reply 0 answer 0 holder 0 sheet 0 turns 0\n";
    assert_eq!(all_said(&mut talk, b"start 0 1\nop"), done);
    assert_eq!(
        all_said(&mut talk, b"en 1\n\nrea"),
        done.to_string() + "?\n"
    );
    assert_eq!(all_said(&mut talk, b"d 4\n"), "end\n");
}

#[test]
fn the_pieces_do_not_matter() {
    for seed in [1, 2, 3] {
        let text = script(seed, 150);
        let whole = answers(&text);
        for size in [1, 2, 3, 7, 255, 256, 257, 4095, 4096, 4097] {
            assert_eq!(in_pieces(&text, size), whole, "{}", size);
        }
    }
}

/// A line of so many bytes that would be a command if some of them were left out.
fn long_lines(length: usize) -> [Vec<u8>; 4] {
    let filled = |first: &[u8], filling: u8, last: &[u8]| {
        let mut line = first.to_vec();
        line.resize(length - last.len(), filling);
        line.extend_from_slice(last);
        line
    };
    [
        filled(b"", b' ', b"sum"),
        filled(b"sum", b' ', b""),
        filled(b"read ", b'0', b"1"),
        filled(b"", b'x', b""),
    ]
}

const LENGTHS: [usize; 15] = [
    MOST_BYTES - 1,
    MOST_BYTES,
    MOST_BYTES + 1,
    MOST_BYTES + 2,
    255,
    256,
    257,
    4095,
    4096,
    4097,
    65_535,
    65_536,
    65_537,
    MEBIBYTE,
    2 * MEBIBYTE + 1,
];

#[test]
fn a_line_of_any_length_is_answered_by_one_line() {
    for length in LENGTHS {
        for line in long_lines(length) {
            assert_eq!(line.len(), length);
            let text = [
                b"sum\n",
                line.as_slice(),
                b"\nsum\n",
                &line,
                b"\nread 0\n",
                &line,
            ]
            .concat();
            for size in [256, 65_536, text.len()] {
                assert_eq!(
                    in_pieces(&text, size),
                    b"sum 623557158\n?\nsum 623557158\n?\nend\n"
                );
            }
        }
    }
}

#[test]
fn no_command_is_longer_than_the_most_bytes() {
    let longest = [
        "insall 255 65535 255 255 -2147483648 -2147483648 -2147483648 -2147483648",
        "entry 4294967295 18446744073709551615",
        "operations 4294967295",
    ];
    for line in longest {
        assert!(parse(line.as_bytes()).is_some());
        assert!(line.len() <= MOST_BYTES);
    }
}

#[test]
fn a_script_of_several_mebibytes_is_answered_to_its_end() {
    let lines = 300_000;
    let text = b"lend 1 1 1\n".repeat(lines);
    assert!(text.len() > 3 * MEBIBYTE);
    assert_eq!(in_pieces(&text, 65_536), b"lent 1 1 1\n".repeat(lines));
}
