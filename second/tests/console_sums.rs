//! The sums of the console page, of everything and of a mended journal.

use crate::common::talk::{holds, talk};

/// The sum of a list of numbers, by the console page.
fn sum_of(numbers: &[u128]) -> u128 {
    let modulus = 4_294_967_291;
    numbers
        .iter()
        .fold(0, |sum, number| (sum * 31 + number % modulus) % modulus)
}

/// The answer to a mend that left two bytes out, with the sum of an output of so many bytes.
fn mended_line(room: usize) -> String {
    let mut output = vec![1u128, 0, 1, 1];
    output.extend([6, 0, 9, 1, 1, 1, 0x40, 3, 0xC0, 5, 0, 7, 4, 0, 1, 1]);
    output.resize(room, 255);
    let sum = sum_of(&output);
    format!("reply 0 length 20 left 2 aborted 1 count 0 sum {}", sum)
}

/// The answer to a mend that was refused.
fn refused_line(number: u8, count: u32, room: usize) -> String {
    let sum = sum_of(&vec![255; room]);
    format!(
        "reply {} length 0 left 0 aborted 0 count {} sum {}",
        number, count, sum
    )
}

#[test]
fn mends_by_hand() {
    // The journal has an open, an insert and half of a commit.
    let input =
        "lend 2 3 60\nstart 0 1\nopen 1\nins 1 7 2 4 -1 5\nbyte 16 3\nbyte 17 0\ntile 0 0\n\
                 mend 0 18 22\nmend 0 18 20\nmend 0 18 19\nmend 1 18 22\nmend 0 61 22\n\
                 mend 0 18 66001\nmend 0 0 0\nmend 0 18 66000\n";
    let due = [
        mended_line(22),
        mended_line(20),
        refused_line(18, 0, 19),
        refused_line(1, 1, 22),
        "?".to_string(),
        "?".to_string(),
        "reply 0 length 0 left 0 aborted 0 count 0 sum 0".to_string(),
        mended_line(66_000),
    ];
    let output = talk(input);
    let lines: Vec<&str> = output.lines().skip(7).collect();
    assert_eq!(lines, due);
}

#[test]
fn a_mend_leaves_the_session_alone() {
    let mut output = vec![5u128, 0, 1, 2, 1, 0, 1, 1];
    output.extend([6, 0, 9, 1, 1, 1, 0x40, 3, 0xC0, 5, 0, 7, 4, 0, 1, 1]);
    output.resize(60, 255);
    holds(&format!(
        "lend 2 3 60 => lent 2 3 60
        start 0 2 => reply 0 answer 0 holder 0 sheet 0 turns 0
        open 1 => reply 0 answer 0 holder 0 sheet 0 turns 0
        ins 1 7 2 4 -1 5 => reply 0 answer 1 holder 0 sheet 0 turns -1
        tile 0 0 => ok
        mend 0 20 60 => reply 0 length 24 left 0 aborted 1 count 0 sum {}
        commit 1 => reply 1 answer 0 holder 0 sheet 0 turns 0
        tiles 0 => ok
        operations 0 => ok
        level 4 0 => ok
        commit 1 => reply 0 answer 0 holder 0 sheet 0 turns 0
        read 20 => commit 1 next 24",
        sum_of(&output)
    ));
}

#[test]
fn the_sum_runs_over_everything() {
    let input = "lend 2 1 2\nmark 63 1\nmark 0 1\ntiles 7\noperations 8\njournal 9\nrule 2\n\
                 level 4 11\nlevel 5 4294967295\nlevel 13 14\nlevel 14 15\nspoken 16\n\
                 tile 0 4294967295\ntile 1 3\nentry 0 18446744073709551615\nbyte 1 255\nsum\n";
    let mut numbers: Vec<u128> = vec![0; 64];
    numbers[0] = 1;
    numbers[63] = 1;
    numbers.extend([7, 8, 9, 2]);
    numbers.extend([11, 4_294_967_295, 0, 0, 0, 0, 0, 0, 0, 14, 15, 16]);
    numbers.extend([4_294_967_295, 3, 18_446_744_073_709_551_615, 0, 255]);
    let due = sum_of(&numbers);
    assert!(talk(input).ends_with(&format!("ok\nsum {}\n", due)));
}

/// Each kept count has a place of its own in the sum, between the rule and the tiles.
#[test]
fn each_kept_count_is_in_the_sum() {
    let levels = (4..=14).map(|zoom| format!("level {} 5", zoom));
    for (place, line) in levels.chain(["spoken 5".to_string()]).enumerate() {
        let mut numbers: Vec<u128> = vec![0; 64 + 3 + 1 + 12 + 2];
        numbers[67] = 1;
        numbers[68 + place] = 5;
        let due = format!("lent 2 0 0\nok\nsum {}\n", sum_of(&numbers));
        assert_eq!(talk(&format!("lend 2 0 0\n{}\nsum\n", line)), due);
    }
}
