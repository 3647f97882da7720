//! The console page, to the byte: what is a line and what is none, and the lines for a person.

use crate::common::talk::talk;
use second::console::Console;
use second::line::parse;
use second::picture::COMMANDS;

/// Lines that are no command where 2 tile places, 3 operation places and 60 bytes are lent.
#[rustfmt::skip]
const BAD_LINES: [&[u8]; 131] = [
    b"", b" ", b"sum ", b" sum", b"sum 0", b"SUM", b"sum\r", b"sum\t", b"open", b"open  1",
    b"open 1 ", b"open 01", b"open +1", b"open -1", b"open 256", b"open 1 2", b"open\t1",
    b"open 1\r", b"open \xff", b"\xffopen 1", b"open 0x1", b"start 4294967296 1", b"start -1 1",
    b"address 2 256 0 0", b"address 2 4 2147483648 0", b"address 2 4 -2147483649 0",
    b"address 2 4 0 2147483648", b"address 2 4 -0 0", b"address 2 4 0 -0", b"address 2 4 00 0",
    b"address 2 4 --1 0", b"address 2 4 - 0", b"address 4 0 0", b"address 2 4 0 0 0",
    b"address 256 4 0 0", b"address -1 4 0 0", b"address 02 4 0 0", b"address  4 0 0",
    b"entry 0 18446744073709551616", b"entry 3 0", b"tile 2 0", b"tile 0 4294967296",
    b"byte 60 0", b"byte 0 256", b"mark 64 0", b"mark 0 2", b"mark 0 256", b"mark 0",
    b"lend 5001 1 1", b"lend 1 1201 1", b"lend 1 1 66001", b"lend 1 1", b"lend 1 1 1 1",
    b"read 4294967296", b"read", b"replay 0 61", b"replay 0", b"replay 0 0 0", b"tiles -1",
    b"operations 4294967296", b"journal 00", b"commit", b"abort 1 1",
    b"ins 1 2 4 0 0", b"ins 1 7 2 4 0 0 0", b"ins 256 7 2 4 0 0", b"ins", b"ins     ",
    b"ins 1 7 256 4 0 0", b"mem 1 7 -2 4 0 0", b"ins 1 65536 2 4 0 0", b"ins 1 -1 2 4 0 0",
    b"ins 1 07 2 4 0 0", b"ins 1  2 4 0 0",
    b"start", b"start 0", b"start 0 0", b"start 0 3", b"start 0 01", b"start 0 1 1", b"start 0 256",
    b"insall", b"insall 1 2 4 0 0 0 0", b"insall 1 7 2 4 0 0 0 0 0", b"insall 1 7 2 4 0 0 0 -0",
    b"insall 1 7 256 4 0 0 0 0", b"delall 1 7 1e 4 0 0 0 0", b"delall 1 7 2 256 0 0 0 0",
    b"delall 1 7 2 4 0 2147483648 0 0", b"memall 1 7 2 4 0 0 0 0",
    b"insall 1 65536 2 4 0 0 0 0", b"delall 1 -7 2 4 0 0 0 0",
    b"mend 0 0", b"mend 0 0 0 0", b"mend 0 61 0", b"mend 0 0 66001", b"mend 0 0 4294967296",
    b"rule", b"rule 0", b"rule 3", b"rule 1 1",
    b"levels 1", b"levels ", b" levels", b"Levels", b"level", b"level 4", b"level 3 0", b"level 15 0",
    b"level 0 0", b"level 255 0", b"level 256 0", b"level 4 4294967296", b"level 4 -1", b"level -4 1",
    b"level 04 1", b"level 4 0 0", b"spoken", b"spoken -1", b"spoken 4294967296", b"spoken 1 1",
    b"spoken 00", b"spokens 1",
    b"help ", b" help", b"help 1", b"Help", b"helps", b"show ", b"show 1", b"show\r",
];

#[test]
fn what_is_no_command_is_answered_by_a_question_mark() {
    let mut console = Console::new();
    console.answer(b"lend 2 3 60");
    console.answer(b"start 0 1");
    let before = console.clone();
    for line in BAD_LINES {
        assert_eq!(console.answer(line), "?", "{}", line.escape_ascii());
        assert_eq!(console.session, before.session);
        assert_eq!(console.tables, before.tables);
    }
}

/// Lines with numbers at the ends of their types, and their answers.
const GOOD_LINES: [(&str, &str); 18] = [
    ("open 255", "reply 1 answer 0 holder 0 sheet 0 turns 0"),
    (
        "address 2 255 -2147483648 2147483647",
        "reply 5 key 0 turns 0",
    ),
    (
        "address 255 255 -2147483648 2147483647",
        "reply 14 key 0 turns 0",
    ),
    (
        "address 2 4 -2147483648 0",
        "reply 0 key 1073741824 turns -134217728",
    ),
    (
        "address 2 4 2147483647 0",
        "reply 0 key 1073987584 turns 134217727",
    ),
    (
        "insall 255 65535 255 255 -2147483648 2147483647 -2147483648 2147483647",
        "reply 1 holder 0 sheet 0 turns 0 0",
    ),
    ("read 4294967295", "end"),
    ("tiles 4294967295", "ok"),
    ("operations 4294967295", "ok"),
    ("journal 4294967295", "ok"),
    ("level 4 4294967295", "ok"),
    ("spoken 4294967295", "ok"),
    ("lend 5000 1200 66000", "lent 5000 1200 66000"),
    ("tile 4999 4294967295", "ok"),
    ("entry 1199 18446744073709551615", "ok"),
    ("byte 65999 255", "ok"),
    ("mark 63 1", "ok"),
    ("lend 0 0 0", "lent 0 0 0"),
];

#[test]
fn numbers_at_the_end_of_their_types_are_numbers() {
    let mut console = Console::new();
    for (line, due) in GOOD_LINES {
        assert_eq!(console.answer(line.as_bytes()), due, "{}", line);
    }
}

#[test]
fn what_stands_after_the_last_line_feed_is_not_answered() {
    assert_eq!(talk("sum\nsum"), "sum 623557158\n");
    assert_eq!(talk("sum"), "");
    assert_eq!(talk(""), "");
    assert_eq!(talk("\n\n"), "?\n?\n");
}

/// Each command as help names it, with 1 for every number.
fn commands_of_help() -> Vec<String> {
    let named = COMMANDS.iter().filter_map(|line| line.split("  ").next());
    let words = named.map(|command| command.split(' ').enumerate());
    words
        .map(|words| {
            let spelled = words.map(|(place, word)| if place == 0 { word } else { "1" });
            spelled.collect::<Vec<&str>>().join(" ")
        })
        .collect()
}

#[test]
fn help_names_every_command() {
    let commands = commands_of_help();
    for command in &commands {
        assert!(parse(command.as_bytes()).is_some(), "{}", command);
    }
    let words = "lend start open commit abort ins del mem insall delall address read replay mend \
                 levels sum show help tile entry byte tiles operations journal mark rule level \
                 spoken";
    for word in words.split(' ') {
        let named = commands
            .iter()
            .filter(|line| line.split(' ').next() == Some(word));
        assert_eq!(named.count(), 1, "{}", word);
    }
    assert_eq!(talk("help\n"), COMMANDS.join("\n") + "\n");
}

#[test]
fn show_shows_the_tables_and_changes_nothing() {
    let mut console = Console::new();
    for line in [
        "lend 3 3 60",
        "start 0 2",
        "open 1",
        "ins 1 7 2 4 -1 5",
        "open 2",
        "tile 1 7",
        "tiles 2",
        "journal 23",
    ] {
        console.answer(line.as_bytes());
    }
    let before = console.clone();
    let due = "rule 2, open jobs: 1 2\nlevels 1 0 0 0 0 0 0 0 0 0 0 spoken 0\n\
               tiles: 2 of 3\n  4/15/5\n  7, which is no key\n\
               operations: 1 of 3\n  sheet 7 kind 1 job 1 key 1073987589\njournal: 23 of 60\n\
               \x20 at 0: rule 2\n  at 4: open 1\n  at 8: sheeted 1 1 1 1073987589 7\n\
               \x20 at 20: cut";
    assert_eq!(console.answer(b"show"), due);
    console.answer(b"help");
    assert_eq!(console.session, before.session);
    assert_eq!(console.tables, before.tables);
}
