//! Lines that are almost commands.

use crate::random::Random;
use crate::scripts::long_lines;
use crate::session::Tables;

#[derive(Clone, Copy)]
enum Type {
    Small,
    Sheet,
    Signed,
    Count,
    Entry,
}

use Type::{Count, Entry, Sheet, Signed, Small};

type Form = (&'static str, &'static [Type]);

const OPERATION: [Type; 6] = [Small, Sheet, Small, Small, Signed, Signed];
const RECTANGLE: [Type; 8] = [Small, Sheet, Small, Small, Signed, Signed, Signed, Signed];

const FORMS: [Form; 26] = [
    ("lend", &[Count, Count, Count]),
    ("start", &[Count, Small]),
    ("open", &[Small]),
    ("ins", &OPERATION),
    ("del", &OPERATION),
    ("mem", &OPERATION),
    ("insall", &RECTANGLE),
    ("delall", &RECTANGLE),
    ("commit", &[Small]),
    ("abort", &[Small]),
    ("address", &[Small, Small, Signed, Signed]),
    ("read", &[Count]),
    ("replay", &[Count, Count]),
    ("mend", &[Count, Count, Count]),
    ("levels", &[]),
    ("sum", &[]),
    ("tile", &[Count, Count]),
    ("entry", &[Count, Entry]),
    ("byte", &[Count, Small]),
    ("tiles", &[Count]),
    ("operations", &[Count]),
    ("journal", &[Count]),
    ("mark", &[Small, Small]),
    ("rule", &[Small]),
    ("level", &[Small, Count]),
    ("spoken", &[Count]),
];

const UNKNOWN_WORDS: [&str; 21] = [
    "Open", "OPEN", "opens", "ope", "insert", "quit", "summ", "su", "tile1", "-", "?", "memall",
    "insal", "delalls", "Help", "helps", "shows", "sho", "Levels", "leve", "speak",
];

/// The two commands whose answers are not compared are only written as something else.
const NO_PICTURES: [&str; 6] = ["help ", " help", "help 0", "show ", " show", "show 1"];

const NO_RULES: [u8; 4] = [0, 3, 4, 255];
const NO_ZOOMS: [u8; 6] = [0, 3, 15, 16, 127, 255];

const ODD_NUMBERS: [&str; 22] = [
    "",
    "-",
    "+",
    "+1",
    "-0",
    "--1",
    "00",
    "01",
    "-01",
    "007",
    "0x1",
    "1e3",
    "1.0",
    "1_0",
    "1,0",
    " 1",
    "a",
    "1a",
    "-1",
    "-2147483648",
    "\u{661}",
    "\u{0}",
];

/// A number just outside the type, or far outside.
fn beyond(random: &mut Random, kind: Type) -> &'static str {
    match kind {
        Small => random.pick(&["256", "257", "1000", "-1", "4294967296"]),
        Sheet => random.pick(&["65536", "65537", "131072", "-1", "4294967296"]),
        Signed => random.pick(&[
            "2147483648",
            "-2147483649",
            "4294967295",
            "4294967296",
            "-9223372036854775808",
            "18446744073709551616",
        ]),
        Count => random.pick(&["4294967296", "4294967297", "-1", "18446744073709551616"]),
        Entry => random.pick(&[
            "18446744073709551616",
            "18446744073709551617",
            "36893488147419103232",
            "-1",
        ]),
    }
}

/// A number of the type, small so that nothing large is lent by accident.
fn within(random: &mut Random, kind: Type) -> String {
    match kind {
        Small | Sheet | Count => random.below(4).to_string(),
        Signed => random.pick(&["0", "-1", "5", "15", "16"]).to_string(),
        Entry => random.number().to_string(),
    }
}

fn joined(word: &str, numbers: &[String]) -> String {
    let mut line = word.to_string();
    for number in numbers {
        line.push(' ');
        line.push_str(number);
    }
    line
}

/// A line to follow so many bytes of a script, where these tables are lent.
pub fn bad_line(random: &mut Random, tables: &Tables, written: usize) -> Vec<u8> {
    match random.below(18) {
        0..=1 => place_not_lent(random, tables).into_bytes(),
        2..=3 => odd_bytes(random),
        4..=9 => wrong_number(random).into_bytes(),
        10 => long_lines::about_a_buffer(random),
        11 => long_lines::to_the_end_of_a_buffer(random, written),
        _ => wrong_shape(random).into_bytes(),
    }
}

fn some_form(random: &mut Random) -> (&'static str, Vec<Type>, Vec<String>) {
    let (word, types) = random.pick(&FORMS);
    let numbers = types.iter().map(|kind| within(random, *kind)).collect();
    (word, types.to_vec(), numbers)
}

/// One number is out of its type, spelled in an odd way, or very long.
fn wrong_number(random: &mut Random) -> String {
    let (word, types, mut numbers) = some_form(random);
    let place = random.below(types.len());
    let wrong = match (types.get(place), random.below(8)) {
        (None, _) => "0".to_string(),
        (Some(Signed), 0..=1) => random.pick(&["-0", "-00", "-01", "-", "+0"]).to_string(),
        (Some(kind), 0..=3) => beyond(random, *kind).to_string(),
        (Some(_), 4) => "9".repeat(random.pick(&[11, 20, 21, 40, 300, 5000])),
        (Some(_), 5) => "0".repeat(random.between(2, 30)),
        (Some(_), _) => random.pick(&ODD_NUMBERS).to_string(),
    };
    match numbers.get_mut(place) {
        Some(number) => *number = wrong,
        None => numbers.push(wrong),
    }
    joined(word, &numbers)
}

/// The numbers may be right, but there are too few or too many, or what stands between is wrong.
fn wrong_shape(random: &mut Random) -> String {
    let (word, _, mut numbers) = some_form(random);
    let line = joined(word, &numbers);
    match random.below(14) {
        0 => String::new(),
        1 => joined(random.pick(&UNKNOWN_WORDS), &numbers),
        2 => {
            numbers.pop();
            joined(word, &numbers)
        }
        3 => line + " 0",
        4 => line + &" 1".repeat(random.between(2, 6)),
        5 => line.replacen(' ', "  ", 1),
        6 => " ".to_string() + &line,
        7 => line + " ",
        8 => line.replacen(' ', "\t", 1),
        9 => line + random.pick(&["\t", "\r", "\u{b}", "\u{0}", ".", ";", "#"]),
        10 => line.to_uppercase(),
        11 => " ".repeat(random.between(1, 5)),
        12 => random.pick(&NO_PICTURES).to_string(),
        _ => (line + " ").repeat(random.pick(&[2, 3, 100, 1000])),
    }
}

/// A byte that belongs into no line stands in it, or in the place of another.
fn odd_bytes(random: &mut Random) -> Vec<u8> {
    let (word, _, numbers) = some_form(random);
    let mut line = joined(word, &numbers).into_bytes();
    let place = random.below(line.len());
    let stray = match random.byte() {
        byte if byte == b'\n' || byte.is_ascii_digit() => b'\r',
        byte => byte,
    };
    let odd = random.pick(&[0xFF, 0x80, 0xC3, 0x00, 0x7F, b'\r', stray]);
    if random.one_in(2) {
        line.insert(place, odd);
    } else {
        line[place] = odd;
    }
    line
}

/// The first place that is not lent, or a job, bit, rule, zoom or length that the command does not
/// take.
fn place_not_lent(random: &mut Random, tables: &Tables) -> String {
    let (tiles, operations, journal) = (
        tables.tiles.len(),
        tables.operations.len(),
        tables.journal.len(),
    );
    match random.below(18) {
        0 => format!("tile {} 0", tiles),
        1 => format!("entry {} 0", operations),
        2 => format!("byte {} 0", journal),
        3 => "tile 4294967295 1".to_string(),
        4 => "entry 4294967295 1".to_string(),
        5 => "byte 4294967295 1".to_string(),
        6 => "mark 64 0".to_string(),
        7 => "mark 0 2".to_string(),
        8 => format!("replay 0 {}", journal + 1),
        13 => format!("mend 0 {} 10", journal + 1),
        14 => "mend 0 0 66001".to_string(),
        9 => "lend 5001 1 1".to_string(),
        10 => "lend 1 1201 1".to_string(),
        11 => format!("start 0 {}", random.pick(&NO_RULES)),
        12 => format!("rule {}", random.pick(&NO_RULES)),
        15..=16 => format!("level {} 1", random.pick(&NO_ZOOMS)),
        _ => "lend 1 1 66001".to_string(),
    }
}
