//! The two forms of operation records: an old one, of tag 2, is taken just as one of tag 6 with
//! sheet 0, and a sheet decides nothing.

use crate::common::tables::{damage, some_bench};
use crate::common::{tile, A, B};
use second::journal::{Reader, Reading, Record, Recorded};
use second::journals::{journal, KINDS};
use second::operation::PROCEDURES;
use second::printed::printed_replay;
use second::random::Random;
use second::replay::{replay, take, Replayed};
use second::state::State;

/// What becomes of an operation's sheet.
type Form = fn(&mut Random, Option<u16>) -> Option<u16>;

/// Gives each whole operation record another form, and keeps every other byte. Gives also where
/// the records, and the bytes behind them, begin before and after.
fn respelled(
    journal: &[u8],
    mut form: impl FnMut(Option<u16>) -> Option<u16>,
) -> (Vec<u8>, Vec<(usize, usize)>) {
    let mut reader = Reader::at(journal, 0);
    let (mut other, mut places) = (Vec::new(), vec![(0, 0)]);
    while let Reading::Whole(mut record) = reader.read() {
        if let Record::Operation(recorded) = &mut record {
            recorded.sheet = form(recorded.sheet);
        }
        other.extend(record.bytes());
        places.push((reader.place(), other.len()));
    }
    other.extend(&journal[reader.place()..]);
    (other, places)
}

fn replayed(journal: &[u8], places: usize, operations: usize) -> (Replayed, Vec<u32>) {
    let (mut tiles, mut entries) = (vec![0; places], vec![0; operations]);
    let outcome = replay(journal, &mut tiles, 0, &mut entries);
    (outcome, tiles)
}

/// Compares a journal with another spelling of it; gives the number at which both stop.
fn compare(journal: &[u8], other: &[u8], places: &[(usize, usize)]) -> u8 {
    let mut number = 0;
    for (tiles, operations) in [(1, 2), (3, 5), (4096, 1024)] {
        let (outcome, left) = replayed(journal, tiles, operations);
        let (there, left_there) = replayed(other, tiles, operations);
        let place = (outcome.offset as usize, there.offset as usize);
        assert!(places.contains(&place), "{:?}", place);
        let offset = outcome.offset;
        assert_eq!((Replayed { offset, ..there }, left_there), (outcome, left));
        number = outcome.reply;
    }
    number
}

#[test]
fn the_forms_of_its_records_do_not_matter_to_a_replay() {
    let mut random = Random::seeded(71);
    let mut met = [0; 13];
    for seed in 0..6 * KINDS {
        let bytes = journal(seed);
        let forms: [Form; 4] = [
            |_, sheet| Some(sheet.unwrap_or(0)),
            |_, _| None,
            |random, _| Some(random.word() as u16),
            |random, sheet| sheet.filter(|_| random.one_in(2)),
        ];
        for form in forms {
            let (other, places) = respelled(&bytes, |sheet| form(&mut random, sheet));
            if bytes.len().max(other.len()) <= 65_536 {
                met[usize::from(compare(&bytes, &other, &places))] += 1;
            }
        }
    }
    for number in [0, 10, 11, 12] {
        assert!(met[number] > 10, "{:?}", met);
    }
}

#[test]
fn an_old_record_is_taken_just_as_one_with_sheet_0() {
    let mut random = Random::seeded(72);
    let (mut taken, mut refused) = (0, 0);
    for _ in 0..40_000 {
        let mut bench = some_bench(&mut random);
        damage(&mut random, &mut bench);
        let state = match State::decode(&bench.session, &bench.tables) {
            None => continue,
            Some(state) => state,
        };
        let old = Recorded {
            job: random.pick(&[0, 1, 2]),
            procedure: random.pick(&PROCEDURES),
            ok: !random.one_in(4),
            tile: tile(random.pick(&[A, A, B])),
            sheet: None,
        };
        let sheeted = Recorded {
            sheet: Some(0),
            ..old
        };
        let (mut one, mut other) = (state.clone(), state);
        let result = take(&mut one, Record::Operation(old));
        assert_eq!(take(&mut other, Record::Operation(sheeted)), result);
        assert_eq!(one, other);
        match result {
            Ok(()) => taken += 1,
            Err(_) => refused += 1,
        }
    }
    assert!(taken > 1000 && refused > 1000, "{} {}", taken, refused);
}

/// The scope paper's example with its two operations for sheets 258 and 0.
#[rustfmt::skip]
const SHEETED_EXAMPLE: [u8; 36] = [
    0x01, 0x00, 0x01, 0x03, 0x06, 0x00, 0x09, 0x03, 0x01, 0x01, 0x40, 0x03, 0xC0, 0x05, 0x01, 0x02,
    0x03, 0x00, 0x01, 0x03,
    0x01, 0x00, 0x01, 0x04, 0x06, 0x00, 0x09, 0x04, 0x02, 0x01, 0x40, 0x03, 0xC0, 0x05, 0x00, 0x00,
];

#[test]
fn the_example_with_sheets_prints_the_same_tiles() {
    let printed = |length| printed_replay(&SHEETED_EXAMPLE[..length]);
    assert_eq!(printed(36), "tiles 1 undone 1 stopped 0 at 36\n4 15 5\n");
    for length in 24..36 {
        let text = "tiles 1 undone 1 stopped 0 at 24\n4 15 5\n";
        assert_eq!(printed(length), text);
    }
    for length in 16..20 {
        assert_eq!(printed(length), "tiles 0 undone 1 stopped 0 at 16\n");
    }
    assert_eq!(printed(15), "tiles 0 undone 1 stopped 0 at 4\n");
}
