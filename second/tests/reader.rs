//! The reader: whole, end, cut and malformed by the exact rule.

use crate::common::{tile, A};
use second::journal::{Reader, Reading, Record, Recorded};
use second::operation::{Procedure, PROCEDURES};
use second::random::Random;

fn read(journal: &[u8]) -> Reading {
    read_at(journal, 0)
}

fn read_at(journal: &[u8], place: usize) -> Reading {
    let mut reader = Reader::at(journal, place);
    let reading = reader.read();
    let moved = match reading {
        Reading::Whole(record) => record.bytes().len(),
        Reading::End | Reading::Cut | Reading::Malformed => 0,
    };
    assert_eq!(reader.place(), place + moved);
    reading
}

fn all_records() -> Vec<Record> {
    let mut records = vec![Record::JobAsOne];
    for job in [0, 3, 63] {
        records.extend([Record::Open(job), Record::Commit(job), Record::Abort(job)]);
        for sheet in [None, Some(0), Some(1), Some(256), Some(65_535)] {
            records.extend(PROCEDURES.map(|procedure| {
                Record::Operation(Recorded {
                    job,
                    procedure,
                    ok: true,
                    tile: tile(A),
                    sheet,
                })
            }));
        }
    }
    records
}

#[test]
fn records_are_read_as_they_were_written() {
    for record in all_records() {
        assert_eq!(read(&record.bytes()), Reading::Whole(record));
    }
    assert_eq!(Record::Open(3).bytes(), [1, 0, 1, 3]);
    assert_eq!(Record::JobAsOne.bytes(), [5, 0, 1, 2]);
}

#[test]
fn a_sheet_stands_behind_the_key_high_byte_first() {
    let inserted = |sheet| {
        Record::Operation(Recorded {
            job: 3,
            procedure: Procedure::Insert,
            ok: true,
            tile: tile(A),
            sheet,
        })
    };
    let old = [2, 0, 7, 3, 1, 1, 0x40, 0x03, 0xC0, 0x05];
    let sheeted = [6, 0, 9, 3, 1, 1, 0x40, 0x03, 0xC0, 0x05, 0x01, 0x02];
    assert_eq!(inserted(None).bytes(), old);
    assert_eq!(inserted(Some(0x0102)).bytes(), sheeted);
    assert_eq!(read(&old), Reading::Whole(inserted(None)));
    for high in 0..=255 {
        for low in 0..=255 {
            let mut bytes = sheeted;
            bytes[10..].copy_from_slice(&[high, low]);
            let sheet = 256 * u16::from(high) + u16::from(low);
            assert_eq!(read(&bytes), Reading::Whole(inserted(Some(sheet))));
        }
    }
}

#[test]
fn every_prefix_is_cut() {
    for record in all_records() {
        let bytes = record.bytes();
        for length in 1..bytes.len() {
            assert_eq!(read(&bytes[..length]), Reading::Cut);
        }
        assert_eq!(read(&[]), Reading::End);
    }
}

#[test]
fn the_field_of_a_cut_record_is_not_looked_at() {
    for (head, length) in [([2, 0, 7], 7), ([6, 0, 9], 9)] {
        let whole = [&head[..], &vec![255; length]].concat();
        assert_eq!(read(&whole[..whole.len() - 1]), Reading::Cut);
        assert_eq!(read(&whole), Reading::Malformed);
    }
}

#[test]
fn the_length_bytes_that_are_there_must_be_right() {
    for (tag, length) in [(1, 1), (2, 7), (3, 1), (4, 1), (5, 1), (6, 9)] {
        assert_eq!(read(&[tag]), Reading::Cut);
        assert_eq!(read(&[tag, 0]), Reading::Cut);
        assert_eq!(read(&[tag, 1]), Reading::Malformed);
        for other in 0..=255 {
            let due = if other == length {
                Reading::Cut
            } else {
                Reading::Malformed
            };
            assert_eq!(read(&[tag, 0, other]), due);
        }
    }
    for tag in (7..=255).chain(Some(0)) {
        assert_eq!(read(&[tag]), Reading::Malformed);
    }
}

#[test]
fn wrong_fields_are_malformed() {
    for tag in [1, 3, 4] {
        assert_eq!(read(&[tag, 0, 1, 64]), Reading::Malformed);
        assert_eq!(read(&[tag, 0, 1, 255]), Reading::Malformed);
    }
    let old: &[u8] = &[2, 0, 7, 63, 3, 0, 0x40, 0x03, 0xC0, 0x05];
    let sheeted: &[u8] = &[6, 0, 9, 63, 3, 0, 0x40, 0x03, 0xC0, 0x05, 1, 2];
    let wrong = [
        (3, 64),
        (4, 0),
        (4, 1),
        (4, 2),
        (4, 4),
        (5, 2),
        (5, 255),
        (6, 0x3F),
        (8, 0xC1),
        (9, 0x10),
    ];
    for good in [old, sheeted] {
        assert!(matches!(read(good), Reading::Whole(_)));
        for (place, byte) in wrong {
            let mut bytes = good.to_vec();
            bytes[place] = byte;
            let reading = read(&bytes);
            assert_eq!(reading, Reading::Malformed, "{} {}", place, byte);
        }
    }
}

#[test]
fn a_rule_record_is_whole_at_the_beginning_and_with_field_2() {
    for field in 0..=255 {
        let due = if field == 2 {
            Reading::Whole(Record::JobAsOne)
        } else {
            Reading::Malformed
        };
        assert_eq!(read(&[5, 0, 1, field]), due);
        assert_eq!(
            read_at(&[1, 0, 1, 7, 5, 0, 1, field], 4),
            Reading::Malformed
        );
    }
}

#[test]
fn a_rule_record_anywhere_else_is_malformed_or_cut() {
    for before in 1..12 {
        let mut journal = vec![9; before];
        journal.extend([5, 0, 1, 2]);
        assert_eq!(read_at(&journal, before), Reading::Malformed);
        for length in 1..4 {
            assert_eq!(read_at(&journal[..before + length], before), Reading::Cut);
        }
        assert_eq!(read_at(&journal[..before], before), Reading::End);
    }
    assert_eq!(read_at(&[1, 0, 1, 7, 5, 1], 4), Reading::Malformed);
    assert_eq!(read_at(&[1, 0, 1, 7, 5, 0, 2], 4), Reading::Malformed);
}

#[test]
fn places_behind_the_last_byte_are_the_end() {
    let journal = Record::Open(1).bytes();
    for place in [4, 5, 1000, usize::MAX] {
        let mut reader = Reader::at(&journal, place);
        assert_eq!(reader.read(), Reading::End);
        assert_eq!(reader.place(), place);
    }
}

#[test]
fn whole_records_of_noise_are_written_back_the_same() {
    let mut random = Random::seeded(5);
    let mut whole = [0; 7];
    for _ in 0..20_000 {
        let mut bytes: Vec<u8> = (0..12).map(|_| random.byte() % 7).collect();
        bytes[1] = 0;
        bytes[2] = match bytes[0] {
            2 => 7,
            6 => 9,
            _ => 1,
        };
        bytes[6] = random.pick(&[0x40, 0x41, 0xE0]);
        if let Reading::Whole(record) = read(&bytes) {
            let written = record.bytes();
            assert_eq!(written, bytes[..written.len()]);
            whole[usize::from(bytes[0])] += 1;
        }
    }
    assert!(whole[1..].iter().all(|times| *times > 50), "{:?}", whole);
}
