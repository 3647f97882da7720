//! Rows from the south: the two editions of an address, by the address step.

use crate::common::turns::{columns_of, LEVELS};
use second::address::{address_step, Address};
use second::random::Random;
use std::collections::BTreeSet;

const FROM_SOUTH: u8 = 1;
const FROM_NORTH: u8 = 2;

/// The key that the address step answers, or the number of its refusal.
fn key(edition: u8, zoom: u8, column: i32, row: i32) -> Result<u32, u8> {
    let reached = address_step(Address {
        edition,
        zoom,
        column,
        row,
    });
    let key = reached.map(|reached| reached.tile.key());
    key.map_err(|refusal| refusal.number())
}

/// The row that a key holds.
fn row_of(edition: u8, zoom: u8, row: i32) -> i32 {
    let key = key(edition, zoom, 0, row).expect("a row of the level");
    (key % 16_384) as i32
}

fn rows_of(zoom: u8) -> i32 {
    columns_of(zoom) as i32
}

/// Walks over all rows of a level, from the southernmost on northward.
#[test]
fn each_step_north_is_one_row_more_from_the_south_and_one_less_from_the_north() {
    for zoom in LEVELS {
        let mut from_north = rows_of(zoom) - 1;
        for from_south in 0..rows_of(zoom) {
            assert_eq!(row_of(FROM_SOUTH, zoom, from_south), from_north);
            assert_eq!(row_of(FROM_NORTH, zoom, from_north), from_north);
            from_north -= 1;
        }
        assert_eq!(from_north, -1);
    }
}

#[test]
fn the_cases_of_the_scope_paper_from_the_south() {
    assert_eq!(key(FROM_SOUTH, 4, -1, 10), Ok(1_073_987_589));
    assert_eq!(key(FROM_SOUTH, 4, 16, 15), Ok(1_073_741_824));
    assert_eq!(key(FROM_SOUTH, 14, -1, 0), Ok(4_026_531_839));
    assert_eq!(key(FROM_SOUTH, 4, 0, 16), Err(5));
    assert_eq!(key(FROM_SOUTH, 3, 0, 0), Err(5));
    assert_eq!(key(FROM_SOUTH, 15, 0, 0), Err(5));
}

#[test]
fn a_row_turned_twice_is_itself() {
    for zoom in LEVELS {
        for row in 0..rows_of(zoom) {
            let turned = row_of(FROM_SOUTH, zoom, row);
            assert_eq!(row_of(FROM_SOUTH, zoom, turned), row);
        }
    }
}

/// Whatever key an address of one edition has, the address with its row turned has in the other.
#[test]
fn the_two_editions_reach_the_same_keys() {
    let mut random = Random::seeded(51);
    for zoom in LEVELS {
        let (mut by_south, mut by_north) = (BTreeSet::new(), BTreeSet::new());
        for row in 0..rows_of(zoom) {
            let column = random.word() as i32;
            let turned = rows_of(zoom) - 1 - row;
            let south = key(FROM_SOUTH, zoom, column, row);
            assert!(south.is_ok());
            assert_eq!(south, key(FROM_NORTH, zoom, column, turned));
            by_south.insert(key(FROM_SOUTH, zoom, 7, row));
            by_north.insert(key(FROM_NORTH, zoom, 7, row));
        }
        assert_eq!(by_south.len(), rows_of(zoom) as usize);
        assert_eq!(by_south, by_north);
    }
}

/// Rows about the ends of the level and of 32 bits.
fn rows_near_edges(zoom: u8) -> Vec<i32> {
    let rows = rows_of(zoom);
    let round = |edge: i32| [edge - 2, edge - 1, edge, edge + 1, edge + 2];
    let near = [0, rows / 2, rows, 16_384, -rows, 65_536];
    let far = [i32::MIN, i32::MIN + 1, i32::MIN + rows, i32::MAX - rows];
    let far = far.into_iter().chain([i32::MAX - 1, i32::MAX]);
    near.into_iter().flat_map(round).chain(far).collect()
}

/// The number that an address is refused by, by the words of the papers; 0 for none.
fn due_number(edition: u8, zoom: u8, row: i32) -> u8 {
    let known = edition == 1 || edition == 2;
    let rows = if LEVELS.contains(&zoom) {
        columns_of(zoom)
    } else {
        0
    };
    match (known, (0..rows).contains(&i128::from(row))) {
        (false, _) => 14,
        (true, false) => 5,
        (true, true) => 0,
    }
}

#[test]
fn fourteen_and_then_five_for_every_edition_and_every_zoom() {
    let mut met = [0; 15];
    for edition in 0..=255 {
        for zoom in 0..=255 {
            for row in [i32::MIN, -1, 0, 15, 16, 16_383, 16_384, i32::MAX] {
                let due = due_number(edition, zoom, row);
                let number = key(edition, zoom, -1, row).err().unwrap_or(0);
                assert_eq!(number, due, "{} {} {}", edition, zoom, row);
                met[usize::from(due)] += 1;
            }
        }
    }
    assert!(
        met[0] > 50 && met[5] > 3000 && met[14] > 500_000,
        "{:?}",
        met
    );
}

#[test]
fn rows_have_the_same_range_in_both_editions() {
    for zoom in LEVELS {
        for row in rows_near_edges(zoom) {
            for edition in [FROM_SOUTH, FROM_NORTH] {
                let number = key(edition, zoom, 5, row).err().unwrap_or(0);
                let due = due_number(edition, zoom, row);
                assert_eq!(number, due, "{} {} {}", edition, zoom, row);
            }
        }
    }
}
