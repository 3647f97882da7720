//! Addresses and keys, by the numbers of the scope paper.

use second::address::{address_step, Address};
use second::random::Random;
use second::soundness::is_key;
use second::tile::Tile;

fn key(zoom: u8, column: i32, row: i32) -> Result<u32, u8> {
    match address_step(Address {
        edition: 2,
        zoom,
        column,
        row,
    }) {
        Ok(reached) => Ok(reached.tile.key()),
        Err(refusal) => Err(refusal.number()),
    }
}

#[test]
fn the_table_of_addresses() {
    assert_eq!(key(4, -1, 5), Ok(1_073_987_589));
    assert_eq!(key(4, 16, 0), Ok(1_073_741_824));
    assert_eq!(key(14, -1, 16_383), Ok(4_026_531_839));
    assert_eq!(key(4, 0, 16), Err(5));
    assert_eq!(key(3, 0, 0), Err(5));
    assert_eq!(key(15, 0, 0), Err(5));
}

#[test]
fn every_column_is_taken_round_the_world() {
    for zoom in 4..=14u8 {
        let side = 1i32 << zoom;
        let last = key(zoom, side - 1, 0);
        let first = key(zoom, 0, 0);
        assert!(first.is_ok() && last.is_ok());
        assert_eq!(key(zoom, -1, 0), last);
        assert_eq!(key(zoom, i32::MAX, 0), last);
        assert_eq!(key(zoom, i32::MIN, 0), first);
        assert_eq!(key(zoom, side, 0), first);
        assert_eq!(key(zoom, -side, 0), first);
        assert_eq!(key(zoom, -side - 1, 0), last);
        assert_eq!(key(zoom, i32::MIN + 1, 0), key(zoom, 1, 0));
    }
}

#[test]
fn rows_and_zooms_have_their_range() {
    for zoom in 0..=255u8 {
        let served = (4..=14).contains(&zoom);
        let side = if served { 1i32 << zoom } else { 1 };
        for row in [i32::MIN, -1, 0, side - 1, side, i32::MAX] {
            let fits = served && row >= 0 && row < side;
            assert_eq!(key(zoom, 0, row).is_ok(), fits, "zoom {} row {}", zoom, row);
        }
    }
}

#[test]
fn a_key_is_valid_only_if_it_comes_from_an_address() {
    let mut random = Random::seeded(1);
    for _ in 0..20_000 {
        let number = random.word();
        assert_eq!(Tile::from_key(number).is_some(), is_key(number));
    }
    for number in [0, 1, 1_073_741_823, 4_026_531_840, u32::MAX] {
        assert_eq!(Tile::from_key(number), None);
    }
    // At zoom 4 the first row and the first column that are not there.
    assert_eq!(Tile::from_key(1_073_741_824 + 16), None);
    assert_eq!(Tile::from_key(1_073_741_824 + 16 * 16_384), None);
}

#[test]
fn the_order_of_tiles_is_the_order_of_their_keys() {
    let mut random = Random::seeded(2);
    for _ in 0..20_000 {
        let two = (random.word(), random.word());
        if let (Some(one), Some(other)) = (Tile::from_key(two.0), Tile::from_key(two.1)) {
            assert_eq!((one.key(), other.key()), two);
            assert_eq!(one.cmp(&other), two.0.cmp(&two.1));
        }
    }
}
