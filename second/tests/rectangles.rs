//! The list of a rectangle, the exact bounds of what is taken, and the order of the refusals.

use crate::common::*;
use second::address::Address;
use second::journal::{Reader, Reading, Record, Recorded};
use second::random::Random;
use second::rectangle::{Rectangle, Sweep, SWEEPS};
use second::reply::Refusal;
use second::rule::{Rule, RULES};
use second::tile::Tile;
use std::collections::{BTreeMap, BTreeSet};

fn rectangle(zoom: u8, columns: (i32, i32), rows: (i32, i32)) -> Rectangle {
    Rectangle {
        edition: 2,
        zoom,
        west: columns.0,
        east: columns.1,
        top: rows.0,
        bottom: rows.1,
    }
}

/// The same rectangle with its rows counted from the south.
fn from_south(place: Rectangle) -> Rectangle {
    let last = (1 << place.zoom) - 1;
    Rectangle {
        edition: 1,
        top: last - place.top,
        bottom: last - place.bottom,
        ..place
    }
}

/// 14, 5 or 13 by the words of the papers, with numbers that hold everything; none where none of
/// them is due.
fn due_refusal(place: Rectangle) -> Option<Refusal> {
    if place.edition != 1 && place.edition != 2 {
        return Some(Refusal::UnknownEdition);
    }
    let side = match place.zoom {
        4..=14 => 1i128 << place.zoom,
        _ => return Some(Refusal::OutsideRange),
    };
    let [west, east, top, bottom] =
        [place.west, place.east, place.top, place.bottom].map(i128::from);
    if !(0..side).contains(&top) || !(0..side).contains(&bottom) {
        return Some(Refusal::OutsideRange);
    }
    // The rows are turned before the rectangle is judged empty.
    let (north, south) = match place.edition {
        1 => (side - 1 - top, side - 1 - bottom),
        _ => (top, bottom),
    };
    let empty = east < west || south < north;
    let too_wide = east - west + 1 > side;
    let too_many = (east - west + 1) * (south - north + 1) > 256;
    Some(Refusal::WrongRectangle).filter(|_| empty || too_wide || too_many)
}

/// Edges of columns and rows, at both ends of 32 bits and round a level.
fn some_edges(random: &mut Random, side: i32) -> (i32, i32) {
    let first = random.pick(&[i32::MIN, i32::MAX, -1, 0, 1, side - 1, side, -side, 5]);
    let width = random.pick(&[-1, 0, 1, 2, 15, 16, 17, 255, 256, 257, side, side + 1]);
    match random.below(4) {
        0 => (first, random.pick(&[i32::MIN, i32::MAX, 0, -1, 5])),
        _ => (first, first.saturating_add(width - 1)),
    }
}

fn some_rectangle(random: &mut Random) -> Rectangle {
    let zoom = random.pick(&[3, 4, 4, 4, 5, 5, 8, 9, 14, 15, 255]);
    let side = 1 << u32::from(zoom).min(14);
    let columns = some_edges(random, side);
    let (one, other) = match random.below(3) {
        0 => some_edges(random, side),
        _ => (0, random.pick(&[0, 1, 7, 8, 15, 16]).min(side - 1)),
    };
    let edition = random.pick(&[1, 1, 1, 2, 2, 2, 0, 3, 255]);
    // Mostly the top row is the larger one from the south, and the smaller one from the north.
    let rows = if (edition == 1) == random.one_in(4) {
        (one, other)
    } else {
        (other, one)
    };
    Rectangle {
        edition,
        ..rectangle(zoom, columns, rows)
    }
}

#[test]
fn what_is_taken_is_exactly_what_the_papers_say() {
    let mut random = Random::seeded(21);
    let mut met: BTreeMap<(u8, u8), usize> = BTreeMap::new();
    for _ in 0..60_000 {
        let place = some_rectangle(&mut random);
        let refusal = place.tiles().err();
        assert_eq!(refusal, due_refusal(place), "{:?}", place);
        let number = refusal.map_or(0, |refusal| refusal.number());
        *met.entry((place.edition, number)).or_insert(0) += 1;
    }
    let known = [1, 2].into_iter();
    let often = known.flat_map(|edition| [0, 5, 13].map(|number| (edition, number)));
    for case in often.chain([(0, 14), (3, 14), (255, 14)]) {
        assert!(met.get(&case).copied().unwrap_or(0) > 1000, "{:?}", met);
    }
}

#[test]
fn the_list_has_every_tile_once_west_to_east_and_top_to_bottom() {
    let mut random = Random::seeded(22);
    let mut across_the_seam = 0;
    for _ in 0..3000 {
        let zoom = random.pick(&[4u8, 4, 5, 6]);
        let west = random.pick(&[i32::MIN, i32::MAX - 20, -1, -20, 0, 15, 17, 1000]);
        let width = random.between(1, 16) as i32;
        let (top, height) = (random.between(0, 8) as i32, random.between(1, 8) as i32);
        let place = rectangle(zoom, (west, west + width - 1), (top, top + height - 1));
        let list = place.tiles().expect("a rectangle that is taken");
        assert_eq!(from_south(place).tiles().as_ref(), Ok(&list));
        // Tile i is in column west + i / height and row top + i % height.
        let due = (0..width * height)
            .map(|i| Tile::at(zoom, west + i / height, top + i % height).expect("a tile"));
        assert!(due.eq(list.iter().copied()));
        let different: BTreeSet<Tile> = list.iter().copied().collect();
        assert_eq!(different.len(), list.len());
        let columns: BTreeSet<u32> = list.iter().map(|tile| tile.column()).collect();
        across_the_seam += usize::from(list[0].column() > *columns.iter().next().expect("one"));
    }
    assert!(across_the_seam > 100);
}

#[test]
fn a_rectangle_as_wide_as_the_level_lists_each_column_once() {
    for (zoom, height) in [(4, 16), (5, 8), (6, 4), (7, 2), (8, 1)] {
        let side = 1 << zoom;
        for west in [i32::MIN, -1, 0, 7, i32::MAX - side + 1] {
            let place = rectangle(zoom, (west, west + (side - 1)), (0, height - 1));
            let list = place.tiles().expect("a rectangle that is taken");
            let different: BTreeSet<Tile> = list.into_iter().collect();
            assert_eq!(different.len(), 256);
            let wider = rectangle(zoom, (west.min(0), west.min(0) + side), (0, 0));
            assert_eq!(wider.tiles(), Err(Refusal::WrongRectangle));
        }
    }
}

/// The records of a journal, without the rule record.
fn records(journal: &[u8]) -> Vec<Record> {
    let mut reader = Reader::at(journal, 0);
    let mut records = Vec::new();
    while let Reading::Whole(record) = reader.read() {
        records.push(record);
    }
    records.retain(|record| *record != Record::JobAsOne);
    records
}

#[test]
fn one_record_a_tile_in_the_order_of_the_list() {
    for rule in RULES {
        for sweep in SWEEPS {
            let mut bench = Bench::with_places_by(rule, 100, &[A]);
            let place = rectangle(4, (14, 17), (4, 6));
            assert_eq!(bench.sweep(2, sweep, place), DONE);
            let list = place.tiles().expect("a rectangle that is taken");
            let written = records(bench.journal());
            let due = list.iter().map(|tile| {
                Record::Operation(Recorded {
                    job: 2,
                    procedure: sweep.procedure(),
                    ok: true,
                    tile: *tile,
                    sheet: Some(usual(2).sheet),
                })
            });
            assert!(due.eq(written[2..].iter().copied()));
            let due_tiles = match sweep {
                Sweep::Insert => 12,
                Sweep::Delete => 0,
            };
            assert_eq!(bench.keys().len(), due_tiles);
            assert_eq!(bench.entries().len(), 12);
        }
    }
}

#[test]
fn the_refusals_in_their_order() {
    let none = rectangle(4, (1, 0), (16, 15));
    let unknown = Rectangle { edition: 0, ..none };
    let empty = rectangle(4, (1, 0), (5, 5));
    let good = rectangle(4, (-1, 0), (5, 5));
    for rule in RULES {
        let mut bench = Bench::started_by(rule, (1, 1, 12), &[A]);
        bench.tables.tiles[0] += 16;
        assert_eq!(bench.sweep(64, Sweep::Insert, unknown), refused(1));
        bench.tables.tiles[0] -= 16;
        assert_eq!(bench.sweep(64, Sweep::Insert, unknown), refused(2));
        assert_eq!(bench.sweep(63, Sweep::Insert, unknown), refused(3));
        assert_eq!(bench.open(63), DONE);
        assert_eq!(bench.sweep(63, Sweep::Insert, unknown), refused(14));
        assert_eq!(bench.sweep(63, Sweep::Insert, none), refused(5));
        assert_eq!(bench.sweep(63, Sweep::Insert, empty), refused(13));
        assert_eq!(bench.sweep(63, Sweep::Insert, good), refused(7));
        assert_eq!(bench.sweep(63, Sweep::Delete, good), refused(8));
        bench.tables.operations.push(0);
        assert_eq!(bench.sweep(63, Sweep::Delete, good), refused(9));
    }
}

#[test]
fn the_first_held_tile_of_the_list_names_the_holder() {
    for rule in RULES {
        let mut bench = Bench::with_places_by(rule, 1, &[A]);
        let other = Address { column: 14, ..A };
        assert_eq!(bench.open(3), DONE);
        assert_eq!(bench.del(2, A), OK);
        let both = rectangle(4, (13, 15), (5, 5));
        // The second tile has no place, but the third is held.
        assert_eq!(bench.sweep(3, Sweep::Insert, both), held(2));
        bench.tables.tiles.push(0);
        assert_eq!(bench.ins(1, other), OK);
        // Job 1 came later, but its tile stands before the other in the list.
        let before = bench.clone();
        assert_eq!(bench.sweep(3, Sweep::Delete, both), held(1));
        assert_eq!(bench, before);
    }
}

#[test]
fn a_job_sweeps_over_its_own_tiles_by_rule_2() {
    let place = rectangle(4, (14, 17), (4, 6));
    let mut bench = Bench::with_places_by(Rule::JobAsOne, 12, &[]);
    for sweep in [Sweep::Insert, Sweep::Delete, Sweep::Insert] {
        assert_eq!(bench.sweep(1, sweep, place), DONE);
    }
    assert_eq!(bench.keys().len(), 12);
    assert_eq!(bench.abort(1), DONE);
    assert_eq!(bench.keys().len(), 0);
    let mut bench = Bench::with_places_by(Rule::EachAlone, 12, &[]);
    assert_eq!(bench.sweep(1, Sweep::Insert, place), DONE);
    assert_eq!(bench.sweep(1, Sweep::Delete, place), held(1));
}
