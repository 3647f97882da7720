//! Rectangles: each number in its place, both sides of every bound, and what is written.

use crate::common::*;
use baseline::entry::{key, kind, origin};
use baseline::rectangle::{Change, Rectangle, MOST_LISTED};
use baseline::reply::Refusal;
use baseline::rule::Rule;
use baseline::tile::{Address, FROM_NORTH, FROM_SOUTH};
use baseline::workload::packs::IDLE_JOB;
use baseline::workload::rectangles::{level_of, roomy_pack};
use baseline::workload::world::Call;

const LAST: i32 = i32::MAX;
const FIRST: i32 = i32::MIN;

/// Two tiles across the seam, of which the eastern is C; A is the western one of another row.
const SEAM: Rectangle = rectangle(4, -1, 0, 0, 0);

const fn rectangle(zoom: u8, west: i32, east: i32, top: i32, bottom: i32) -> Rectangle {
    Rectangle {
        edition: FROM_NORTH,
        zoom,
        west,
        east,
        top,
        bottom,
    }
}

fn put(case: &mut Case, job: u8, change: Change, rectangle: Rectangle) -> Answer {
    case.call(Call::Rectangle(of_job(job), change, rectangle))
}

fn number_on_ample(rectangle: Rectangle) -> i64 {
    let told = Rule::ALL.map(|rule| {
        let mut case = Case::by(rule, 4_096, &[]);
        let reply = put(&mut case, 1, Change::Insert, rectangle);
        let tiles = if reply.is_ok() {
            rectangle.addresses().count()
        } else {
            0
        };
        assert_eq!(case.world.session.tiles, tiles);
        numbers_of(reply)
    });
    assert_eq!(told[0], told[1]);
    told[0][0]
}

#[test]
fn numbers_in_order() {
    // everything is wrong at first, and each step mends what was refused
    for rule in Rule::ALL {
        let mut case = Case::by(rule, 1, &[C]);
        assert_eq!(case.delete(1, C), OK);
        case.world.operations.truncate(2);
        case.world.journal.truncate(case.world.session.journal + 8);
        case.world.tiles[0] = 7;
        let told =
            |case: &mut Case, job, rectangle| numbers_of(put(case, job, Change::Insert, rectangle));
        let of_edition = |edition, of| Rectangle { edition, ..of };
        let nowhere = of_edition(3, rectangle(3, 0, -1, 1, 0));
        assert_eq!(told(&mut case, 64, nowhere), [1, 0, 0]);
        case.world.tiles[0] = 0;
        assert_eq!(told(&mut case, 64, nowhere), [2, 0, 0]);
        assert_eq!(told(&mut case, 3, nowhere), [3, 0, 0]);
        assert_eq!(told(&mut case, 2, nowhere), [14, 0, 0]);
        assert_eq!(
            told(&mut case, 2, of_edition(FROM_SOUTH, nowhere)),
            [5, 0, 0]
        );
        assert_eq!(told(&mut case, 2, rectangle(4, 0, -1, 1, 0)), [13, 0, 0]);
        assert_eq!(told(&mut case, 2, SEAM), [6, 0, 1]);
        let free = rectangle(4, -1, 0, 1, 1);
        assert_eq!(told(&mut case, 2, free), [7, 0, 0]);
        case.world.tiles.extend([0; 2]);
        assert_eq!(told(&mut case, 2, free), [8, 0, 0]);
        case.world.operations.push(0);
        assert_eq!(told(&mut case, 2, free), [9, 0, 0]);
        case.world.journal.extend([0; 24]);
        assert_eq!(told(&mut case, 2, free), [0, 0, 0]);
    }
}

#[test]
fn out_of_range_comes_before_misshapen() {
    for zoom in [3, 15, 0, 255] {
        assert_eq!(number_on_ample(rectangle(zoom, 0, 0, 0, 0)), 5);
        assert_eq!(number_on_ample(rectangle(zoom, 1, 0, 1, 0)), 5);
    }
    for (top, bottom) in [
        (-1, 0),
        (15, 16),
        (0, LAST),
        (FIRST, LAST),
        (16, 15),
        (0, -1),
    ] {
        assert_eq!(number_on_ample(rectangle(4, 0, 0, top, bottom)), 5);
        assert_eq!(number_on_ample(rectangle(4, FIRST, LAST, top, bottom)), 5);
    }
    assert_eq!(number_on_ample(rectangle(4, 0, 0, 15, 15)), 0);
}

#[test]
fn empty_or_wider_than_the_level() {
    for (west, east, number) in [
        (1, 0, 13),
        (0, 0, 0),
        (-8, 7, 0),
        (-8, 8, 13),
        (FIRST, FIRST + 15, 0),
        (FIRST, FIRST + 16, 13),
        (LAST - 15, LAST, 0),
        (LAST - 16, LAST, 13),
        // the width is 2^32, and 0 in 32 bits; and then 1 and less than 1
        (FIRST, LAST, 13),
        (LAST, FIRST, 13),
        (FIRST + 1, LAST, 13),
        (LAST, FIRST + 1, 13),
    ] {
        assert_eq!(number_on_ample(rectangle(4, west, east, 3, 3)), number);
    }
    for (top, bottom, number) in [(1, 0, 13), (15, 14, 13), (0, 15, 0)] {
        assert_eq!(number_on_ample(rectangle(4, 0, 15, top, bottom)), number);
    }
}

#[test]
fn at_most_256_tiles() {
    for (width, height, number) in [
        (1, 256, 0),
        (1, 257, 13),
        (256, 1, 0),
        (257, 1, 13),
        (16, 16, 0),
        (2, 128, 0),
        (2, 129, 13),
        (15, 17, 0),
        // 2^32 tiles, and more
        (1 << 18, 1 << 14, 13),
        (1 << 30, 1 << 14, 13),
    ] {
        assert_eq!(
            number_on_ample(rectangle(14, -1, width - 2, 0, height - 1)),
            number
        );
    }
}

#[test]
fn the_list_goes_from_west_to_east_and_down_each_column() {
    let mut case = Case::ample(&[C]);
    case.world.journal.fill(0xEE);
    let before = case.world.session.journal;
    let across = rectangle(4, 15, 16, 0, 1);
    assert_eq!(put(&mut case, 2, Change::Insert, across), DONE);
    let keys: [u32; 4] = [0x4003_C000, 0x4003_C001, 0x4000_0000, 0x4000_0001];
    let entries = &case.world.operations[..case.world.session.operations];
    assert!(entries
        .iter()
        .map(|&e| (origin(e), key(e)))
        .eq(keys.map(|key| (of_job(2), key))));
    let kinds: Vec<u64> = entries.iter().map(|&e| kind(e)).collect();
    assert_eq!(kinds, [1, 1, 2, 1]);
    let records =
        keys.map(|key| [&[6, 0, 9, 2, 1, 1][..], &key.to_be_bytes(), &[0xFF, 2]].concat());
    let (used, behind) = case.world.journal.split_at(case.world.session.journal);
    assert_eq!(used[before..], records.concat());
    assert!(behind.iter().all(|&byte| byte == 0xEE));
    assert_eq!(case.world.tiles[..4], [keys[2], keys[3], keys[0], keys[1]]);
    assert_eq!(case.abort(2), DONE);
    assert_eq!(case.world.tiles[..2], [keys[2], 0]);
}

#[test]
fn every_tile_of_a_level_once() {
    for west in [0, -7, FIRST, LAST - 15] {
        let whole = Rectangle {
            west,
            east: west + 15,
            ..level_of(4)
        };
        let mut case = Case::ample(&[]);
        assert_eq!(put(&mut case, 1, Change::Insert, whole), DONE);
        assert!(level_of(4).addresses().all(|address| case.has(address)));
        assert_eq!(case.world.session.tiles, MOST_LISTED);
    }
}

#[test]
fn the_holder_of_the_first_held_tile_is_named() {
    let tile = |column| Address { column, ..C };
    let column = |top, bottom| rectangle(4, -1, 1, top, bottom);
    for rule in Rule::ALL {
        let mut case = Case::by(rule, 4_096, &[]);
        assert_eq!(case.call(Call::Open(3)), DONE);
        // the entry on the later tile is the earlier one
        assert_eq!(case.insert(2, tile(1)), OK);
        assert_eq!(case.insert(1, tile(0)), OK);
        assert_eq!(put(&mut case, 3, Change::Delete, column(0, 0)), held(1));
        assert_eq!(put(&mut case, 3, Change::Insert, column(0, 15)), held(1));
        assert_eq!(put(&mut case, 3, Change::Insert, column(1, 15)), DONE);
        let own = match rule {
            Rule::Alone => 1,
            Rule::Together => 2,
        };
        assert_eq!(put(&mut case, 1, Change::Insert, column(0, 0)), held(own));
    }
}

#[test]
fn own_deleted_tiles_need_no_further_place() {
    let mut case = Case::by(Rule::Together, 3, &[C]);
    assert_eq!(put(&mut case, 1, Change::Delete, SEAM), DONE);
    assert_eq!(case.insert(2, B), OK);
    // C has its place, its western neighbour gets the last one
    assert_eq!(put(&mut case, 1, Change::Insert, SEAM), DONE);
    assert_eq!(put(&mut case, 1, Change::Delete, SEAM), DONE);
    assert_eq!(put(&mut case, 1, Change::Insert, SEAM), DONE);
    let wider = Rectangle { east: 1, ..SEAM };
    assert_eq!(
        put(&mut case, 1, Change::Insert, wider),
        Err(Refusal::NoTileRoom)
    );
    assert_eq!(case.abort(1), DONE);
    assert!(case.has(C) && case.has(B) && case.world.session.tiles == 2);
}

#[test]
fn rooms_are_exact_on_full_tables() {
    for rule in Rule::ALL {
        for (change, without_tile_place) in [(Change::Insert, 7), (Change::Delete, 0)] {
            let (mut pack, rectangle) = roomy_pack(rule, change, 3);
            assert!(is_sound(&mut pack));
            let told = |lacking| {
                let world = pack.clone().without(lacking);
                let reply = put(&mut Case { world }, IDLE_JOB, change, rectangle);
                numbers_of(reply)[0]
            };
            assert_eq!(told([0, 0, 0]), 0);
            assert_eq!(told([1, 0, 0]), without_tile_place);
            assert_eq!(told([0, 1, 0]), 8);
            assert_eq!(told([0, 0, 1]), 9);
        }
    }
}
