//! A rectangle is its operations, called one after another: on every sound session, by both rules.

use crate::common::tables::{damage, some_bench};
use crate::common::*;
use second::address::Address;
use second::journals::some_sheet;
use second::operation::Origin;
use second::random::Random;
use second::rectangle::{Rectangle, Sweep, SWEEPS};
use second::session::{MOST_JOURNAL, MOST_OPERATIONS, MOST_TILES};
use std::collections::BTreeMap;

const ROUNDS: usize = 60_000;

/// Few tiles round those that the tables have, and now and then one that is refused.
fn some_rectangle(random: &mut Random) -> Rectangle {
    let west = random.pick(&[-2, -1, 0, 6, 14, 15, i32::MIN, i32::MAX - 2]);
    let north = random.pick(&[5, 5, 5, 4, 3, 15]);
    let south = north + random.pick(&[0, 0, 0, 1, 2]);
    let (edition, top, bottom) = match random.below(12) {
        0..=5 => (1, 15 - north, 15 - south),
        6 => (random.pick(&[0, 3, 255]), north, south),
        _ => (2, north, south),
    };
    Rectangle {
        edition,
        zoom: random.pick(&[4, 4, 4, 4, 4, 4, 4, 3, 5]),
        west,
        east: west.saturating_add(random.pick(&[0, 0, 1, 2, -1])),
        top,
        bottom,
    }
}

/// The addresses of a rectangle in the order of its list.
fn addresses(place: Rectangle) -> Vec<Address> {
    let rows: Vec<i32> = match place.edition {
        1 => (place.bottom..=place.top).rev().collect(),
        _ => (place.top..=place.bottom).collect(),
    };
    let columns = place.west..=place.east;
    let list = columns.flat_map(|column| {
        rows.iter().map(move |row| Address {
            edition: place.edition,
            zoom: place.zoom,
            column,
            row: *row,
        })
    });
    list.collect()
}

/// What the operations are told, up to the first that is refused.
fn one_by_one(bench: &mut Bench, origin: Origin, sweep: Sweep, place: Rectangle) -> Vec<Told> {
    let mut replies = Vec::new();
    for address in addresses(place) {
        let reply = bench.operate_for(origin, sweep.procedure(), address);
        replies.push(reply);
        if reply.0 != 0 {
            break;
        }
    }
    replies
}

/// The same tables with one of them as it is and ample room in the others.
fn with_room_judged(bench: &Bench, number: u8) -> Bench {
    let mut bench = bench.clone();
    if number != 7 {
        bench.tables.tiles.resize(MOST_TILES, 0);
    }
    if number != 8 {
        bench.tables.operations.resize(MOST_OPERATIONS, 0);
    }
    if number != 9 {
        bench.tables.journal.resize(MOST_JOURNAL, 0);
    }
    bench
}

/// The reply to a rectangle that 1, 2, 3, 14, 5 and 13 do not refuse: 6 for the first held tile on
/// the tables as they stand; then a number exactly when the list, taken tile after tile, runs out
/// of that room, each room judged alone.
fn due_reply(bench: &Bench, origin: Origin, sweep: Sweep, place: Rectangle) -> Told {
    for address in addresses(place) {
        let mut ample = with_room_judged(bench, 0);
        let reply = ample.operate_for(origin, sweep.procedure(), address);
        if reply.0 == 6 {
            return reply;
        }
    }
    for number in [7, 8, 9] {
        let mut judged = with_room_judged(bench, number);
        let replies = one_by_one(&mut judged, origin, sweep, place);
        if replies.last() == Some(&refused(number)) {
            return refused(number);
        }
    }
    DONE
}

/// Whether a rectangle is refused before its tiles are looked at, and by which number.
fn refused_before(bench: &Bench, job: u8, place: Rectangle) -> Option<u8> {
    if !bench.is_sound() {
        return Some(1);
    }
    if job > 63 {
        return Some(2);
    }
    if !bench.session.open[usize::from(job)] {
        return Some(3);
    }
    place.tiles().err().map(|refusal| refusal.number())
}

#[test]
fn a_rectangle_is_done_exactly_when_its_operations_are() {
    let mut random = Random::seeded(31);
    let mut met: BTreeMap<(u8, u8), usize> = BTreeMap::new();
    for _ in 0..ROUNDS {
        let mut bench = some_bench(&mut random);
        damage(&mut random, &mut bench);
        let place = some_rectangle(&mut random);
        let sweep = random.pick(&SWEEPS);
        let job = random.pick(&[0, 0, 1, 2, 2, 64]);
        let sheet = some_sheet(&mut random);
        let origin = Origin { job, sheet };
        let before = bench.clone();
        let reply = bench.sweep_for(origin, sweep, place);
        *met.entry((before.session.rule.number(), reply.0))
            .or_insert(0) += 1;
        if reply.0 != 0 {
            assert_eq!(bench, before);
        }
        if let Some(number) = refused_before(&before, job, place) {
            assert_eq!(reply, refused(number));
            continue;
        }
        let due = due_reply(&before, origin, sweep, place);
        assert_eq!(reply, due, "{:?}", before);
        let mut alone = before.clone();
        let replies = one_by_one(&mut alone, origin, sweep, place);
        assert_eq!(reply.0 == 0, replies.iter().all(|reply| reply.0 == 0));
        if reply.0 == 0 {
            assert_eq!(bench, alone);
        }
    }
    for rule in [1, 2] {
        for number in [0, 1, 2, 3, 5, 6, 7, 8, 9, 13, 14] {
            let times = met.get(&(rule, number)).copied().unwrap_or(0);
            assert!(times > 50, "{} {}: {:?}", rule, number, met);
        }
    }
}
