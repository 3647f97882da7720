//! Turns in random histories, which go round the world both ways as far as a column can.

use crate::common::C;
use baseline::reply::numbers;
use baseline::rule::Rule;
use baseline::soundness::Check;
use baseline::tile::Address;
use baseline::workload::histories::{any_call, small_world};
use baseline::workload::random::Random;
use baseline::workload::world::Call;
use std::collections::BTreeSet;

/// A call, and the turns that it told.
type Told = (Call, [i64; 2]);

/// The calls that are done; of those that are refused it is asserted that they tell no turns.
fn done_in_histories(rule: Rule) -> Vec<Told> {
    let mut random = Random::seeded(41);
    let mut done = Vec::new();
    for _ in 0..300 {
        let keys = random.distinct_keys(Vec::new(), 8);
        let mut world = small_world(&mut random, &keys);
        let mut call = Call::Start(world.session.tiles, rule);
        for _ in 0..160 {
            let [number, _, _, _, turns, last] = numbers(world.call(Check::Filter, call));
            match number {
                0 => done.push((call, [turns, last])),
                _ => assert_eq!([turns, last], [0, 0], "{call:?}"),
            }
            call = any_call(&mut random, &keys, 5);
        }
    }
    done
}

/// How far a column is from that of its key, in turns.
fn turns_by_key(zoom: u8, column: i32) -> i64 {
    let key = Address { zoom, column, ..C }.key().unwrap();
    let away = i64::from(column) - i64::from(Address::of_key(key).column);
    away / (1 << zoom)
}

/// The turns that a call tells when it is done.
fn turns_of(call: Call) -> [i64; 2] {
    match call {
        Call::Operation(_, _, of) => [turns_by_key(of.zoom, of.column), 0],
        Call::Rectangle(_, _, of) => [of.west, of.east].map(|column| turns_by_key(of.zoom, column)),
        _ => [0, 0],
    }
}

#[test]
fn every_call_that_is_done_tells_its_turns() {
    for rule in Rule::ALL {
        for (call, turns) in done_in_histories(rule) {
            assert_eq!(turns, turns_of(call), "{call:?}");
        }
    }
}

/// Where a column is: in the first of all turns, on the level, in the last turn, or between these.
#[derive(Clone, Copy, Debug, PartialEq, Eq, PartialOrd, Ord)]
enum Place {
    First,
    West,
    Level,
    East,
    Last,
}

use Place::*;

const ALL: [Place; 5] = [First, West, Level, East, Last];
const ACROSS: [[Place; 2]; 4] = [[First, West], [West, Level], [Level, East], [East, Last]];

impl Place {
    fn of(zoom: u8, turns: i64) -> Place {
        match turns {
            0 => Level,
            _ if turns == i64::from(i32::MIN >> zoom) => First,
            _ if turns == i64::from(i32::MAX >> zoom) => Last,
            _ if turns < 0 => West,
            _ => East,
        }
    }
}

fn place_of_operation(&(call, [turns, _]): &Told) -> Option<Place> {
    match call {
        Call::Operation(_, _, of) => Some(Place::of(of.zoom, turns)),
        _ => None,
    }
}

fn places_of_rectangle(&(call, turns): &Told) -> Option<[Place; 2]> {
    match call {
        Call::Rectangle(_, _, of) => Some(turns.map(|turns| Place::of(of.zoom, turns))),
        _ => None,
    }
}

/// The proved calls are compared on what the same generators make, which would say little of turns
/// if they stayed on the level.
#[test]
fn histories_go_wherever_a_column_can_be() {
    let within = ALL.map(|place| [place, place]);
    let possible: BTreeSet<[Place; 2]> = within.into_iter().chain(ACROSS).collect();
    for rule in Rule::ALL {
        let done = done_in_histories(rule);
        let of_operations: BTreeSet<Place> = done.iter().filter_map(place_of_operation).collect();
        let of_rectangles = done.iter().filter_map(places_of_rectangle);
        assert_eq!(of_operations, ALL.into());
        assert_eq!(of_rectangles.collect::<BTreeSet<[Place; 2]>>(), possible);
    }
}
