//! How far round: the whole turns of a column, by the address step.

use crate::common::talk::holds;
use crate::common::turns::{columns_near_edges, columns_of, fitting_turns, turns_of, LEVELS};
use second::address::{address_step, Address};
use second::random::Random;

/// The turns and the key's column that the address step answers.
fn step(zoom: u8, column: i32) -> (i32, i128) {
    let address = Address {
        edition: 2,
        zoom,
        column,
        row: 5,
    };
    let reached = address_step(address).expect("a served address");
    let key = i128::from(reached.tile.key());
    (reached.turns, key % 268_435_456 / 16_384)
}

#[test]
fn the_cases_of_the_papers() {
    assert_eq!(step(4, -1), (-1, 15));
    assert_eq!(step(4, 15), (0, 15));
    assert_eq!(step(4, 70_000), (4375, 0));
}

#[test]
fn the_equation_holds_at_every_edge_and_for_no_other_turns() {
    for zoom in LEVELS {
        for column in columns_near_edges(zoom) {
            let (turns, of_key) = step(zoom, column);
            let equation = |turns: i32| {
                let round = i128::from(turns) * columns_of(zoom);
                i128::from(column) == round + of_key
            };
            assert!(equation(turns), "zoom {} column {}", zoom, column);
            assert!(!equation(turns - 1) && !equation(turns + 1));
            assert_eq!(turns, turns_of(zoom, column));
        }
    }
}

#[test]
fn the_ends_of_32_bits_on_every_level() {
    for zoom in LEVELS {
        let side = 1i32 << zoom;
        let half = 1i32 << (31 - zoom);
        for (column, due) in [
            (i32::MIN, -half),
            (i32::MIN + (side - 1), -half),
            (i32::MIN + side, 1 - half),
            (-side - 1, -2),
            (-side, -1),
            (-1, -1),
            (0, 0),
            (side - 1, 0),
            (side, 1),
            (i32::MAX - side, half - 2),
            (i32::MAX - (side - 1), half - 1),
            (i32::MAX, half - 1),
        ] {
            assert_eq!(step(zoom, column).0, due, "zoom {} column {}", zoom, column);
        }
    }
}

/// Walks east column by column; each time the level's columns are through, one turn is made.
fn walk(zoom: u8, from: i32, mut turns: i32, steps: i32) {
    let last_column = columns_of(zoom) - 1;
    let mut of_key = 0;
    for east in 0..steps {
        assert_eq!(step(zoom, from + east), (turns, of_key));
        if of_key == last_column {
            turns += 1;
            of_key = 0;
        } else {
            of_key += 1;
        }
    }
}

#[test]
fn walking_round_the_world_each_turn_is_counted_once() {
    for zoom in LEVELS {
        let side = 1i32 << zoom;
        let half = 1i32 << (31 - zoom);
        walk(zoom, -3 * side, -3, 6 * side);
        walk(zoom, i32::MIN, -half, 2 * side);
        walk(zoom, i32::MAX - (2 * side - 1), half - 2, 2 * side);
    }
}

#[test]
fn columns_anywhere_have_one_number_of_turns() {
    let mut random = Random::seeded(41);
    for _ in 0..40_000 {
        let zoom = random.between(4, 14) as u8;
        let column = random.word() as i32;
        let (turns, _) = step(zoom, column);
        assert_eq!(fitting_turns(zoom, column, turns), [turns]);
        // Column -1 - a is as far west as column a is east, and one turn more.
        let opposite = -1 - column;
        assert_eq!(step(zoom, opposite).0, -1 - turns);
    }
}

#[test]
fn a_refused_address_has_no_turns() {
    for (edition, zoom, row, number) in [
        (2, 4, 16, 5),
        (1, 4, -1, 5),
        (2, 3, 0, 5),
        (1, 15, 0, 5),
        (2, 14, 16_384, 5),
        (1, 255, i32::MIN, 5),
        (0, 4, 5, 14),
        (3, 3, -1, 14),
    ] {
        for column in [i32::MIN, -1, 0, 70_000, i32::MAX] {
            let line = format!("address {edition} {zoom} {column} {row}");
            holds(&format!("{} => reply {} key 0 turns 0", line, number));
        }
    }
}
