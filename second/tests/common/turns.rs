//! Whole turns round the world, counted without a division.

use second::rectangle::Rectangle;
use second::reply::Span;
use std::ops::RangeInclusive;

pub const LEVELS: RangeInclusive<u8> = 4..=14;

/// The columns of a level, by doubling.
pub fn columns_of(zoom: u8) -> i128 {
    (0..zoom).fold(1, |columns, _| 2 * columns)
}

/// Every column within three of a place where something may change.
pub fn columns_near_edges(zoom: u8) -> Vec<i32> {
    let columns = columns_of(zoom);
    let (first, last) = (i128::from(i32::MIN), i128::from(i32::MAX));
    let round_zero = (-3..=3).map(|turns| turns * columns);
    let at_the_ends = (0..=3).flat_map(|turns| [first + turns * columns, last - turns * columns]);
    let halves = [first / 2, last / 2, 70_000, -70_000];
    let edges = round_zero.chain(at_the_ends).chain(halves);
    let near = edges.flat_map(|edge| edge - 3..=edge + 3);
    near.filter_map(|column| i32::try_from(column).ok())
        .collect()
}

/// All numbers of turns near a guess that leave a column of the level.
pub fn fitting_turns(zoom: u8, column: i32, guess: i32) -> Vec<i32> {
    let columns = columns_of(zoom);
    let rest = |turns: i32| i128::from(column) - i128::from(turns) * columns;
    let fits = |turns: &i32| (0..columns).contains(&rest(*turns));
    (guess - 2..=guess + 2).filter(fits).collect()
}

/// The only number of turns that leaves a column of the level.
pub fn turns_of(zoom: u8, column: i32) -> i32 {
    // The shift rounds down; the search does not trust it.
    let fitting = fitting_turns(zoom, column, column >> zoom);
    assert_eq!(fitting.len(), 1, "zoom {} column {}", zoom, column);
    fitting[0]
}

pub fn span_of(place: Rectangle) -> Span {
    Span {
        first: turns_of(place.zoom, place.west),
        last: turns_of(place.zoom, place.east),
    }
}
