//! The recoveries of a job at once: what goes and what comes back is sorted, and then the tiles are
//! moved in two passes. One by one, each recovery moves the tiles behind its own by one place.

use crate::entry::{changes_its_tile, job, key, kind, INSERTED};
use crate::session::{Session, MOST_OPERATIONS};

/// Tiles to be taken out, and tiles to be put in, each in order.
#[derive(Default)]
struct Moves {
    gone: Vec<u32>,
    back: Vec<u32>,
}

/// Leaves what `engine::undo_each` leaves on sound tables.
pub fn undo_at_once(session: &mut Session, tiles: &mut [u32], operations: &[u64], ending: u8) {
    let moves = moves_of(&operations[..session.operations], ending);
    for &tile in &moves.gone {
        session.count_out(tile);
    }
    let used = session.tiles + moves.gone.len();
    take_out(&mut tiles[..used], &moves.gone);
    let kept = session.tiles;
    for &tile in &moves.back {
        session.count_in(tile);
    }
    put_in(&mut tiles[..session.tiles], kept, &moves.back);
}

/// The changes of a tile alternate: an even number of them left it as it was, and of an odd number
/// the first says what is undone.
fn moves_of(entries: &[u64], ending: u8) -> Moves {
    let own = |&(_, &e): &(usize, &u64)| job(e) == ending && changes_its_tile(e);
    let by_tile = |(at, &e): (usize, &u64)| (key(e), at, kind(e) == INSERTED);
    let mut changes = Vec::with_capacity(MOST_OPERATIONS);
    changes.extend(entries.iter().enumerate().filter(own).map(by_tile));
    changes.sort_unstable();
    let mut moves = Moves::default();
    let mut left = changes.as_slice();
    while let Some(&(tile, _, inserted)) = left.first() {
        let on_tile = left.iter().take_while(|(other, ..)| *other == tile).count();
        if on_tile % 2 == 1 {
            let undone = if inserted {
                &mut moves.gone
            } else {
                &mut moves.back
            };
            undone.push(tile);
        }
        left = &left[on_tile..];
    }
    moves
}

/// All of these are there. What is kept moves down, and the rest is cleared.
fn take_out(tiles: &mut [u32], gone: &[u32]) {
    let mut left = gone.iter().peekable();
    let mut kept = 0;
    for at in 0..tiles.len() {
        let tile = tiles[at];
        if left.next_if(|&&next| next == tile).is_none() {
            tiles[kept] = tile;
            kept += 1;
        }
    }
    tiles[kept..].fill(0);
}

/// None of these is there. From the last place to the first, the greater of both comes next.
fn put_in(tiles: &mut [u32], mut kept: usize, back: &[u32]) {
    let mut place = tiles.len();
    let mut left = back;
    while let Some((&last, others)) = left.split_last() {
        place -= 1;
        if kept > 0 && tiles[kept - 1] > last {
            kept -= 1;
            tiles[place] = tiles[kept];
        } else {
            tiles[place] = last;
            left = others;
        }
    }
}
