//! The printed replay: what a journal leaves, starting from no tiles, as text.

use crate::replay::replay;
use crate::session::{length_of, MOST_JOURNAL, MOST_OPERATIONS, MOST_TILES};
use crate::tile::Tile;

/// The most bytes the program has to read to know its answer.
pub const ENOUGH_BYTES: usize = MOST_JOURNAL + 1;

pub fn printed_replay(journal: &[u8]) -> String {
    if journal.len() > MOST_JOURNAL {
        return "too long\n".to_string();
    }
    let mut tiles = vec![0; MOST_TILES];
    let mut operations = vec![0; MOST_OPERATIONS];
    let replayed = replay(journal, &mut tiles, 0, &mut operations);
    let mut text = format!(
        "tiles {} undone {} stopped {} at {}\n",
        replayed.count, replayed.undone, replayed.reply, replayed.offset
    );
    let left = tiles.iter().take(length_of(replayed.count));
    for tile in left.filter_map(|key| Tile::from_key(*key)) {
        text += &format!("{} {} {}\n", tile.zoom(), tile.column(), tile.row());
    }
    text
}
