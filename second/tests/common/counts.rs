//! The kept counts by their definitions, from tiles and from the deletes that took effect.

use super::Bench;
use second::rule::Rule;
use second::soundness::{key_of, kind_of};
use second::strictness::Tiles;
use second::tile::Tile;

/// The tiles of each zoom, 4 to 14, and the places spoken for.
pub type KeptCounts = ([u32; 11], u32);

/// One place for each delete by rule 1; by rule 2 one for each tile of theirs that is not there.
pub fn counts_of(rule: Rule, tiles: &Tiles, deleted: &[Tile]) -> KeptCounts {
    let mut levels = [0; 11];
    for tile in tiles {
        levels[tile.zoom() as usize - 4] += 1;
    }
    let spoken = match rule {
        Rule::EachAlone => deleted.len(),
        Rule::JobAsOne => {
            let named: Tiles = deleted.iter().copied().collect();
            named.difference(tiles).count()
        }
    };
    (levels, spoken as u32)
}

impl Bench {
    /// The counts that the session holds.
    pub fn kept_counts(&self) -> KeptCounts {
        (self.session.levels, self.session.spoken)
    }

    /// The counts that it should hold.
    pub fn due_counts(&self) -> KeptCounts {
        let tile = |key: u32| Tile::from_key(key).expect("a key");
        let tiles: Tiles = self.keys().iter().map(|key| tile(*key)).collect();
        let entries = self.entries().iter();
        let deletes = entries.filter(|entry| kind_of(**entry) == 3);
        let deleted: Vec<Tile> = deletes.map(|entry| tile(key_of(*entry))).collect();
        counts_of(self.session.rule, &tiles, &deleted)
    }
}
