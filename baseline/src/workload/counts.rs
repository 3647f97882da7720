//! The counts of levels and of places spoken for, made anew on tables that need not be sound.

use super::world::World;
use crate::entry::{key, kind, DELETED};
use crate::levels::Levels;
use crate::rule::Rule;
use std::array::from_fn;
use std::collections::HashSet;

/// Gives the session the counts that its tables have.
pub fn recount(world: &mut World) {
    world.session.levels = fresh_levels(world);
    world.session.spoken = fresh_spoken(world);
}

pub fn fresh_levels(world: &World) -> Levels {
    let zooms = || used_tiles(world).map(|tile| tile >> 28);
    from_fn(|level| zooms().filter(|&zoom| zoom == level as u32 + 4).count())
}

/// By the first rule the deletes that took effect, by the second the absent tiles that have one.
pub fn fresh_spoken(world: &World) -> usize {
    let entries = world.operations.iter().take(world.session.operations);
    let deleted = entries.filter(|&&e| kind(e) == DELETED).map(|&e| key(e));
    match world.session.rule {
        Rule::Alone => deleted.count(),
        Rule::Together => {
            let present: HashSet<u32> = used_tiles(world).collect();
            let deleted: HashSet<u32> = deleted.collect();
            deleted.difference(&present).count()
        }
    }
}

fn used_tiles(world: &World) -> impl Iterator<Item = u32> + '_ {
    world.tiles.iter().copied().take(world.session.tiles)
}
