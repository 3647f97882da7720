//! Damage to the used places of the tile table.

use crate::random::Random;
use crate::scripts::damage::Damage;
use crate::scripts::writer::Writer;
use crate::session::length_of;

/// A number that is no key, mostly just past the last column or row of the key's own level.
pub fn no_key(random: &mut Random, key: u32) -> u32 {
    let zoom = key >> 28;
    let level = zoom << 28;
    let side = 1u32 << zoom.min(13);
    let (column, row) = ((key >> 14) & 0x3FFF, key & 0x3FFF);
    random.pick(&[
        level + (column << 14) + side,
        level + (side << 14) + row,
        level + (side << 14),
        key | 0x3FFF,
        0,
        1,
        1_073_741_823,
        4_026_531_840,
        u32::MAX,
    ])
}

fn used_tiles(writer: &Writer) -> Vec<u32> {
    let used = length_of(writer.console.session.tiles);
    let tiles = writer.console.tables.tiles.iter();
    tiles.take(used).copied().collect()
}

pub fn wrong_key(writer: &mut Writer) -> Option<Damage> {
    let tiles = used_tiles(writer);
    let place = writer.random.below(tiles.len());
    let key = *tiles.get(place)?;
    let wrong = no_key(&mut writer.random, key);
    Some(Damage::one(
        format!("tile {} {}", place, wrong),
        format!("tile {} {}", place, key),
    ))
}

/// Two tiles change their places, or one stands twice.
pub fn wrong_order(writer: &mut Writer) -> Option<Damage> {
    let tiles = used_tiles(writer);
    let place = writer.random.below(tiles.len().saturating_sub(1));
    let (key, next) = (*tiles.get(place)?, *tiles.get(place + 1)?);
    let twice = Damage::one(
        format!("tile {} {}", place + 1, key),
        format!("tile {} {}", place + 1, next),
    );
    if writer.random.one_in(2) {
        return Some(twice);
    }
    Some(twice.and(
        format!("tile {} {}", place, next),
        format!("tile {} {}", place, key),
    ))
}
