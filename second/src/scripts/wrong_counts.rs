//! Damage to the counts that a session keeps, while every table stays as it is.

use crate::random::Random;
use crate::scripts::addresses::LEVELS;
use crate::scripts::damage::Damage;
use crate::scripts::writer::Writer;
use crate::session::{count_of, length_of, Session};
use crate::soundness::kind_of;

/// A count that the session keeps besides those of the used places.
#[derive(Clone, Copy)]
pub enum Kept {
    Level(u8),
    Spoken,
}

impl Kept {
    pub fn of(self, session: &Session) -> u32 {
        match self {
            Kept::Level(zoom) => session.tiles_of_zoom(zoom),
            Kept::Spoken => session.spoken,
        }
    }

    pub fn line(self, count: u32) -> String {
        match self {
            Kept::Level(zoom) => format!("level {} {}", zoom, count),
            Kept::Spoken => format!("spoken {}", count),
        }
    }

    fn damage(self, wrong: u32, right: u32) -> Damage {
        Damage::one(self.line(wrong), self.line(right))
    }
}

/// Mostly next to the right one; now and then the right one itself.
fn wrong_count(random: &mut Random, right: u32) -> u32 {
    let (more, less) = (right.wrapping_add(1), right.wrapping_sub(1));
    let (stray, high_bit) = (random.word(), right ^ (1 << 31));
    let choices = [
        more, more, more, less, less, less, 0, right, high_bit, stray,
    ];
    random.pick(&choices)
}

pub fn wrong_level(writer: &mut Writer, zoom: u8) -> Damage {
    let level = Kept::Level(zoom);
    let right = level.of(&writer.console.session);
    let wrong = wrong_count(&mut writer.random, right);
    if writer.random.one_in(3) {
        return moved_tiles(writer, zoom);
    }
    level.damage(wrong, right)
}

/// The count of another level makes up for this one, so that all of them add up to the tiles.
fn moved_tiles(writer: &mut Writer, zoom: u8) -> Damage {
    let other = Kept::Level(writer.random.pick(&LEVELS));
    let level = Kept::Level(zoom);
    let (from, to) = (
        level.of(&writer.console.session),
        other.of(&writer.console.session),
    );
    let moved = writer.random.pick(&[1, 1, from]);
    level
        .damage(from.wrapping_sub(moved), from)
        .and(other.line(to.wrapping_add(moved)), other.line(to))
}

pub fn wrong_spoken(writer: &mut Writer) -> Damage {
    let right = writer.console.session.spoken;
    let wrong = wrong_count(&mut writer.random, right);
    let removals = removals(writer);
    let tiles_too = right.wrapping_add(writer.console.session.tiles);
    let wrong = writer.random.pick(&[wrong, wrong, removals, tiles_too]);
    Kept::Spoken.damage(wrong, right)
}

/// The used entries of kind 3: what rule 1 counts, though by rule 2 some may not be counted.
pub fn removals(writer: &Writer) -> u32 {
    let used = length_of(writer.console.session.operations);
    let entries = writer.console.tables.operations.iter().take(used);
    count_of(entries.filter(|entry| kind_of(**entry) == 3).count())
}
