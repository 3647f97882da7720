//! Damage to the used places of the operations table.

use crate::journals::some_sheet;
use crate::rule::Rule;
use crate::scripts::addresses::nth_tile;
use crate::scripts::damage::Damage;
use crate::scripts::nowhere::{entry_number, with_sheet};
use crate::scripts::writer::Writer;
use crate::scripts::wrong_tiles::no_key;
use crate::session::length_of;
use crate::soundness::{is_change, job_of, key_of, kind_of, sheet_of};
use crate::state::State;
use crate::tile::Tile;

/// An entry with these parts in the place of its own.
fn with_kind(entry: u64, kind: u64) -> u64 {
    with_job_and_kind(entry, job_of(entry), kind)
}

fn with_job_and_kind(entry: u64, job: usize, kind: u64) -> u64 {
    let job = u64::try_from(job).unwrap_or(u64::MAX);
    let other = entry_number(kind, job, u64::from(key_of(entry)));
    with_sheet(other, sheet_of(entry))
}

fn used_entries(writer: &Writer) -> Vec<u64> {
    let used = length_of(writer.console.session.operations);
    let entries = writer.console.tables.operations.iter();
    entries.take(used).copied().collect()
}

/// One of the used entries and its place.
fn some_entry(writer: &mut Writer) -> Option<(usize, u64)> {
    let entries = used_entries(writer);
    let place = writer.random.below(entries.len());
    entries.get(place).map(|entry| (place, *entry))
}

/// Whether no later entry of a sort has the tile of that one.
fn is_last_of(entries: &[u64], place: usize, is_of_sort: fn(u64) -> bool) -> bool {
    let mut later = entries[place + 1..].iter();
    !later.any(|other| is_of_sort(*other) && key_of(*other) == key_of(entries[place]))
}

/// The last change of some tile.
fn some_last_change(writer: &mut Writer) -> Option<u64> {
    let entries = used_entries(writer);
    let last_changes: Vec<u64> = (0..entries.len())
        .filter(|place| is_change(entries[*place]))
        .filter(|place| is_last_of(&entries, *place, is_change))
        .map(|place| entries[place])
        .collect();
    let chosen = writer.random.below(last_changes.len());
    last_changes.get(chosen).copied()
}

fn put_entry(place: usize, wrong: u64, right: u64) -> Damage {
    Damage::one(
        format!("entry {} {}", place, wrong),
        format!("entry {} {}", place, right),
    )
}

pub fn wrong_kind(writer: &mut Writer) -> Option<Damage> {
    let (place, entry) = some_entry(writer)?;
    let kinds = [0, 7, 8, 255, 128 + kind_of(entry), 8 + kind_of(entry)];
    let wrong = with_kind(entry, writer.random.pick(&kinds));
    Some(put_entry(place, wrong, entry))
}

/// Every sheet is sound: only a holder is told by another one.
pub fn other_sheet(writer: &mut Writer) -> Option<Damage> {
    let (place, entry) = some_entry(writer)?;
    let other = with_sheet(entry, some_sheet(&mut writer.random));
    Some(put_entry(place, other, entry))
}

/// The job is not open, or no job at all.
pub fn wrong_job(writer: &mut Writer) -> Option<Damage> {
    let (place, entry) = some_entry(writer)?;
    let job = writer.random.pick(&[9, 64, 64 + job_of(entry), 255]);
    let wrong = with_job_and_kind(entry, job, kind_of(entry));
    Some(put_entry(place, wrong, entry))
}

pub fn wrong_key(writer: &mut Writer) -> Option<Damage> {
    let (place, entry) = some_entry(writer)?;
    let key = key_of(entry);
    let wrong = entry - u64::from(key) + u64::from(no_key(&mut writer.random, key));
    Some(put_entry(place, wrong, entry))
}

/// The last entry on a tile is called inserted (1) or deleted (3) though the table of tiles says
/// otherwise.
pub fn untrue_change(writer: &mut Writer, kind: u64) -> Option<Damage> {
    if writer.console.session.rule == Rule::JobAsOne && writer.random.one_in(2) {
        return change_that_never_was(writer, kind);
    }
    let entries = used_entries(writer);
    let tiles = &writer.console.tables.tiles;
    let untrue: Vec<usize> = (0..entries.len())
        .filter(|place| tiles.contains(&key_of(entries[*place])) == (kind == 3))
        .filter(|place| is_last_of(&entries, *place, |_| true))
        .collect();
    let place = *untrue.get(writer.random.below(untrue.len()))?;
    let entry = entries[place];
    Some(put_entry(place, with_kind(entry, kind), entry))
}

/// Behind the last change of a tile stands one back, but the tile is as the last change left it.
fn change_that_never_was(writer: &mut Writer, kind: u64) -> Option<Damage> {
    let change = some_last_change(writer).filter(|change| kind_of(*change) != kind)?;
    one_more_entry(writer, with_kind(change, kind))
}

/// More entries behind the used ones, with their count.
fn more_entries(writer: &Writer, entries: Vec<u64>) -> Option<Damage> {
    let used = length_of(writer.console.session.operations);
    let count = used + entries.len();
    writer.console.tables.operations.get(used..count)?;
    let set_count = Damage::one(
        format!("operations {}", count),
        format!("operations {}", used),
    );
    let damage = entries
        .iter()
        .zip(used..)
        .fold(set_count, |damage, (entry, place)| {
            damage.and(
                format!("entry {} {}", place, entry),
                format!("entry {} 0", place),
            )
        });
    Some(damage)
}

fn one_more_entry(writer: &Writer, entry: u64) -> Option<Damage> {
    more_entries(writer, vec![entry])
}

pub fn later_entry(writer: &mut Writer) -> Option<Damage> {
    let (_, entry) = some_entry(writer)?;
    let kind = writer.random.pick(&[2, 4, 5, 6, 6, kind_of(entry)]);
    let job = usize::from(writer.open_jobs().first().copied()?);
    one_more_entry(writer, with_job_and_kind(entry, job, kind))
}

/// The last change of a tile is there once more.
pub fn repeated_change(writer: &mut Writer) -> Option<Damage> {
    let change = some_last_change(writer)?;
    one_more_entry(writer, change)
}

/// An entry gets another open job; or behind a change another job looks at the tile.
pub fn other_job(writer: &mut Writer) -> Option<Damage> {
    let open = writer.open_jobs();
    let job = usize::from(*open.get(writer.random.below(open.len()))?);
    if writer.random.one_in(2) {
        let (place, entry) = some_entry(writer)?;
        let wrong = with_job_and_kind(entry, job, kind_of(entry));
        return Some(put_entry(place, wrong, entry));
    }
    let change = some_last_change(writer)?;
    let kind = writer.random.pick(&[2, 4, 5, 6]);
    one_more_entry(writer, with_job_and_kind(change, job, kind))
}

/// One delete more than there is room for, of absent tiles that have no other entry.
pub fn one_removed_too_many(writer: &mut Writer) -> Option<Damage> {
    let (session, tables) = (&writer.console.session, &writer.console.tables);
    let state = State::decode(session, tables)?;
    let job = u64::from(state.open.iter().next().copied()?);
    let free = state.tile_places - state.places_taken();
    let first = writer.random.below(1000);
    let unknown = |tile: &Tile| {
        let named = state.admitted.iter().any(|entry| entry.tile == *tile);
        !named && !state.tiles.contains(tile)
    };
    let tiles = (first..).filter_map(nth_tile).filter(unknown);
    let sheet = some_sheet(&mut writer.random);
    let entry = |tile: Tile| with_sheet(entry_number(3, job, u64::from(tile.key())), sheet);
    let entries = tiles.map(entry);
    more_entries(writer, entries.take(free + 1).collect())
}
