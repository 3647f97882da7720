//! Large tables by rule 2 in which one job deleted many tiles and inserted them again, with damage
//! deep inside them.

use crate::journals::some_sheet;
use crate::random::Random;
use crate::scripts::addresses::nth_tile;
use crate::scripts::nowhere::{entry_number, with_sheet};
use crate::scripts::writer::Writer;
use crate::session::MOST_OPERATIONS;
use crate::soundness::{key_of, kind_of};

/// The job whose entries these are, and another one that is open.
const OWNER: u64 = 6;
const OTHER: u64 = 7;

const REMOVED: u64 = 3;
const ADDED: u64 = 1;

fn nth_entry(kind: u64, job: u64, n: usize) -> u64 {
    let key = nth_tile(n).map_or(0, |tile| tile.key());
    entry_number(kind, job, u64::from(key))
}

/// Tile after tile deleted and inserted, or first all deleted and then all inserted.
fn entries_of(random: &mut Random, tiles: usize) -> Vec<u64> {
    let removed = (0..tiles).map(|n| nth_entry(REMOVED, OWNER, n));
    let added = (0..tiles).map(|n| nth_entry(ADDED, OWNER, n));
    let mut entries: Vec<u64> = if random.one_in(2) {
        removed.chain(added).collect()
    } else {
        let pairs = removed.zip(added);
        pairs.flat_map(|(one, other)| [one, other]).collect()
    };
    for entry in entries.iter_mut() {
        *entry = with_sheet(*entry, some_sheet(random));
    }
    entries
}

/// The same entry with another kind, job or tile, and for another sheet, which never matters.
fn altered(random: &mut Random, entry: u64, tiles: usize) -> u64 {
    let (kind, key) = (kind_of(entry), u64::from(key_of(entry)));
    let wrong = match random.below(6) {
        0 => entry_number(4 - kind, OWNER, key),
        1 => entry_number(random.pick(&[2, 4, 5, 6]), OWNER, key),
        2 => entry_number(kind, OTHER, key),
        3 => nth_entry(kind, OWNER, random.below(tiles)),
        4 => entry,
        // A tile that no entry has: by rule 2 it may stand there alone, if it fits.
        _ => nth_entry(kind, OWNER, tiles + random.below(3)),
    };
    with_sheet(wrong, some_sheet(random))
}

fn damage_and_mend(writer: &mut Writer, entries: &[u64], tiles: usize) {
    let place = writer.random.below(entries.len());
    let wrong = altered(&mut writer.random, entries[place], tiles);
    writer.tell(format!("entry {} {}", place, wrong));
    writer.count_anew();
    // Refused by 1 where the damage matters, and else by 4: nothing else changes the tables.
    writer.tell(format!("open {}", OTHER));
    writer.tell(format!("entry {} {}", place, entries[place]));
    writer.count_anew();
}

pub fn episode(writer: &mut Writer) {
    let most = MOST_OPERATIONS / 2;
    let tiles = writer.random.pick(&[30, 64, 100, most - 1, most]);
    let spare = writer.random.below(2);
    writer.lend(tiles + spare, MOST_OPERATIONS, 300);
    writer.put_tiles((0..tiles).filter_map(nth_tile).collect());
    let entries = entries_of(&mut writer.random, tiles);
    for (place, entry) in entries.iter().enumerate() {
        writer.tell(format!("entry {} {}", place, entry));
    }
    for line in ["rule 2", "mark 6 1", "mark 7 1"] {
        writer.tell(line);
    }
    writer.tell(format!("tiles {}", tiles));
    writer.tell(format!("operations {}", entries.len()));
    writer.count_anew();
    for _ in 0..writer.random.between(10, 30) {
        damage_and_mend(writer, &entries, tiles);
    }
    writer.tell("sum");
    // The first of the tiles, in both editions.
    writer.tell("ins 7 1 2 7 0 0");
    writer.tell("del 6 65535 1 7 0 127");
    writer.tell("ins 6 0 2 7 0 0");
    writer.tell("abort 6");
    writer.tell("sum");
}
