//! What the console shows a person: the commands, and the session with its tables. Nothing else
//! depends on how it looks.

use crate::journal::{Reader, Reading};
use crate::session::{length_of, Session, Tables};
use crate::tile::Tile;
use crate::words::{levels_text, record_text};

/// Each command with its numbers and, after two spaces or more, what it does.
pub const COMMANDS: [&str; 28] = [
    "lend T O J  lends tile places (at most 5000), operation places (1200), journal bytes (66000)",
    "start count rule  starts on the tile table as it stands, by rule 1 or 2",
    "open job  opens a job, 0 to 63",
    "commit job  keeps what the job did",
    "abort job  undoes what the job did",
    "ins job sheet edition zoom column row  inserts a tile",
    "del job sheet edition zoom column row  deletes a tile",
    "mem job sheet edition zoom column row  asks for a tile",
    "insall job sheet edition zoom west east top bottom  inserts a rectangle",
    "delall job sheet edition zoom west east top bottom  deletes a rectangle",
    "address edition zoom column row  the key of an address, and its turns",
    "read place  reads a record of the journal",
    "replay count length  replays the first bytes of the journal onto the tile table",
    "mend count length room  mends the first bytes of the journal into an output",
    "levels  the tiles of each level, 4 to 14, and the places that deletes have spoken for",
    "sum  one number for everything",
    "show  the session and what is lent",
    "help  these commands",
    "tile place key  puts a number into a tile place",
    "entry place entry  puts a number into an operation place",
    "byte place byte  puts a byte into the journal",
    "tiles count  sets the count of tiles",
    "operations count  sets the count of operations",
    "journal count  sets the count of journal bytes",
    "mark job bit  sets an open mark",
    "rule n  sets the rule, 1 or 2",
    "level zoom count  sets the count of a level, 4 to 14",
    "spoken count  sets the count of places spoken for",
];

pub fn help() -> String {
    COMMANDS.join("\n")
}

pub fn picture(session: &Session, tables: &Tables, journal: &[u8]) -> String {
    let jobs = (0..).zip(session.open).filter(|(_, mark)| *mark);
    let jobs: String = jobs
        .map(|(job, _): (u8, bool)| format!(" {}", job))
        .collect();
    let mut lines = vec![format!(
        "rule {}, open jobs:{}",
        session.rule.number(),
        jobs
    )];
    lines.push(levels_text(session));
    lines.push(used_text("tiles", session.tiles, tables.tiles.len()));
    let keys = tables.tiles.iter().take(length_of(session.tiles));
    lines.extend(keys.map(|key| key_text(*key)));
    lines.push(used_text(
        "operations",
        session.operations,
        tables.operations.len(),
    ));
    let entries = tables.operations.iter().take(length_of(session.operations));
    lines.extend(entries.map(|entry| entry_text(*entry)));
    lines.push(used_text("journal", session.journal, tables.journal.len()));
    lines.extend(journal_lines(journal));
    lines.join("\n")
}

fn used_text(word: &str, used: u32, lent: usize) -> String {
    format!("{}: {} of {}", word, used, lent)
}

fn key_text(key: u32) -> String {
    match Tile::from_key(key) {
        Some(tile) => format!("  {}/{}/{}", tile.zoom(), tile.column(), tile.row()),
        None => format!("  {}, which is no key", key),
    }
}

fn entry_text(entry: u64) -> String {
    let (sheet, kind, job) = (entry >> 48, entry >> 40 & 0xFF, entry >> 32 & 0xFF);
    let key = entry & 0xFFFF_FFFF;
    format!("  sheet {sheet} kind {kind} job {job} key {key}")
}

fn journal_lines(journal: &[u8]) -> Vec<String> {
    let mut reader = Reader::at(journal, 0);
    let mut lines = Vec::new();
    loop {
        let place = reader.place();
        let text = match reader.read() {
            Reading::Whole(record) => record_text(record),
            Reading::End => return lines,
            Reading::Cut => "cut".to_string(),
            Reading::Malformed => "malformed".to_string(),
        };
        lines.push(format!("  at {}: {}", place, text));
        if reader.place() == place {
            return lines;
        }
    }
}
