//! Sound sessions that come from nowhere: put together place by place, not reached by calls.

use crate::journals::some_sheet;
use crate::operation::{Admitted, Kind, Origin, KINDS};
use crate::random::Random;
use crate::rule::{Rule, RULES};
use crate::scripts::addresses::Pool;
use crate::scripts::writer::Writer;
use crate::session::{MOST_OPERATIONS, MOST_TILES};
use crate::state::State;
use crate::tile::{Tile, LEVELS_SERVED};

const JOBS: [u8; 7] = [0, 1, 2, 3, 31, 62, 63];

/// An entry of an operations table, as a number, for sheet 0.
pub fn entry_number(kind: u64, job: u64, key: u64) -> u64 {
    kind * (1 << 40) + job * (1 << 32) + key
}

/// The same entry for another sheet.
pub fn with_sheet(entry: u64, sheet: u16) -> u64 {
    entry % (1 << 48) + u64::from(sheet) * (1 << 48)
}

fn number_of(entry: &Admitted) -> u64 {
    let Origin { job, sheet } = entry.origin;
    let key = u64::from(entry.tile.key());
    with_sheet(
        entry_number(entry.kind.number(), u64::from(job), key),
        sheet,
    )
}

fn last_change(entries: &[Admitted], tile: Tile) -> Option<Admitted> {
    let changes = |entry: &&Admitted| entry.tile == tile && entry.kind.changes_tiles();
    entries.iter().rev().find(changes).copied()
}

/// Whether the entry may stand behind the last change of its tile.
fn may_follow(rule: Rule, entry: &Admitted, change: &Admitted) -> bool {
    match rule {
        Rule::EachAlone => false,
        Rule::JobAsOne => entry.job() == change.job() && entry.kind != change.kind,
    }
}

fn some_entries(random: &mut Random, rule: Rule, jobs: &[u8], tiles: &[Tile]) -> Vec<Admitted> {
    let mut entries: Vec<Admitted> = Vec::new();
    for _ in 0..random.below(12) {
        let tile = random.pick(tiles);
        let change = last_change(&entries, tile);
        let job = match change {
            Some(change) if !random.one_in(6) => change.job(),
            _ => random.pick(jobs),
        };
        let sheet = some_sheet(random);
        let entry = Admitted {
            kind: random.pick(&KINDS),
            origin: Origin { job, sheet },
            tile,
        };
        if change.map_or(true, |change| may_follow(rule, &entry, &change)) {
            entries.push(entry);
        }
    }
    entries
}

/// Of the changed tiles those that the last change left there, and some of the others.
fn fitting_tiles(random: &mut Random, entries: &[Admitted], pool: &Pool) -> Vec<Tile> {
    let mut tiles = pool.tiles();
    tiles.retain(|tile| match last_change(entries, *tile) {
        Some(change) => change.kind == Kind::Added,
        None => random.one_in(2),
    });
    tiles
}

fn some_state(random: &mut Random, pool: &Pool) -> State {
    let rule = random.pick(&RULES);
    let mut jobs: Vec<u8> = JOBS.to_vec();
    jobs.retain(|_| random.one_in(2));
    jobs.push(5);
    let admitted = some_entries(random, rule, &jobs, &pool.tiles());
    let mut state = State {
        rule,
        tiles: fitting_tiles(random, &admitted, pool).into_iter().collect(),
        tile_places: MOST_TILES,
        admitted,
        operation_places: MOST_OPERATIONS,
        open: jobs.into_iter().collect(),
        levels: [0; LEVELS_SERVED],
        spoken: 0,
    };
    state.count_anew();
    state
}

/// Lends tables and puts a sound session into them, often with no place to spare.
pub fn put_sound_session(writer: &mut Writer, pool: &Pool) {
    let random = &mut writer.random;
    let state = some_state(random, pool);
    let spare = random.pick(&[0, 0, 1, 1, 2, 5]);
    let places = (state.places_taken() + spare).max(1);
    let operations = (state.admitted.len() + random.pick(&[0, 0, 1, 2, 6])).max(1);
    let used = random.below(40);
    let endings = 4 * state.open.len();
    let journal = used + endings + random.pick(&[0, 3, 4, 7, 8, 9, 11, 12, 13, 40, 100]);
    writer.lend(places, operations, journal);
    put_parts(writer, &state);
    put_journal(writer, used);
}

fn put_parts(writer: &mut Writer, state: &State) {
    let count = writer.put_tiles(state.tiles.iter().copied().collect());
    writer.tell(format!("tiles {}", count));
    writer.tell(format!("rule {}", state.rule.number()));
    for job in &state.open {
        writer.tell(format!("mark {} 1", job));
    }
    for (place, entry) in state.admitted.iter().enumerate() {
        writer.tell(format!("entry {} {}", place, number_of(entry)));
    }
    writer.tell(format!("operations {}", state.admitted.len()));
    writer.count_anew();
}

/// The journal of such a session may hold anything.
fn put_journal(writer: &mut Writer, used: usize) {
    for place in 0..used {
        let byte = if writer.random.one_in(2) {
            writer.random.byte() % 8
        } else {
            writer.random.byte()
        };
        writer.tell(format!("byte {} {}", place, byte));
    }
    writer.tell(format!("journal {}", used));
    writer.tell("sum");
}
