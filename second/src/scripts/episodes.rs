//! Episodes: each lends its own tables and has its own matter.

use crate::rule::{Rule, RULES};
use crate::scripts::addresses::Pool;
use crate::scripts::breaking;
use crate::scripts::calls;
use crate::scripts::counting;
use crate::scripts::filling;
use crate::scripts::keeping;
use crate::scripts::mending;
use crate::scripts::nowhere;
use crate::scripts::replacing;
use crate::scripts::replays;
use crate::scripts::sweeping;
use crate::scripts::turning;
use crate::scripts::wild;
use crate::scripts::writer::Writer;
use crate::session::length_of;

type Episode = fn(&mut Writer);

/// Every sort of episode, and how often it comes beside the others.
const EPISODES: [(usize, Episode); 24] = [
    (130, side_by_side),
    (65, small_journal),
    (95, from_nowhere),
    (240, broken_tables),
    (40, wild_damage),
    (45, replays::episode),
    (80, replays::foreign_journal),
    (110, limits),
    (10, only_bad_lines),
    (7, crowd),
    (11, filling::fill_middle_tables),
    (3, filling::fill_journal_from_outside),
    (2, filling::fill_operations_from_outside),
    (2, filling::fill_tiles_from_outside),
    (3, replacing::episode),
    (40, sweeping::episode),
    (120, sweeping::at_the_last_place),
    (60, sweeping::held),
    (8, sweeping::on_many_tiles),
    (25, sweeping::edges),
    (100, round_a_level),
    (4, mending::at_the_most_bytes),
    (50, keeping::episode),
    (15, keeping::refused_starts),
];

pub fn episode(writer: &mut Writer) {
    let all: usize = EPISODES.iter().map(|(often, _)| often).sum();
    let mut left = writer.random.below(all);
    for (often, episode) in EPISODES {
        if left < often {
            return episode(writer);
        }
        left -= often;
    }
}

/// Columns and rows of each level in its turn, so that none is left out.
fn round_a_level(writer: &mut Writer) {
    let zoom = writer.next_level();
    turning::on_level(writer, zoom);
    counting::on_level(writer, zoom);
}

/// Lends small tables and starts on some tiles of the pool.
fn start_small(writer: &mut Writer, pool: &Pool, journal: usize) {
    let tiles = writer.random.pick(&[1, 1, 2, 2, 3, 4, 8]);
    let operations = writer.random.pick(&[1, 2, 3, 4, 6, 10, 16]);
    writer.lend(tiles, operations, journal);
    let starting = pool.some_tiles(&mut writer.random);
    let count = writer.put_tiles(starting);
    writer.start(count);
}

/// Jobs side by side on few tiles.
fn side_by_side(writer: &mut Writer) {
    let pool = Pool::few(&mut writer.random);
    let journal = writer.random.pick(&[120, 300, 800]);
    start_small(writer, &pool, journal);
    let calls = writer.random.between(15, 60);
    calls::run(writer, &pool, calls);
    if writer.random.one_in(4) {
        calls::read_everywhere(writer);
    }
}

/// A journal that is full before anything else is.
fn small_journal(writer: &mut Writer) {
    let pool = Pool::few(&mut writer.random);
    let journal = match writer.random.below(5) {
        0 => writer.random.below(9),
        _ => writer.random.below(70),
    };
    start_small(writer, &pool, journal);
    calls::run(writer, &pool, 20);
    // A new start leaves the older bytes behind the used ones.
    let tiles = length_of(writer.console.session.tiles);
    writer.start(tiles);
    calls::run(writer, &pool, 5);
    calls::read_everywhere(writer);
}

/// Every job is opened, as far as the journal reaches, and most of them end again, in an order
/// that neither rises nor falls.
fn crowd(writer: &mut Writer) {
    let pool = Pool::few(&mut writer.random);
    let journal = writer.random.pick(&[500, 511, 512, 513, 540, 900]);
    start_small(writer, &pool, journal);
    for job in 0..64 {
        writer.tell(format!("open {}", job));
    }
    calls::run(writer, &pool, 20);
    let first = writer.random.below(60);
    for step in 0..60 {
        let word = writer.random.pick(&["commit", "abort"]);
        writer.tell(format!("{} {}", word, (first + 7 * step) % 60));
    }
    calls::run(writer, &pool, 10);
}

fn from_nowhere(writer: &mut Writer) {
    let pool = Pool::few(&mut writer.random);
    nowhere::put_sound_session(writer, &pool);
    let calls = writer.random.between(5, 25);
    calls::run(writer, &pool, calls);
    if writer.random.one_in(4) {
        calls::read_everywhere(writer);
    }
}

/// Sound tables, with one requirement after the other broken and mended.
fn broken_tables(writer: &mut Writer) {
    let pool = Pool::few(&mut writer.random);
    match writer.random.below(6) {
        0 => start_small(writer, &pool, 200),
        1 => {
            start_small(writer, &pool, 200);
            calls::run(writer, &pool, 12);
        }
        _ => nowhere::put_sound_session(writer, &pool),
    }
    for _ in 0..writer.random.between(3, 12) {
        breaking::break_a_requirement(writer, &pool);
    }
    starts(writer);
}

/// Starts with wrong counts, then with the right one, on the tile table as it stands.
fn starts(writer: &mut Writer) {
    let tiles = &writer.console.tables.tiles;
    let used = tiles.iter().take_while(|key| **key != 0).count();
    let wrong = [
        used + 1,
        used.saturating_sub(1),
        tiles.len() + 1,
        4_294_967_295,
    ];
    for _ in 0..2 {
        let count = writer.random.pick(&wrong);
        writer.start(count);
        writer.look();
    }
    calls::some_calls(writer, 2);
    writer.start(used);
    calls::some_calls(writer, 3);
}

fn wild_damage(writer: &mut Writer) {
    let pool = Pool::few(&mut writer.random);
    start_small(writer, &pool, 150);
    for _ in 0..writer.random.between(2, 10) {
        calls::run(writer, &pool, 4);
        wild::put_numbers_anywhere(writer, &pool);
        calls::run(writer, &pool, 2);
        if writer.random.one_in(2) {
            starts(writer);
        }
    }
    replays::replay_often(writer, &pool);
}

/// Lengths at their limits and one past them, one table at a time.
fn limits(writer: &mut Writer) {
    let random = &mut writer.random;
    let (mut tiles, mut operations, mut journal) = (3, 5, 120);
    match random.below(4) {
        0 => tiles = random.pick(&[0, 1, 4095, 4096, 4097, 4999, 5000, 5001]),
        1 => operations = random.pick(&[0, 1, 1023, 1024, 1025, 1199, 1200, 1201]),
        2 => journal = random.pick(&[65_535, 65_536, 65_537, 65_999, 66_000, 66_001]),
        _ => journal = random.pick(&[0, 1, 3, 3, 4, 4, 7, 8, 9, 11, 12]),
    }
    writer.lend(tiles, operations, journal);
    for rule in RULES {
        writer.tell(format!("rule {}", rule.number()));
        pass_the_journal(writer);
    }
    let pool = Pool::few(&mut writer.random);
    let mut starting = pool.some_tiles(&mut writer.random);
    if writer.random.one_in(2) {
        starting.clear();
    }
    let count = writer.put_tiles(starting);
    if writer.random.one_in(3) {
        // Refused by 1, however short the journal is.
        writer.start(count + 1);
    }
    // Without a start, too: what a lend leaves is a session as good as a started one.
    if writer.random.one_in(2) {
        writer.start_by(Rule::JobAsOne, count);
        calls::run(writer, &pool, 4);
        writer.start(count);
    }
    calls::run(writer, &pool, 8);
    writer.tell("sum");
    replays::replay_often(writer, &pool);
    writer.tell("sum");
}

/// A journal count past the length, with nothing else wrong.
fn pass_the_journal(writer: &mut Writer) {
    let length = writer.console.tables.journal.len();
    for count in [length + 1, length] {
        writer.tell(format!("journal {}", count));
        writer.tell("open 0");
    }
    writer.tell("journal 0");
}

fn only_bad_lines(writer: &mut Writer) {
    writer.lend(2, 2, 60);
    writer.start(0);
    writer.tell("open 1");
    for _ in 0..writer.random.between(10, 40) {
        writer.tell_bad_line();
        if writer.random.one_in(5) {
            writer.tell("sum");
        }
    }
}
