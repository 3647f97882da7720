//! Random tables that are often sound and often almost sound, and random calls on them.

use super::{Bench, Told};
use second::address::Address;
use second::journals::some_sheet;
use second::operation::{Origin, PROCEDURES};
use second::random::Random;
use second::rule::{Rule, RULES};
use second::session::{Session, Tables};

/// Mostly one of the tiles that the tables have, by its row from the north or from the south.
pub fn some_address(random: &mut Random) -> Address {
    let edition = random.pick(&[1, 1, 1, 2, 2, 2, 2, 0, 3, 255]);
    let tile_row = if edition == 1 { 10 } else { 5 };
    Address {
        edition,
        zoom: random.pick(&[4, 4, 4, 4, 4, 3, 14]),
        column: random.pick(&[-1, 15, 0, 16, 7]),
        row: random.pick(&[tile_row, tile_row, tile_row, 0, 16]),
    }
}

/// Tables that are often sound and often almost sound, by either rule.
pub fn some_bench(random: &mut Random) -> Bench {
    let rule = random.pick(&RULES);
    let mut keys = vec![1_073_741_829, 1_073_856_517, 1_073_987_589];
    if random.one_in(3) {
        // On the highest level.
        keys.push(3_758_211_077);
    }
    let entries = some_entries(random, rule, &keys);
    keys.retain(|_| random.one_in(2));
    let places = keys.len() + random.pick(&[0, 0, 1, 2]);
    let operations = entries.len() + random.pick(&[0, 1, 1, 3]);
    let mut tables = Tables::lent(places, operations, random.below(60));
    tables.tiles[..keys.len()].copy_from_slice(&keys);
    tables.operations[..entries.len()].copy_from_slice(&entries);
    let mut session = Session {
        rule,
        ..Session::empty()
    };
    for job in 0..3 {
        session.open[job] = !random.one_in(4);
    }
    session.tiles = keys.len() as u32;
    session.operations = entries.len() as u32;
    session.journal = random.below(tables.journal.len() / 2) as u32;
    let mut bench = Bench { session, tables };
    bench.count_anew();
    bench
}

pub fn some_count(random: &mut Random, length: usize) -> u32 {
    let within = random.below(length + 1) as u32;
    let wild = random.word();
    match random.below(12) {
        0 => length as u32 + 1,
        1 => random.pick(&[u32::MAX, wild]),
        _ => within,
    }
}

/// By rule 2 a few more, of few jobs and mostly changing, so that tiles are changed again.
fn some_entries(random: &mut Random, rule: Rule, keys: &[u32]) -> Vec<u64> {
    let (most, kinds, jobs): (usize, &[u64], &[u64]) = match rule {
        Rule::EachAlone => (3, &[1, 2, 3, 4, 5, 6, 2, 4, 5, 6], &[0, 1, 2]),
        Rule::JobAsOne => (5, &[1, 2, 3, 4, 5, 6, 1, 3, 1, 3], &[0, 0, 0, 1]),
    };
    let count = random.below(most + 1);
    (0..count)
        .map(|_| {
            let (kind, job, key) = (random.pick(kinds), random.pick(jobs), random.pick(keys));
            let sheet = u64::from(some_sheet(random));
            (sheet << 48) + (kind << 40) + (job << 32) + u64::from(key)
        })
        .collect()
}

/// One number anywhere becomes another one, now and then. Mostly the kept counts go along, so that
/// they are not what is wrong.
pub fn damage(random: &mut Random, bench: &mut Bench) {
    damage_tables(random, bench);
    if !random.one_in(4) {
        bench.count_anew();
    }
    match random.below(40) {
        0 => bench.session.spoken = some_count(random, 3),
        1 => {
            let level = random.below(bench.session.levels.len());
            bench.session.levels[level] = some_count(random, 3);
        }
        _ => {}
    }
}

fn damage_tables(random: &mut Random, bench: &mut Bench) {
    let wild = random.number();
    let (tiles, operations) = (&mut bench.tables.tiles, &mut bench.tables.operations);
    match random.below(18) {
        0 => {
            let place = random.below(tiles.len());
            let small = random.pick(&[0, 1, 1_073_741_824, wild as u32]);
            tiles
                .iter_mut()
                .skip(place)
                .take(1)
                .for_each(|key| *key = small);
        }
        1 => {
            let place = random.below(operations.len());
            let entry = random.pick(&[0, 7 << 40, 64 << 32, wild]);
            operations
                .iter_mut()
                .skip(place)
                .take(1)
                .for_each(|old| *old = entry);
        }
        2 => bench.session.open[random.below(64)] ^= true,
        3 => bench.session.tiles = some_count(random, tiles.len()),
        4 => bench.session.operations = some_count(random, operations.len()),
        5 => bench.session.journal = some_count(random, bench.tables.journal.len()),
        6 => bench.session.rule = random.pick(&RULES),
        _ => {}
    }
}

pub fn any_call(random: &mut Random, bench: &mut Bench) -> Told {
    let job = random.pick(&[0, 1, 2, 0, 1, 2, 63, 64, 255]);
    let address = some_address(random);
    match random.below(6) {
        0 => bench.open(job),
        1 => bench.commit(job),
        2 => bench.abort(job),
        _ => {
            let sheet = some_sheet(random);
            bench.operate_for(Origin { job, sheet }, random.pick(&PROCEDURES), address)
        }
    }
}
