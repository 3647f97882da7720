//! On every sound session, however it came about, an operation is answered and done as the papers'
//! words say of the plain numbers, by both rules.

use crate::common::counts::KeptCounts;
use crate::common::tables::{damage, some_address, some_bench};
use crate::common::*;
use second::address::Address;
use second::journals::some_sheet;
use second::operation::{Origin, Procedure, PROCEDURES};
use second::random::Random;
use second::rule::Rule;
use second::soundness::{is_change, job_of, key_of, kind_of, sheet_of};
use std::collections::{BTreeMap, BTreeSet};

const ROUNDS: usize = 40_000;

/// The kind that an operation has, by the table of kinds.
fn kind_on(procedure: Procedure, present: bool) -> u64 {
    match (procedure, present) {
        (Procedure::Insert, false) => 1,
        (Procedure::Insert, true) => 2,
        (Procedure::Delete, true) => 3,
        (Procedure::Delete, false) => 4,
        (Procedure::Member, true) => 5,
        (Procedure::Member, false) => 6,
    }
}

/// The column of the table of commutativity in which an entry's recovery stands.
fn recovery_column(entry: u64, key: u32) -> usize {
    let other = usize::from(key_of(entry) != key);
    match kind_of(entry) {
        3 => other,
        1 => 2 + other,
        _ => 4,
    }
}

/// Whether an entry holds an operation that would be the entry `new`.
fn holds(rule: Rule, entry: u64, new: u64) -> bool {
    let row = kind_of(new) as usize - 1;
    match rule {
        Rule::EachAlone => !TABLE[row][recovery_column(entry, key_of(new))],
        Rule::JobAsOne => {
            let others = job_of(entry) != job_of(new);
            others && key_of(entry) == key_of(new) && is_change(entry)
        }
    }
}

/// The tiles whose deletes are unfinished, as often as rule 1 counts them.
fn deleted(bench: &Bench) -> Vec<u32> {
    let deletes = bench.entries().iter().filter(|entry| kind_of(**entry) == 3);
    deletes.map(|entry| key_of(*entry)).collect()
}

fn lacks_room(bench: &Bench, new: u64) -> bool {
    let mut spoken_for = deleted(bench);
    let mut has_its_place = false;
    if bench.session.rule == Rule::JobAsOne {
        spoken_for.retain(|key| !bench.keys().contains(key));
        spoken_for.sort_unstable();
        spoken_for.dedup();
        has_its_place = spoken_for.contains(&key_of(new));
    }
    let full = bench.keys().len() + spoken_for.len() == bench.tables.tiles.len();
    kind_of(new) == 1 && !has_its_place && full
}

/// The key of an address, or 14 or 5.
fn key_at(address: Address) -> Result<u32, u8> {
    let turned = match address.edition {
        1 => true,
        2 => false,
        _ => return Err(14),
    };
    let rows = match address.zoom {
        4..=14 => 1 << address.zoom,
        _ => return Err(5),
    };
    if !(0..rows).contains(&address.row) {
        return Err(5);
    }
    let row = if turned {
        rows - 1 - address.row
    } else {
        address.row
    };
    let column = address.column.rem_euclid(rows);
    Ok((u32::from(address.zoom) << 28) + ((column as u32) << 14) + row as u32)
}

/// The entry that an operation would be; none where it is refused by 2, 3, 14 or 5.
fn new_entry(bench: &Bench, origin: Origin, word: Procedure, place: Address) -> Result<u64, u8> {
    let Origin { job, sheet } = origin;
    if job > 63 {
        return Err(2);
    }
    if !bench.session.open[usize::from(job)] {
        return Err(3);
    }
    let key = key_at(place)?;
    let kind = kind_on(word, bench.keys().contains(&key));
    let origin = (u64::from(sheet) << 48) + (u64::from(job) << 32);
    Ok(origin + (kind << 40) + u64::from(key))
}

/// The reply to an operation that would be this entry.
fn due_reply(bench: &Bench, new: u64) -> Told {
    let rule = bench.session.rule;
    let mut entries = bench.entries().iter();
    if let Some(holder) = entries.find(|entry| holds(rule, **entry, new)) {
        return (6, 0, job_of(*holder) as u8, sheet_of(*holder));
    }
    let open = bench.session.open.iter().filter(|mark| **mark).count();
    let free = bench.tables.journal.len() - bench.session.journal as usize;
    if lacks_room(bench, new) {
        refused(7)
    } else if bench.entries().len() == bench.tables.operations.len() {
        refused(8)
    } else if free < 12 + 4 * open {
        refused(9)
    } else {
        (0, u8::from(kind_of(new) != 6), 0, 0)
    }
}

/// What an accepted operation leaves.
fn check_effects(before: &Bench, after: &Bench, new: u64, procedure: Procedure, answer: u8) {
    let mut tiles: BTreeSet<u32> = before.keys().iter().copied().collect();
    match kind_of(new) {
        1 => assert!(tiles.insert(key_of(new))),
        3 => assert!(tiles.remove(&key_of(new))),
        _ => {}
    }
    assert!(after.keys().iter().eq(&tiles));
    assert_eq!(after.entries(), [before.entries(), &[new]].concat());
    let mut record = vec![6, 0, 9, job_of(new) as u8, procedure.number(), answer];
    record.extend_from_slice(&key_of(new).to_be_bytes());
    record.extend_from_slice(&sheet_of(new).to_be_bytes());
    assert_eq!(after.journal(), [before.journal(), &record].concat());
    assert_eq!(after.session.open, before.session.open);
    assert_eq!(after.session.rule, before.session.rule);
    assert_eq!(after.kept_counts(), moved_counts(before, new));
}

/// The counts that an accepted operation leaves: a tile that comes or goes counts on its own level,
/// a place is spoken for where a tile goes, and is not any more where its tile is put back.
fn moved_counts(before: &Bench, new: u64) -> KeptCounts {
    let (mut levels, mut spoken) = before.kept_counts();
    let level = (key_of(new) >> 28) as usize - 4;
    match kind_of(new) {
        1 => {
            levels[level] += 1;
            spoken -= u32::from(deleted(before).contains(&key_of(new)));
        }
        3 => {
            levels[level] -= 1;
            spoken += 1;
        }
        _ => {}
    }
    (levels, spoken)
}

#[test]
fn operations_are_answered_and_done_by_the_words_of_the_papers() {
    let mut random = Random::seeded(11);
    let mut replies: BTreeMap<(u8, u8), usize> = BTreeMap::new();
    for _ in 0..ROUNDS {
        let mut bench = some_bench(&mut random);
        damage(&mut random, &mut bench);
        if !bench.is_sound() {
            continue;
        }
        let origin = Origin {
            job: random.pick(&[0, 0, 1, 2, 2, 63, 64]),
            sheet: some_sheet(&mut random),
        };
        let procedure = random.pick(&PROCEDURES);
        let address = some_address(&mut random);
        let new = new_entry(&bench, origin, procedure, address);
        let due = new.map_or_else(refused, |new| due_reply(&bench, new));
        let before = bench.clone();
        let reply = bench.operate_for(origin, procedure, address);
        assert_eq!(reply, due, "{:?}", before);
        match new {
            Ok(new) if due.0 == 0 => check_effects(&before, &bench, new, procedure, due.1),
            Ok(_) | Err(_) => assert_eq!(bench, before),
        }
        let met = (before.session.rule.number(), due.0);
        *replies.entry(met).or_insert(0) += 1;
    }
    for rule in [1, 2] {
        for number in [0, 2, 3, 5, 6, 7, 8, 9, 14] {
            let times = replies.get(&(rule, number)).copied().unwrap_or(0);
            assert!(times > 20, "{:?}", replies);
        }
    }
}

#[test]
fn aborts_undo_the_newest_first() {
    let mut random = Random::seeded(12);
    let mut changed_again = 0;
    for _ in 0..ROUNDS {
        let mut bench = some_bench(&mut random);
        if !bench.is_sound() || !bench.session.open[0] {
            continue;
        }
        let before = bench.clone();
        let mut tiles: BTreeSet<u32> = bench.keys().iter().copied().collect();
        let (own, others): (Vec<u64>, Vec<u64>) = bench
            .entries()
            .iter()
            .partition(|entry| job_of(**entry) == 0);
        for entry in own.iter().rev() {
            match kind_of(*entry) {
                1 => assert!(tiles.remove(&key_of(*entry))),
                3 => assert!(tiles.insert(key_of(*entry))),
                _ => {}
            }
        }
        assert_eq!(bench.abort(0), DONE);
        assert!(bench.keys().iter().eq(&tiles));
        assert_eq!(bench.entries(), others);
        assert_eq!(bench.kept_counts(), bench.due_counts());
        assert_eq!(bench.journal(), [before.journal(), &[4, 0, 1, 0]].concat());
        let changes = |entry: &&u64| is_change(**entry);
        let keys: Vec<u32> = own
            .iter()
            .filter(changes)
            .map(|entry| key_of(*entry))
            .collect();
        let different: BTreeSet<u32> = keys.iter().copied().collect();
        changed_again += usize::from(different.len() < keys.len());
    }
    assert!(changed_again > 50, "{}", changed_again);
}
