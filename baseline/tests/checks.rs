//! All four checks say the same, and what the paper says, on sound and on damaged tables by both
//! rules.

use crate::common::*;
use baseline::entry::{entry, key, kind};
use baseline::reply::{numbers, Refusal};
use baseline::rule::Rule;
use baseline::soundness::{slot, Check};
use baseline::workload::counts::{fresh_spoken, recount};
use baseline::workload::damage::damage;
use baseline::workload::histories::{any_next_call, recorded, small_world, Recorded};
use baseline::workload::packs::{employ_idle_job, Sort, IDLE_JOB};
use baseline::workload::random::Random;
use baseline::workload::world::{Call, World};

/// Two tiles in three places; job 1 has inserted the first and job 2 deleted another.
fn sound_case() -> Case {
    let mut case = Case::with_places(3, &[B]);
    case.world.operations.truncate(3);
    assert_eq!(case.insert(1, A), OK);
    assert_eq!(case.delete(2, B), OK);
    assert_eq!(case.insert(1, C), OK);
    case
}

/// Tiles in use and places reserved, by the rule of the session.
fn taken_places(world: &World) -> usize {
    world.session.tiles + fresh_spoken(world)
}

type Breach = (&'static str, fn(&mut World));

#[test]
fn each_rule_is_held() {
    let breaches: [Breach; 19] = [
        ("no tile place", |w| w.tiles.clear()),
        ("no operation place", |w| w.operations.clear()),
        ("tile places", |w| w.tiles.resize(4_097, 0)),
        ("operation places", |w| w.operations.resize(1_025, 0)),
        ("journal bytes", |w| w.journal.push(0)),
        ("tile count", |w| w.session.tiles = 4),
        ("operation count", |w| w.session.operations = 4),
        ("journal count", |w| w.session.journal = 65_537),
        ("a tile's key", |w| w.tiles[0] = 1),
        ("tiles in order", |w| w.tiles.swap(0, 1)),
        ("a tile twice", |w| w.tiles[1] = w.tiles[0]),
        ("an unused tile place", |w| w.tiles[2] = w.tiles[1] + 1),
        ("kind 0", |w| w.operations[1] &= !(0xFF << 40)),
        ("kind 7", |w| w.operations[1] |= 7 << 40),
        ("a closed job", |w| w.session.marks[2] = false),
        ("job 64", |w| w.operations[1] += 62 << 32),
        ("an entry's key", |w| {
            w.operations[1] = entry(3, of_job(2), 1)
        }),
        ("a tile that is there again", |w| w.operations[0] ^= 2 << 40),
        ("journal room", |w| w.session.journal = 65_536 - 7),
    ];
    assert!(is_sound(&mut sound_case().world));
    for (rule, breach) in breaches {
        let mut world = sound_case().world;
        breach(&mut world);
        // nothing else is wrong
        recount(&mut world);
        assert!(!is_sound(&mut world), "{rule}");
    }
}

#[test]
fn an_unused_operation_place_and_tile_room() {
    let mut world = sound_case().world;
    world.operations.push(entry(2, of_job(1), 7));
    assert!(!is_sound(&mut world));
    let mut world = sound_case().world;
    world.tiles.truncate(2);
    assert!(!is_sound(&mut world));
}

#[test]
fn no_later_entry_has_a_tile_that_was_changed() {
    for (at, later) in [(0, 1), (0, 1_023), (511, 512), (511, 1_023), (1_022, 1_023)] {
        for sort in [Sort::Changing, Sort::Colliding] {
            let mut world = sort.pack(Rule::Alone, 9);
            let changed = world.operations[at];
            // found the tile as the entry left it, so that only the order is wrong
            let finding = entry(kind(changed) + 1, of_job(1), key(changed));
            world.operations[later] = finding;
            recount(&mut world);
            assert!(!is_sound(&mut world), "{at} {later}");
            world.operations.swap(at, later);
            assert!(is_sound(&mut world), "{at} {later}");
        }
    }
}

#[test]
fn packs_are_sound_full_and_different() {
    for (rule, sort) in Sort::all() {
        let mut packs: Vec<World> = (0..16).map(|seed| sort.pack(rule, seed)).collect();
        assert!(packs.iter_mut().all(is_sound));
        for (at, pack) in packs.iter().enumerate() {
            assert!(!packs[..at].contains(pack));
            let is_full = taken_places(pack) == pack.tiles.len();
            assert_eq!(is_full, sort != Sort::LittleUsed);
        }
    }
    let pack = Sort::Colliding.pack(Rule::Alone, 3);
    let first = slot(key(pack.operations[0]));
    assert!(pack.operations.iter().all(|&e| slot(key(e)) == first));
}

#[test]
fn the_idle_job_gets_entries() {
    for count in [0, 16, 256, 1_024] {
        let mut pack = Sort::Mixed.pack(Rule::Alone, 1);
        employ_idle_job(&mut pack, count);
        assert!(is_sound(&mut pack));
        pack.call(Check::Filter, Call::Abort(IDLE_JOB)).unwrap();
        assert_eq!(pack.session.operations, 1_024 - count);
        assert!(is_sound(&mut pack));
    }
}

#[test]
fn checks_agree_on_damaged_tables() {
    let mut random = Random::seeded(11);
    let mut refused = 0;
    for (rule, sort) in Sort::all() {
        for seed in 0..3 {
            let pack = sort.pack(rule, seed);
            for _ in 0..60 {
                let mut damaged = pack.clone();
                damage(&mut random, &mut damaged);
                refused += usize::from(!is_sound(&mut damaged));
            }
        }
    }
    assert!((1_500..2_600).contains(&refused), "{refused}");
}

#[test]
fn checks_agree_on_random_histories() {
    let mut random = Random::seeded(12);
    for rule in Rule::ALL {
        let told = replies_of_histories(&mut random, rule);
        let never: Vec<usize> = (0..NUMBERS).filter(|&n| told[n] == 0).collect();
        assert_eq!(never, [1, 10, 11, 12], "{told:?}");
    }
}

fn replies_of_histories(random: &mut Random, rule: Rule) -> [usize; NUMBERS] {
    let mut told = [0; NUMBERS];
    for _ in 0..100 {
        let keys = random.distinct_keys(Vec::new(), 8);
        let mut case = Case {
            world: small_world(random, &keys),
        };
        let start = Call::Start(case.world.session.tiles, rule);
        assert_eq!(case.call(start), DONE);
        for _ in 0..160 {
            let call = any_next_call(random, &keys, 5, &case.world);
            let reply = case.reply(call);
            told[numbers(reply)[0] as usize] += 1;
            assert!(is_sound(&mut case.world), "after {call:?}");
        }
    }
    told
}

#[test]
fn the_recorded_list_stays_full() {
    for rule in Rule::ALL {
        stays_full(recorded(rule, 3, 1_500));
    }
}

fn stays_full(recorded: Recorded) {
    let mut world = recorded.start;
    let mut told = [0; 10];
    for stretch in recorded.stretches {
        for call in stretch.freeing {
            world.call(Check::Filter, call).unwrap();
        }
        for call in stretch.operations {
            assert!(world.session.operations >= 900);
            assert!(taken_places(&world) >= 4_000);
            let reply = world.call(Check::Filter, call);
            assert_ne!(reply, Err(Refusal::NoJournalRoom));
            told[numbers(reply)[0] as usize] += 1;
        }
    }
    assert!(world == recorded.end);
    assert_eq!(told.iter().sum::<usize>(), 1_500);
    assert!(
        told[0] > 700 && told[6] > 0 && told[7] > 0 && told[8] > 0,
        "{told:?}"
    );
}
