//! Undoing all of a job's tiles at once leaves what undoing them one by one leaves.

use baseline::at_once::undo_at_once;
use baseline::engine::{undo, undo_each};
use baseline::entry::job;
use baseline::rule::Rule;
use baseline::session::Session;
use baseline::soundness::Check;
use baseline::workload::packs::{Sort, IDLE_JOB};
use baseline::workload::world::World;

type Undoing = fn(&mut Session, &mut [u32], &[u64], u8);

fn undone(pack: &World, undoing: Undoing, ending: u8) -> World {
    let mut world = pack.clone();
    let (session, tables) = world.lend();
    undoing(session, tables.tiles, tables.operations, ending);
    world
}

/// Every sort of full tables, by its rules, with so many entries of the idle job.
fn packs() -> impl Iterator<Item = (World, usize)> {
    Sort::full().flat_map(|(rule, sort)| {
        [16, 64, 256, 1_024].map(|entries| (sort.employed_pack(rule, 7, entries), entries))
    })
}

#[test]
fn employed_packs_are_sound_and_have_so_many_entries() {
    for (mut pack, entries) in packs() {
        assert!(pack.is_sound(Check::Pairs));
        let own = pack.operations.iter().filter(|&&e| job(e) == IDLE_JOB);
        assert_eq!(own.count(), entries);
    }
}

#[test]
fn at_once_leaves_what_single_recoveries_leave() {
    let mut changed = 0;
    for (pack, _) in packs() {
        for ending in [IDLE_JOB, 1, 62] {
            let left = undone(&pack, undo_each, ending);
            assert!(left == undone(&pack, undo_at_once, ending));
            assert!(left == undone(&pack, undo, ending));
            changed += usize::from(left != pack);
        }
    }
    assert!(changed > 50, "{changed}");
}

#[test]
fn tiles_that_a_job_changed_more_than_once() {
    for seed in 0..4 {
        let pack = Sort::Own.pack(Rule::Together, seed);
        for ending in 0..64 {
            let left = undone(&pack, undo_each, ending);
            assert!(left == undone(&pack, undo_at_once, ending));
        }
    }
}
