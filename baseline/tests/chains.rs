//! What the second rule asks of the entries, each requirement on its own, and by all checks.

use crate::common::*;
use baseline::chains::taken_back;
use baseline::entry::{entry, job, key, kind, origin};
use baseline::rule::Rule;
use baseline::soundness::Check;
use baseline::workload::counts::recount;
use baseline::workload::packs::{employ_idle_job, Sort, IDLE_JOB};
use baseline::workload::world::Call;

/// The entries of small tables, as kind and job, all on the tile A.
type Chain = &'static [(u64, u8)];

fn is_sound_with(places: usize, is_there: bool, chain: Chain) -> bool {
    let present: &[_] = if is_there { &[A] } else { &[] };
    let mut case = Case::by(Rule::Together, places, present);
    for (at, &(kind, job)) in chain.iter().enumerate() {
        // a finding on another tile between each two
        case.world.operations[2 * at] = entry(kind, of_job(job), A.key().unwrap());
        case.world.operations[2 * at + 1] = entry(6, of_job(2), B.key().unwrap());
    }
    case.world.session.operations = 2 * chain.len();
    recount(&mut case.world);
    is_sound(&mut case.world)
}

#[test]
fn each_requirement() {
    let cases: [(bool, Chain, bool); 16] = [
        (true, &[(3, 1), (1, 1)], true),
        (false, &[(1, 1), (3, 1)], true),
        (false, &[(3, 1), (1, 1), (3, 1)], true),
        (
            true,
            &[(1, 1), (5, 1), (2, 1), (3, 1), (4, 1), (1, 1)],
            true,
        ),
        // the last change says whether the tile is there
        (false, &[(3, 1), (1, 1)], false),
        (true, &[(1, 1), (3, 1)], false),
        (true, &[(1, 1), (3, 1), (6, 1)], false),
        // changes alternate
        (true, &[(1, 1), (1, 1)], false),
        (false, &[(3, 1), (3, 1)], false),
        (true, &[(3, 1), (5, 1), (3, 1), (1, 1)], false),
        // all behind the first change have its job
        (true, &[(1, 1), (5, 2)], false),
        (true, &[(3, 1), (1, 2)], false),
        (true, &[(3, 1), (6, 1), (4, 2), (1, 1)], false),
        (true, &[(3, 1), (1, 1), (2, 2)], false),
        // and those before it need not
        (true, &[(5, 2), (2, 1), (3, 1), (1, 1)], true),
        // without a change nothing is asked, not even whether the tile is there
        (true, &[(6, 1), (4, 2), (5, 1)], true),
    ];
    for (is_there, chain, expected) in cases {
        assert_eq!(is_sound_with(1, is_there, chain), expected, "{chain:?}");
    }
}

#[test]
fn an_absent_tile_with_a_delete_is_counted_once() {
    for (present, places, expected) in [(&[][..], 1, true), (&[B][..], 1, false), (&[B], 2, true)] {
        let mut case = Case::by(Rule::Together, places, present);
        let chain = [3, 1, 3].map(|kind| entry(kind, of_job(1), A.key().unwrap()));
        case.world.operations[..3].copy_from_slice(&chain);
        case.world.session.operations = 3;
        recount(&mut case.world);
        assert_eq!(is_sound(&mut case.world), expected, "{present:?} {places}");
        assert_eq!(case.world.session.spoken, 1);
        assert_eq!([1, 2].map(|job| taken_back(&chain, job)), [1, 0]);
    }
    assert!(is_sound_with(1, true, &[(3, 1), (1, 1), (3, 1), (1, 1)]));
}

#[test]
fn own_tiles_are_not_sound_by_the_first_rule() {
    for sort in Sort::OF_TOGETHER {
        assert!(!is_sound(&mut sort.pack(Rule::Alone, 2)));
    }
}

/// In full tables an entry gets another job or another kind.
#[test]
fn a_broken_link_is_found_wherever_it_stands() {
    for sort in [Sort::Replaced, Sort::ReplacedApart] {
        for at in [0, 1, 511, 512, 1_022, 1_023] {
            let pack = sort.pack(Rule::Together, 4);
            let e = pack.operations[at];
            let other_job = entry(kind(e), of_job(1 + job(e) % 62), key(e));
            let other_kind = entry(4 - kind(e), origin(e), key(e));
            for wrong in [other_job, other_kind] {
                let mut world = pack.clone();
                world.operations[at] = wrong;
                recount(&mut world);
                assert!(!is_sound(&mut world), "{sort:?} {at}");
            }
        }
    }
}

#[test]
fn an_abort_brings_replaced_tiles_back() {
    for sort in [Sort::Replaced, Sort::ReplacedApart] {
        let mut pack = sort.pack(Rule::Together, 5);
        employ_idle_job(&mut pack, 1_024);
        let before = pack.tiles.clone();
        let aborted = pack.call(Check::Filter, Call::Abort(IDLE_JOB));
        assert_eq!(answer(aborted), DONE);
        assert_eq!(pack.session.operations, 0);
        assert!(pack.tiles == before && is_sound(&mut pack));
    }
}
