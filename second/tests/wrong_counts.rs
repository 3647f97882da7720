//! A kept count that is wrong, with every table as it should be: each call is refused by 1 and
//! changes nothing, and is done once the count is mended.

use crate::common::turns::LEVELS;
use crate::common::*;
use second::address::Address;
use second::operation::Procedure;
use second::rectangle::{Rectangle, Sweep};
use second::rule::{Rule, RULES};
use second::soundness::{broken, Requirement};

/// On every level there is a tile, on level 4 a second one, and job 1 has deleted a third.
fn sound_bench(rule: Rule) -> Bench {
    let mut present: Vec<Address> = LEVELS.map(|zoom| Address { zoom, ..A }).collect();
    present.extend([B, Address { column: 7, ..A }]);
    let mut bench = Bench::with_places_by(rule, 20, &present);
    assert_eq!(bench.del(1, Address { column: 7, ..A }), OK);
    assert_eq!(bench.kept_counts(), ([2, 1, 1, 1, 1, 1, 1, 1, 1, 1, 1], 1));
    bench
}

/// Columns of a row where no tile is.
const EMPTY: Rectangle = Rectangle {
    edition: 2,
    zoom: 8,
    west: -1,
    east: 1,
    top: 9,
    bottom: 10,
};

type Call = fn(&mut Bench) -> Told;

/// Every kind of call, and what it is told where nothing is wrong.
const CALLS: [(Call, Told); 10] = [
    (|bench| bench.open(3), DONE),
    (|bench| bench.ins(1, Address { row: 9, ..A }), OK),
    (|bench| bench.del(2, B), OK),
    (|bench| bench.operate(2, Procedure::Member, A), OK),
    (|bench| bench.sweep(1, Sweep::Insert, EMPTY), DONE),
    (|bench| bench.sweep(2, Sweep::Delete, EMPTY), DONE),
    (|bench| bench.commit(1), DONE),
    (|bench| bench.abort(1), DONE),
    (|bench| bench.commit(2), DONE),
    (|bench| bench.abort(2), DONE),
];

/// Every call is refused while it is wrong, and done where it is not.
fn check_wrong(sound: &Bench, wrong: &Bench, requirements: &[Requirement]) {
    assert_eq!(broken(&wrong.session, &wrong.tables), requirements);
    for (call, told) in CALLS {
        let mut refusing = wrong.clone();
        assert_eq!(call(&mut refusing), refused(1));
        assert_eq!(refusing, *wrong);
        refusing.count_anew();
        assert_eq!(refusing, *sound);
        assert_eq!(call(&mut refusing), told);
    }
}

/// Numbers that are not the right one.
fn wrongs(right: u32) -> Vec<u32> {
    let near = [right + 1, right - 1, 0, right + 2, right << 1];
    let far = [u32::MAX, 1 << 31, right + (1 << 8), right + (1 << 16)];
    let all = near.into_iter().chain(far);
    all.filter(|wrong| *wrong != right).collect()
}

#[test]
fn the_count_of_each_level() {
    for rule in RULES {
        let sound = sound_bench(rule);
        for zoom in LEVELS {
            let place = usize::from(zoom) - 4;
            for count in wrongs(sound.session.levels[place]) {
                let mut wrong = sound.clone();
                wrong.session.levels[place] = count;
                check_wrong(&sound, &wrong, &[Requirement::LevelCount(zoom)]);
            }
        }
    }
}

#[test]
fn the_count_of_places_spoken_for() {
    for rule in RULES {
        let sound = sound_bench(rule);
        let with_tiles = sound.session.tiles + sound.session.spoken;
        for count in wrongs(sound.session.spoken).into_iter().chain([with_tiles]) {
            let mut wrong = sound.clone();
            wrong.session.spoken = count;
            check_wrong(&sound, &wrong, &[Requirement::SpokenCount]);
        }
    }
}

/// That they add up to the count of tiles is not enough.
#[test]
fn a_tile_counted_on_another_level() {
    for rule in RULES {
        let sound = sound_bench(rule);
        for from in LEVELS {
            for to in LEVELS.filter(|to| *to != from) {
                let mut wrong = sound.clone();
                wrong.session.levels[usize::from(from) - 4] -= 1;
                wrong.session.levels[usize::from(to) - 4] += 1;
                let both = [from.min(to), from.max(to)].map(Requirement::LevelCount);
                check_wrong(&sound, &wrong, &both);
            }
        }
    }
}

/// By rule 2 an entry of kind 3 counts only while its tile is away, and a tile counts once.
#[test]
fn places_spoken_for_as_the_other_rule_counts_them() {
    for (words, right) in [("di", 0), ("did", 1), ("didi", 0), ("didid", 1)] {
        let mut bench = Bench::with_places_by(Rule::JobAsOne, 9, &[A]);
        for word in words.chars() {
            let told = match word {
                'd' => bench.del(1, A),
                _ => bench.ins(1, A),
            };
            assert_eq!(told, OK);
        }
        assert_eq!(bench.session.spoken, right, "{}", words);
        bench.session.spoken = words.matches('d').count() as u32;
        assert_eq!(bench.mem(2, B), refused(1));
        bench.session.spoken = right;
        assert_eq!(bench.mem(2, B), FAIL);
    }
}
