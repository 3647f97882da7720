//! The table of the scope paper, the rule of the service and Definition 2 of the report agree.

use crate::common::{tile, A, B, TABLE};
use second::operation::{Admitted, Kind, Origin, Procedure, Recovery, KINDS};
use second::strictness::{commutes, inverse, step_on, Step, Tiles};

fn recoveries() -> [Recovery; 5] {
    [
        Recovery::Insert(tile(A)),
        Recovery::Insert(tile(B)),
        Recovery::Delete(tile(A)),
        Recovery::Delete(tile(B)),
        Recovery::Skip,
    ]
}

fn procedure_of(kind: Kind) -> (Procedure, bool) {
    match kind {
        Kind::Added => (Procedure::Insert, false),
        Kind::AlreadyThere => (Procedure::Insert, true),
        Kind::Removed => (Procedure::Delete, true),
        Kind::AlreadyGone => (Procedure::Delete, false),
        Kind::Seen => (Procedure::Member, true),
        Kind::Missed => (Procedure::Member, false),
    }
}

/// The step on tile A that has this kind.
fn step_of(kind: Kind) -> Step {
    let (procedure, present) = procedure_of(kind);
    let found: Tiles = Some(tile(A)).filter(|_| present).into_iter().collect();
    step_on(0, procedure, tile(A), &found)
}

#[test]
fn all_thirty_entries() {
    for (kind, row) in KINDS.iter().zip(TABLE) {
        let admitted = Admitted {
            kind: *kind,
            origin: Origin::default(),
            tile: tile(A),
        };
        for (recovery, due) in recoveries().iter().zip(row) {
            assert_eq!(
                admitted.commutes_with(*recovery),
                due,
                "{:?} {:?}",
                kind,
                recovery
            );
            assert_eq!(
                commutes(step_of(*kind), *recovery),
                due,
                "{:?} {:?}",
                kind,
                recovery
            );
        }
    }
}

#[test]
fn recoveries_and_answers_of_the_kinds() {
    for (number, kind) in (1u64..).zip(KINDS) {
        let (procedure, present) = procedure_of(kind);
        let admitted = Admitted {
            kind,
            origin: Origin::default(),
            tile: tile(A),
        };
        let found: Tiles = Some(tile(A)).filter(|_| present).into_iter().collect();
        assert_eq!(kind.number(), number);
        assert_eq!(Kind::of(procedure, present), kind);
        assert_eq!(admitted.recovery(), inverse(procedure, tile(A), &found));
        assert_eq!(kind.answers_ok(), step_of(kind).ok);
    }
}
