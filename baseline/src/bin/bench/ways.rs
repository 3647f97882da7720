//! Every way to make a call.

use crate::proved::{self, Rebuilt, Told};
use baseline::replay;
use baseline::reply;
use baseline::soundness::Check;
use baseline::workload::world::{Call, World};

#[derive(Clone, Copy, Debug, PartialEq, Eq)]
pub enum Way {
    Rust(Check),
    Proved,
}

pub const WAYS: [Way; 5] = [
    Way::Rust(Check::Pairs),
    Way::Rust(Check::Sets),
    Way::Rust(Check::Filter),
    Way::Rust(Check::Tuned),
    Way::Proved,
];

impl Way {
    pub fn name(self) -> &'static str {
        match self {
            Way::Rust(Check::Pairs) => "pairs",
            Way::Rust(Check::Sets) => "sets",
            Way::Rust(Check::Filter) => "filter",
            Way::Rust(Check::Tuned) => "tuned",
            Way::Proved => "proved",
        }
    }

    pub fn is_sound(self, world: &mut World) -> bool {
        match self {
            Way::Rust(check) => world.is_sound(check),
            Way::Proved => proved::is_sound(world),
        }
    }

    pub fn call(self, world: &mut World, call: Call) -> Told {
        match self {
            Way::Rust(check) => reply::numbers(world.call(check, call)),
            Way::Proved => proved::call(world, call),
        }
    }

    /// Replays a journal onto the tiles of a world, with its count and its operations table.
    pub fn replay(self, journal: &[u8], world: &mut World) -> Rebuilt {
        let count = world.session.tiles;
        let (tiles, operations) = (&mut world.tiles, &mut world.operations);
        match self {
            Way::Rust(check) => {
                let replayed = replay::replay(check, journal, tiles, count, operations);
                [
                    replayed.stop as u64,
                    replayed.offset as u64,
                    replayed.undone as u64,
                    replayed.count as u64,
                ]
            }
            Way::Proved => proved::replay(journal, tiles, count, operations),
        }
    }
}
