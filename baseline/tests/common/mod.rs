//! A world with its jobs 1 and 2 open, and calls by short names.

use baseline::entry::Origin;
use baseline::journal::Procedure;
use baseline::replay::{replay, Replayed, Stop};
use baseline::reply::{numbers, Done, Refusal, Reply};
use baseline::rule::Rule;
use baseline::session::JOBS;
use baseline::soundness::Check;
use baseline::tile::{Address, FROM_NORTH};
use baseline::workload::world::{Call, World};

pub const A: Address = Address {
    edition: FROM_NORTH,
    zoom: 4,
    column: -1,
    row: 5,
};
pub const B: Address = Address {
    edition: FROM_NORTH,
    zoom: 14,
    column: -1,
    row: 16_383,
};
pub const C: Address = Address {
    edition: FROM_NORTH,
    zoom: 4,
    column: 16,
    row: 0,
};

/// So many numbers a reply may have, with those that only a replay gives.
pub const NUMBERS: usize = 15;

/// A reply without its turns, which turns.rs looks at.
pub type Answer = Result<bool, Refusal>;

pub const DONE: Answer = Ok(false);
pub const OK: Answer = Ok(true);
pub const FAIL: Answer = Ok(false);

pub fn answer(reply: Reply) -> Answer {
    reply.map(|done| done.answer)
}

/// The number, the answer and the holder's job.
pub fn numbers_of(answer: Answer) -> [i64; 3] {
    let without_turns = |answer| Done {
        answer,
        ..Done::default()
    };
    let [number, answer, holder, ..] = numbers(answer.map(without_turns));
    [number, answer, holder]
}

/// A job as it asks here: always for the same sheet, by which its holds are known.
pub const fn of_job(job: u8) -> Origin {
    let sheet = 0xFF00 + job as u16;
    Origin { job, sheet }
}

pub fn held(job: u8) -> Answer {
    Err(Refusal::Held(of_job(job)))
}

pub struct Case {
    pub world: World,
}

impl Case {
    pub fn ample(present: &[Address]) -> Case {
        Case::with_places(4_096, present)
    }

    /// So many tile places, these tiles, and jobs 1 and 2 open, by the first rule.
    pub fn with_places(places: usize, present: &[Address]) -> Case {
        Case::by(Rule::Alone, places, present)
    }

    pub fn by(rule: Rule, places: usize, present: &[Address]) -> Case {
        let keys = present.iter().filter_map(|a| a.key()).collect();
        let mut world = World::with_tiles(keys);
        world.tiles.truncate(places);
        let mut case = Case { world };
        assert_eq!(case.call(Call::Start(present.len(), rule)), DONE);
        assert_eq!(case.call(Call::Open(1)), DONE);
        assert_eq!(case.call(Call::Open(2)), DONE);
        case
    }

    pub fn call(&mut self, call: Call) -> Answer {
        answer(self.reply(call))
    }

    /// Makes a call with every check; they all reply the same and leave the same.
    pub fn reply(&mut self, call: Call) -> Reply {
        let before = self.world.clone();
        let reply = self.world.call(Check::Filter, call);
        for check in Check::ALL {
            let mut other = before.clone();
            assert_eq!(other.call(check, call), reply, "{check:?} {call:?}");
            assert!(other == self.world, "{check:?} {call:?}");
        }
        if reply.is_err() && !matches!(call, Call::Start(..)) {
            assert!(self.world == before, "{call:?} was refused");
        }
        reply
    }

    pub fn insert(&mut self, job: u8, address: Address) -> Answer {
        self.call(Call::Operation(of_job(job), Procedure::Insert, address))
    }

    pub fn delete(&mut self, job: u8, address: Address) -> Answer {
        self.call(Call::Operation(of_job(job), Procedure::Delete, address))
    }

    pub fn member(&mut self, job: u8, address: Address) -> Answer {
        self.call(Call::Operation(of_job(job), Procedure::Member, address))
    }

    pub fn commit(&mut self, job: u8) -> Answer {
        self.call(Call::Commit(job))
    }

    pub fn abort(&mut self, job: u8) -> Answer {
        self.call(Call::Abort(job))
    }

    pub fn has(&self, address: Address) -> bool {
        let used = &self.world.tiles[..self.world.session.tiles];
        address.key().map_or(false, |key| used.contains(&key))
    }
}

/// What all checks say.
pub fn is_sound(world: &mut World) -> bool {
    let sound = world.is_sound(Check::Pairs);
    for check in Check::ALL {
        assert_eq!(world.is_sound(check), sound, "{check:?}");
    }
    sound
}

/// The world as it is after every open job is aborted.
pub fn ended(mut world: World) -> World {
    for job in 0..JOBS as u8 {
        if world.session.is_open(job) {
            assert_eq!(answer(world.call(Check::Filter, Call::Abort(job))), DONE);
        }
    }
    world
}

/// Replays with every check, which all leave the same; the operations table ends all 0.
pub fn replayed(journal: &[u8], start: &World) -> (Replayed, Vec<u32>) {
    let mut results = Check::ALL.iter().map(|&check| {
        let mut world = start.clone();
        world.operations.fill(77);
        let (tiles, operations) = (&mut world.tiles, &mut world.operations);
        let result = replay(check, journal, tiles, start.session.tiles, operations);
        let left = if result.stop == Stop::NotSound { 77 } else { 0 };
        assert!(world.operations.iter().all(|&e| e == left));
        (result, world.tiles)
    });
    let first = results.next().unwrap();
    assert!(results.all(|other| other == first));
    first
}
