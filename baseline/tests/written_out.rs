//! A rectangle is its operations, one after another, or it is refused as a whole.

use crate::common::*;
use baseline::entry::Origin;
use baseline::rectangle::{Change, Rectangle};
use baseline::reply::{numbers, Done, Refusal, Reply};
use baseline::rule::Rule;
use baseline::session::{MOST_JOURNAL, MOST_OPERATIONS, MOST_TILES};
use baseline::soundness::Check;
use baseline::workload::histories::{any_next_call, small_world};
use baseline::workload::packs::IDLE_JOB;
use baseline::workload::random::Random;
use baseline::workload::rectangles::roomy_pack;
use baseline::workload::world::{Call, World};

/// A rectangle for a job.
#[derive(Clone, Copy)]
struct Asked {
    origin: Origin,
    change: Change,
    rectangle: Rectangle,
}

impl Asked {
    fn operations(self) -> impl Iterator<Item = Call> {
        let Asked { origin, change, .. } = self;
        let addresses = self.rectangle.addresses();
        addresses.map(move |address| Call::Operation(origin, change.procedure(), address))
    }

    /// The first refusal of its operations, one after another, which the world is left with; or
    /// the turns of the first of them, which is the most western, and of the last.
    fn written_out(self, world: &mut World) -> Reply {
        let turns = self
            .operations()
            .map(|call| Ok(world.call(Check::Filter, call)?.turns))
            .collect::<Result<Vec<i32>, Refusal>>()?;
        Ok(Done {
            answer: false,
            turns: turns[0],
            last: turns[turns.len() - 1],
        })
    }

    /// The first held tile's reply, on the tables as they stand.
    fn held(self, world: &World) -> Option<Reply> {
        let replies = self
            .operations()
            .map(|call| world.clone().call(Check::Filter, call));
        replies
            .into_iter()
            .find(|reply| matches!(reply, Err(Refusal::Held(_))))
    }

    /// The reply, found by running out of each room alone.
    fn expected(self, world: &World) -> Reply {
        if let Some(held) = self.held(world) {
            return held;
        }
        let rooms: [fn(&mut World, &World); 3] = [
            |ample, world| ample.tiles = world.tiles.clone(),
            |ample, world| ample.operations = world.operations.clone(),
            |ample, world| ample.journal = world.journal.clone(),
        ];
        for room in rooms {
            let mut ample = widened(world);
            room(&mut ample, world);
            self.written_out(&mut ample)?;
        }
        self.written_out(&mut widened(world))
    }
}

/// The same with tables of the largest lengths.
fn widened(world: &World) -> World {
    let mut world = world.clone();
    world.tiles.resize(MOST_TILES, 0);
    world.operations.resize(MOST_OPERATIONS, 0);
    world.journal.resize(MOST_JOURNAL, 0);
    world
}

/// Makes the call, and counts its number.
fn ask(case: &mut Case, asked: Asked, told: &mut [usize; NUMBERS]) {
    let before = case.world.clone();
    let reply = case.reply(Call::Rectangle(asked.origin, asked.change, asked.rectangle));
    let number = numbers(reply)[0];
    told[number as usize] += 1;
    if [2, 3, 14, 5, 13].contains(&number) {
        return;
    }
    assert_eq!(reply, asked.expected(&before), "{:?}", asked.rectangle);
    let mut other = before;
    assert_eq!(asked.written_out(&mut other).is_ok(), reply.is_ok());
    assert!(reply.is_err() || other == case.world);
}

#[test]
fn on_random_histories() {
    let mut random = Random::seeded(31);
    for rule in Rule::ALL {
        let mut told = [0; NUMBERS];
        for _ in 0..150 {
            history(&mut random, rule, &mut told);
        }
        let never: Vec<usize> = (0..NUMBERS).filter(|&n| told[n] == 0).collect();
        assert_eq!(never, [1, 4, 10, 11, 12], "{told:?}");
    }
}

fn history(random: &mut Random, rule: Rule, told: &mut [usize; NUMBERS]) {
    let keys = random.distinct_keys(Vec::new(), 4);
    let mut case = Case {
        world: small_world(random, &keys),
    };
    case.world
        .tiles
        .resize(1 + case.world.session.tiles + random.below(12), 0);
    let start = Call::Start(case.world.session.tiles, rule);
    assert_eq!(case.call(start), DONE);
    for _ in 0..80 {
        match any_next_call(random, &keys, 4, &case.world) {
            Call::Rectangle(origin, change, rectangle) => {
                let asked = Asked {
                    origin,
                    change,
                    rectangle,
                };
                ask(&mut case, asked, told);
            }
            call => drop(case.call(call)),
        }
        assert!(is_sound(&mut case.world));
    }
}

#[test]
fn on_full_tables() {
    for rule in Rule::ALL {
        let mut told = [0; NUMBERS];
        for seed in 0..7 {
            for change in Change::ALL {
                let (world, rectangle) = roomy_pack(rule, change, seed);
                let origin = of_job(IDLE_JOB);
                let asked = Asked {
                    origin,
                    change,
                    rectangle,
                };
                ask(&mut Case { world }, asked, &mut told);
            }
        }
        assert_eq!(told[0], 14);
    }
}
