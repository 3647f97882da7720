//! What jobs with many entries find in a block of tiles and do with it.

use crate::random::Random;
use crate::rule::Rule;

/// How much of a block is there before the job begins.
#[derive(Clone, Copy)]
pub enum Found {
    Nothing,
    Half,
    All,
}

/// What a job finds and then does with every tile of a block, one word after the other.
pub type Deed = (Found, &'static [&'static str]);

/// Deeds of a job.
pub const DEEDS: usize = 4;

const ADDITION: Deed = (Found::Nothing, &["ins"]);
const REMOVAL: Deed = (Found::All, &["del"]);
const IN_VAIN: [Deed; 2] = [(Found::All, &["ins"]), (Found::Nothing, &["del"])];
const PARTLY_IN_VAIN: [Deed; 2] = [(Found::Half, &["ins"]), (Found::Half, &["del"])];

/// Only the second word changes a tile.
const FIRST_IN_VAIN: [Deed; 2] = [
    (Found::All, &["ins", "del"]),
    (Found::Nothing, &["del", "ins"]),
];

/// A tile is changed more than once, as only rule 2 allows.
const AGAIN: [Deed; 5] = [
    (Found::All, &["del", "ins"]),
    (Found::Nothing, &["ins", "del"]),
    (Found::All, &["del", "ins", "del"]),
    (Found::Nothing, &["ins", "del", "ins"]),
    (Found::Half, &["ins", "del", "ins"]),
];

/// What the deeds of a job come to.
#[derive(Clone, Copy)]
pub enum Matter {
    Additions,
    Removals,
    Both,
    Nothing,
}

pub const MATTERS: [Matter; 4] = [
    Matter::Additions,
    Matter::Removals,
    Matter::Both,
    Matter::Nothing,
];

impl Matter {
    pub fn deeds(self, random: &mut Random, rule: Rule) -> [Deed; DEEDS] {
        let ([one, other], more): ([Deed; 2], &[Deed]) = match self {
            Matter::Additions => ([ADDITION; 2], &[ADDITION]),
            Matter::Removals => ([REMOVAL; 2], &[REMOVAL]),
            Matter::Nothing => (IN_VAIN, &IN_VAIN),
            Matter::Both => match rule {
                Rule::EachAlone => (PARTLY_IN_VAIN, &FIRST_IN_VAIN),
                Rule::JobAsOne => (PARTLY_IN_VAIN, &AGAIN),
            },
        };
        let mut deeds = [one, other, random.pick(more), random.pick(more)];
        mix(random, &mut deeds);
        deeds
    }
}

/// Puts the items into any order.
pub fn mix<T>(random: &mut Random, items: &mut [T]) {
    for place in 1..items.len() {
        items.swap(place, random.below(place + 1));
    }
}
