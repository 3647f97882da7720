//! Strictness by the report's definitions and brute force. Nothing here uses the service's own
//! tables or rules: it is what they are tested against.

use crate::operation::{Procedure, Recovery};
use crate::rule::Rule;
use crate::tile::Tile;
use std::collections::{BTreeMap, BTreeSet};

pub type Tiles = BTreeSet<Tile>;

/// An operation of a history that is not struck out. Each open begins a transaction of its own,
/// also where its job's number was used before.
#[derive(Clone, Copy, Debug, PartialEq, Eq)]
pub struct Step {
    pub transaction: usize,
    pub procedure: Procedure,
    pub tile: Tile,
    pub ok: bool,
    pub recovery: Recovery,
    pub finished: bool,
}

/// What running a list of operations leaves, and the most tiles there were on the way.
#[derive(Clone, Debug, PartialEq, Eq)]
pub struct Run {
    pub tiles: Tiles,
    pub most: usize,
}

/// Runs a procedure and gives its answer, by appendix D.
pub fn perform(procedure: Procedure, tile: Tile, tiles: &mut Tiles) -> bool {
    match procedure {
        Procedure::Insert => {
            tiles.insert(tile);
            true
        }
        Procedure::Delete => {
            tiles.remove(&tile);
            true
        }
        Procedure::Member => tiles.contains(&tile),
    }
}

/// The inverse of a procedure run on these tiles, by appendix D.
pub fn inverse(procedure: Procedure, tile: Tile, tiles: &Tiles) -> Recovery {
    match (procedure, tiles.contains(&tile)) {
        (Procedure::Insert, false) => Recovery::Delete(tile),
        (Procedure::Delete, true) => Recovery::Insert(tile),
        (Procedure::Insert, true) | (Procedure::Delete, false) | (Procedure::Member, _) => {
            Recovery::Skip
        }
    }
}

/// The step that a procedure would be on these tiles.
pub fn step_on(transaction: usize, procedure: Procedure, tile: Tile, tiles: &Tiles) -> Step {
    Step {
        transaction,
        procedure,
        tile,
        ok: perform(procedure, tile, &mut tiles.clone()),
        recovery: inverse(procedure, tile, tiles),
        finished: false,
    }
}

/// Runs the steps from the starting tiles; none if one gives another answer than it had.
pub fn run<'a>(start: &Tiles, steps: impl Iterator<Item = &'a Step>) -> Option<Run> {
    let mut tiles = start.clone();
    let mut most = tiles.len();
    for step in steps {
        if perform(step.procedure, step.tile, &mut tiles) != step.ok {
            return None;
        }
        most = most.max(tiles.len());
    }
    Some(Run { tiles, most })
}

/// Places of unfinished steps that are dropped together or not at all.
pub type Group = Vec<usize>;

/// What fails as one: by rule 1 each unfinished step, by rule 2 all steps of an open job.
pub fn groups(rule: Rule, steps: &[Step]) -> Vec<Group> {
    let mut groups: BTreeMap<usize, Group> = BTreeMap::new();
    let unfinished = steps.iter().enumerate().filter(|(_, step)| !step.finished);
    for (place, step) in unfinished {
        let name = match rule {
            Rule::EachAlone => place,
            Rule::JobAsOne => step.transaction,
        };
        groups.entry(name).or_default().push(place);
    }
    groups.into_values().collect()
}

/// The steps that are left when these groups are dropped.
fn without(steps: &[Step], dropped: &BTreeSet<Group>) -> Vec<Step> {
    let mut kept = vec![true; steps.len()];
    for place in dropped.iter().flatten() {
        kept[*place] = false;
    }
    let left = steps.iter().zip(kept).filter(|(_, kept)| *kept);
    left.map(|(step, _)| *step).collect()
}

/// Whether the rest of one choice runs with its answers, and each group still in can be undone.
fn choice_stands(start: &Tiles, steps: &[Step], all: &[Group], dropped: &BTreeSet<Group>) -> bool {
    let left = match run(start, without(steps, dropped).iter()) {
        None => return false,
        Some(run) => run.tiles,
    };
    let mut still_in = all.iter().filter(|group| !dropped.contains(*group));
    still_in.all(|group| {
        let mut undone = left.clone();
        for place in group.iter().rev() {
            steps[*place].recovery.run(&mut undone);
        }
        let mut dropped_too = dropped.clone();
        dropped_too.insert(group.clone());
        // The rest is run for the tiles it leaves; its answers are another choice's matter.
        undone == tiles_after(start, without(steps, &dropped_too).iter())
    })
}

fn tiles_after<'a>(start: &Tiles, steps: impl Iterator<Item = &'a Step>) -> Tiles {
    let mut tiles = start.clone();
    for step in steps {
        perform(step.procedure, step.tile, &mut tiles);
    }
    tiles
}

/// Definition 1, over all choices of what to drop; a group's recoveries run newest first.
pub fn strict(rule: Rule, start: &Tiles, steps: &[Step]) -> bool {
    let all = groups(rule, steps);
    let mut choices = subsets(&all).into_iter();
    choices.all(|dropped| choice_stands(start, steps, &all, &dropped))
}

/// The most tiles that there are at any time in any choice that runs.
pub fn most_tiles(rule: Rule, start: &Tiles, steps: &[Step]) -> usize {
    let choices = subsets(&groups(rule, steps)).into_iter();
    let runs = choices.filter_map(|dropped| run(start, without(steps, &dropped).iter()));
    runs.map(|run| run.most).max().unwrap_or(0)
}

/// Definition 2, over every set made of the two tiles the pair and the recovery can speak of.
pub fn commutes(step: Step, recovery: Recovery) -> bool {
    let other = match recovery {
        Recovery::Insert(tile) | Recovery::Delete(tile) => tile,
        Recovery::Skip => step.tile,
    };
    let legal: Vec<Tiles> = subsets(&[step.tile, other])
        .into_iter()
        .filter(|tiles| pair_is_legal(step, tiles))
        .collect();
    !legal.is_empty()
        && legal.iter().all(|tiles| {
            let mut recovered_first = tiles.clone();
            recovery.run(&mut recovered_first);
            let still_legal = pair_is_legal(step, &recovered_first);
            perform(step.procedure, step.tile, &mut recovered_first);
            let mut recovered_last = tiles.clone();
            perform(step.procedure, step.tile, &mut recovered_last);
            recovery.run(&mut recovered_last);
            still_legal && recovered_first == recovered_last
        })
}

/// Whether the operation has its answer on these tiles and its recovery brings them back.
fn pair_is_legal(step: Step, tiles: &Tiles) -> bool {
    let mut after = tiles.clone();
    let answer = perform(step.procedure, step.tile, &mut after);
    step.recovery.run(&mut after);
    answer == step.ok && after == *tiles
}

pub fn subsets<T: Clone + Ord>(items: &[T]) -> Vec<BTreeSet<T>> {
    let mut sets = vec![BTreeSet::new()];
    for item in items {
        let mut with: Vec<BTreeSet<T>> = sets.clone();
        with.iter_mut().for_each(|set| {
            set.insert(item.clone());
        });
        sets.extend(with);
    }
    sets
}
