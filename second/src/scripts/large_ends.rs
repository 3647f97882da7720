//! Jobs that gather many entries, by rectangles and by single operations, while another job has its
//! own between them; and their ends.

use crate::random::Random;
use crate::rule::{Rule, RULES};
use crate::scripts::blocks::{Block, LOWEST_ZOOM};
use crate::scripts::deeds::{mix, Matter, DEEDS, MATTERS};
use crate::scripts::replays::replay_or_mend;
use crate::scripts::spelling::address_of;
use crate::scripts::writer::Writer;
use crate::session::{length_of, MOST_OPERATIONS};
use crate::soundness::job_of;
use crate::tile::{Tile, ZOOMS};

/// The job that grows large, and the other one.
const OWNER: u8 = 1;
const OTHER: u8 = 2;
const MOST_OF_OTHER: usize = 24;

const ENDS: [&str; 2] = ["abort", "commit"];

/// More single operations than this in a job would make a script long.
const MOST_SINGLE: usize = 256;

#[derive(Clone, Copy)]
enum Order {
    Rising,
    Falling,
    Mixed,
}

const ORDERS: [Order; 3] = [Order::Rising, Order::Falling, Order::Mixed];

impl Order {
    /// Puts what is in rising order into this one.
    fn put<T>(self, random: &mut Random, items: &mut [T]) {
        match self {
            Order::Rising => {}
            Order::Falling => items.reverse(),
            Order::Mixed => mix(random, items),
        }
    }

    /// Across the seam the keys of a rectangle's list do not rise.
    fn some_west(self, random: &mut Random) -> i32 {
        match self {
            Order::Rising | Order::Falling => 0,
            Order::Mixed => random.pick(&[0, -3, -1_000_001, i32::MIN]),
        }
    }
}

/// A job: how many entries it gathers, what they come to and in which order, and how it ends.
struct Plan {
    rule: Rule,
    size: usize,
    order: Order,
    matter: Matter,
    end: &'static str,
}

impl Plan {
    /// A block for each deed, on a level of its own, in the order in which the job goes through them.
    fn blocks(&self, random: &mut Random) -> Vec<Block> {
        let highest = usize::from(*ZOOMS.end());
        let lowest = random.between(LOWEST_ZOOM, highest + 1 - DEEDS);
        let mut blocks = Vec::new();
        for (place, deed) in self.matter.deeds(random, self.rule).into_iter().enumerate() {
            let zoom = (lowest + place) as u8;
            let west = self.order.some_west(random);
            blocks.push(Block::of(random, zoom, west, self.size / DEEDS, deed));
        }
        self.order.put(random, &mut blocks);
        blocks
    }

    /// The entries that are left for the other job.
    fn of_other(&self) -> usize {
        MOST_OF_OTHER.min(MOST_OPERATIONS - self.size)
    }

    /// Only single operations go through a block from its last tile to its first.
    fn goes_one_by_one(&self, random: &mut Random) -> bool {
        let falling = matches!(self.order, Order::Falling) && self.size <= MOST_SINGLE;
        falling || random.one_in(8)
    }
}

/// Any job of any size.
pub fn end_any_size(writer: &mut Writer) {
    let random = &mut writer.random;
    let any = random.between(12, 300);
    let plan = Plan {
        rule: random.pick(&RULES),
        size: random.pick(&[any, any, any, 16, 64, 100, 256, 1000, MOST_OPERATIONS]),
        order: random.pick(&ORDERS),
        matter: random.pick(&MATTERS),
        end: random.pick(&ENDS),
    };
    gather_and_end(writer, &plan);
}

/// By both rules and with both ends: every size, every matter and every order of many changes.
pub fn end_every_size(writer: &mut Writer) {
    for rule in RULES {
        for end in ENDS {
            end_every_size_by(writer, rule, end);
        }
    }
}

fn end_every_size_by(writer: &mut Writer, rule: Rule, end: &'static str) {
    let (additions, removals) = (Matter::Additions, Matter::Removals);
    let in_turn = [[additions, removals], [removals, additions]];
    let [one, other] = writer.random.pick(&in_turn);
    let in_vain = writer.random.pick(&[64, 100, 256, 1000]);
    let plans = [
        (16, Order::Falling, Matter::Both),
        (64, Order::Rising, one),
        (100, Order::Mixed, Matter::Both),
        (256, Order::Falling, one),
        (256, Order::Mixed, Matter::Both),
        (1000, Order::Rising, other),
        (MOST_OPERATIONS, Order::Mixed, Matter::Both),
        (in_vain, Order::Mixed, Matter::Nothing),
    ];
    for (size, order, matter) in plans {
        let plan = Plan {
            rule,
            size,
            order,
            matter,
            end,
        };
        gather_and_end(writer, &plan);
    }
}

fn gather_and_end(writer: &mut Writer, plan: &Plan) {
    let blocks = plan.blocks(&mut writer.random);
    begin(writer, plan, &blocks);
    for block in &blocks {
        if plan.goes_one_by_one(&mut writer.random) {
            operate_on(writer, plan, block);
        } else {
            sweep_over(writer, plan, block);
        }
    }
    for _ in entries_of(writer, OWNER)..plan.size {
        let block = writer.random.below(DEEDS);
        let tile = blocks[block].unchanged_tile(&mut writer.random);
        operate(writer, "mem", OWNER, tile);
    }
    ask(writer);
    let used = writer.console.used_journal().len();
    end(writer, plan.end, OWNER);
    let word = writer.random.pick(&ENDS);
    end(writer, word, OTHER);
    // Cut before the ends, the journal leaves both jobs to be undone.
    let tiles = length_of(writer.console.session.tiles);
    replay_or_mend(writer, tiles, used);
    writer.tell("sum");
}

/// Lends just enough tile places, or a few more, and puts the tiles there that the job finds.
fn begin(writer: &mut Writer, plan: &Plan, blocks: &[Block]) {
    let needed: usize = blocks.iter().map(Block::places).sum();
    let spare = writer.random.pick(&[0, 0, 1, 30]);
    let operations = plan.size + plan.of_other();
    writer.lend(needed + spare, operations, 1000 + 40 * plan.size);
    writer.start_by(plan.rule, 0);
    for block in blocks {
        for rectangle in block.beginning(&mut writer.random) {
            writer.tell(format!("open {}", OWNER));
            writer.sweep("insall", OWNER, rectangle);
            writer.tell(format!("commit {}", OWNER));
        }
    }
    for job in [OWNER, OTHER] {
        writer.tell(format!("open {}", job));
    }
}

fn entries_of(writer: &Writer, job: u8) -> usize {
    let used = length_of(writer.console.session.operations);
    let entries = writer.console.tables.operations.iter().take(used);
    entries
        .filter(|entry| job_of(**entry) == usize::from(job))
        .count()
}

fn operate(writer: &mut Writer, word: &str, job: u8, tile: Option<Tile>) {
    if let Some(tile) = tile {
        let place = address_of(&mut writer.random, tile);
        writer.operate(word, job, place);
    }
}

fn sweep_over(writer: &mut Writer, plan: &Plan, block: &Block) {
    for word in block.words() {
        let rectangle = block.whole(&mut writer.random);
        writer.sweep(&format!("{}all", word), OWNER, rectangle);
        for _ in 0..2 {
            let_other_operate(writer, plan, block);
        }
    }
}

/// One word after the other on all tiles, or all words on one tile after the other.
fn operate_on(writer: &mut Writer, plan: &Plan, block: &Block) {
    let mut tiles = block.tiles(&mut writer.random);
    plan.order.put(&mut writer.random, &mut tiles);
    let words = block.words();
    let of_word = |word: &&'static str| -> Vec<(&str, Tile)> {
        let on_tile = |tile: &Tile| (*word, *tile);
        tiles.iter().map(on_tile).collect()
    };
    let mut steps: Vec<(&str, Tile)> = words.iter().flat_map(of_word).collect();
    if writer.random.one_in(2) {
        // A stable sort keeps the words in their order.
        steps.sort_by_key(|(_, tile)| tiles.iter().position(|other| other == tile));
    }
    for (word, tile) in steps {
        operate(writer, word, OWNER, Some(tile));
        if writer.random.one_in(8) {
            let_other_operate(writer, plan, block);
        }
    }
}

/// The other job goes on, as long as it leaves the places that the large one needs.
fn let_other_operate(writer: &mut Writer, plan: &Plan, block: &Block) {
    if entries_of(writer, OTHER) < plan.of_other() {
        let word = writer.random.pick(&["ins", "del", "mem"]);
        let tile = block.others_tile(&mut writer.random);
        operate(writer, word, OTHER, tile);
    }
}

fn ask(writer: &mut Writer) {
    writer.tell("levels");
    writer.tell("sum");
}

fn end(writer: &mut Writer, word: &str, job: u8) {
    writer.tell(format!("{} {}", word, job));
    ask(writer);
}
