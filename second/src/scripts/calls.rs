//! Random calls of all kinds, chosen to be accepted often.

use crate::journals::some_sheet;
use crate::operation::Origin;
use crate::random::Random;
use crate::rule::RULES;
use crate::scripts::addresses::{anywhere, refused, Pool};
use crate::scripts::rectangles;
use crate::scripts::spelling::{address_line, operation_line};
use crate::scripts::writer::Writer;

const COMMON_JOBS: [u8; 8] = [0, 1, 2, 3, 3, 4, 62, 63];
const HIGH_JOBS: [u8; 5] = [64, 65, 127, 128, 255];

/// Calls before anything particular was set up.
pub fn some_calls(writer: &mut Writer, calls: usize) {
    let pool = Pool::few(&mut writer.random);
    run(writer, &pool, calls);
}

pub fn run(writer: &mut Writer, pool: &Pool, calls: usize) {
    for _ in 0..calls {
        let line = any_call(writer, pool);
        writer.tell(line);
        writer.look();
    }
}

/// An open job, if there is one and mostly.
fn some_job(writer: &mut Writer) -> u8 {
    let open = writer.open_jobs();
    let random = &mut writer.random;
    match random.below(20) {
        0 => random.pick(&HIGH_JOBS),
        1..=3 => random.pick(&COMMON_JOBS),
        _ if open.is_empty() => random.pick(&COMMON_JOBS),
        _ => random.pick(&open),
    }
}

fn job_to_open(random: &mut Random) -> u8 {
    if random.one_in(16) {
        random.pick(&HIGH_JOBS)
    } else {
        random.pick(&COMMON_JOBS)
    }
}

fn any_call(writer: &mut Writer, pool: &Pool) -> String {
    let job = some_job(writer);
    let none_open = writer.open_jobs().is_empty();
    let random = &mut writer.random;
    match random.below(28) {
        0..=2 => format!("open {}", job_to_open(random)),
        3..=16 if none_open => format!("open {}", job_to_open(random)),
        3 => format!("commit {}", job),
        4 => format!("abort {}", job),
        5 => format!("{} {}", random.pick(&["commit", "abort"]), job),
        6 => address_step(random, pool),
        7 => read_somewhere(writer),
        9 => {
            let origin = some_origin(random, job);
            rectangles::some_line(random, pool, origin)
        }
        8 if random.one_in(6) => {
            let tiles = writer.console.session.tiles;
            format!("start {} {}", tiles, random.pick(&RULES).number())
        }
        _ => operation(random, pool, job),
    }
}

fn some_origin(random: &mut Random, job: u8) -> Origin {
    let sheet = some_sheet(random);
    Origin { job, sheet }
}

/// A rectangle of some job.
pub fn rectangle(writer: &mut Writer, pool: &Pool) {
    let job = some_job(writer);
    let origin = some_origin(&mut writer.random, job);
    let line = rectangles::some_line(&mut writer.random, pool, origin);
    writer.tell(line);
}

pub fn operation(random: &mut Random, pool: &Pool, job: u8) -> String {
    let word = random.pick(&["ins", "ins", "ins", "del", "del", "mem"]);
    operation_line(word, some_origin(random, job), pool.any(random))
}

fn address_step(random: &mut Random, pool: &Pool) -> String {
    let place = match random.below(6) {
        0..=1 => refused(random),
        2..=3 => anywhere(random),
        _ => pool.any(random),
    };
    address_line(place)
}

pub fn address_steps(writer: &mut Writer, times: usize) {
    let pool = Pool::few(&mut writer.random);
    for _ in 0..times {
        let line = address_step(&mut writer.random, &pool);
        writer.tell(line);
    }
}

fn read_somewhere(writer: &mut Writer) -> String {
    let used = writer.console.used_journal().len();
    let place = match writer.random.below(8) {
        0 => writer.random.pick(&[4_294_967_295, 65_536, 66_000]),
        1 => used,
        2 => used + 1,
        _ => writer.random.below(used + 1),
    };
    format!("read {}", place)
}

pub fn read_here_and_there(writer: &mut Writer, times: usize) {
    for _ in 0..times {
        let line = read_somewhere(writer);
        writer.tell(line);
    }
}

/// Reads at every place of the journal and a little behind it.
pub fn read_everywhere(writer: &mut Writer) {
    let used = writer.console.used_journal().len();
    for place in 0..used.min(400) + 3 {
        writer.tell(format!("read {}", place));
    }
}
