//! The proved calls. A slice goes as a pointer and a length, an array as a pointer.

use baseline::entry::Origin;
use baseline::levels::LEVELS;
use baseline::rectangle::Rectangle;
use baseline::rule::Rule;
use baseline::session::Session;
use baseline::tile::Address;
use baseline::workload::world::{Call, World};

/// Number, answer, the holder's job and sheet, and turns of a reply.
pub type Told = [i64; 6];

/// The same, as it comes from a proved call.
type Numbers = [i32; 6];

/// Number, offset, jobs undone and tiles left of a replay.
pub type Rebuilt = [u64; 4];

type Marks = [bool; 64];

/// The counts of tiles, operations and journal bytes, the number of the rule, and the places spoken for.
type Parts = [usize; 5];

/// The tiles of each level.
type Levels = [usize; LEVELS];

#[link(name = "bench", kind = "static")]
extern "C" {
    fn bench_sound(
        marks: *const Marks,
        parts: *const Parts,
        levels: *const Levels,
        tiles: *const u32,
        tile_places: usize,
        operations: *const u64,
        operation_places: usize,
        journal: *const u8,
        journal_bytes: usize,
    ) -> bool;
    fn bench_start(
        marks: *mut Marks,
        parts: *mut Parts,
        levels: *mut Levels,
        tiles: *const u32,
        tile_places: usize,
        operations: *mut u64,
        operation_places: usize,
        journal: *mut u8,
        journal_bytes: usize,
        count: usize,
        rule: usize,
        reply: *mut Numbers,
    );
    fn bench_open(
        marks: *mut Marks,
        parts: *mut Parts,
        levels: *mut Levels,
        tiles: *const u32,
        tile_places: usize,
        operations: *const u64,
        operation_places: usize,
        journal: *mut u8,
        journal_bytes: usize,
        job: u8,
        reply: *mut Numbers,
    );
    fn bench_operation(
        marks: *mut Marks,
        parts: *mut Parts,
        levels: *mut Levels,
        tiles: *mut u32,
        tile_places: usize,
        operations: *mut u64,
        operation_places: usize,
        journal: *mut u8,
        journal_bytes: usize,
        job: u8,
        sheet: u16,
        procedure: u8,
        edition: u8,
        zoom: u8,
        column: i32,
        row: i32,
        reply: *mut Numbers,
    );
    fn bench_rectangle(
        marks: *mut Marks,
        parts: *mut Parts,
        levels: *mut Levels,
        tiles: *mut u32,
        tile_places: usize,
        operations: *mut u64,
        operation_places: usize,
        journal: *mut u8,
        journal_bytes: usize,
        job: u8,
        sheet: u16,
        change: u8,
        edition: u8,
        zoom: u8,
        west: i32,
        east: i32,
        top: i32,
        bottom: i32,
        reply: *mut Numbers,
    );
    fn bench_commit(
        marks: *mut Marks,
        parts: *mut Parts,
        levels: *mut Levels,
        tiles: *const u32,
        tile_places: usize,
        operations: *mut u64,
        operation_places: usize,
        journal: *mut u8,
        journal_bytes: usize,
        job: u8,
        reply: *mut Numbers,
    );
    fn bench_abort(
        marks: *mut Marks,
        parts: *mut Parts,
        levels: *mut Levels,
        tiles: *mut u32,
        tile_places: usize,
        operations: *mut u64,
        operation_places: usize,
        journal: *mut u8,
        journal_bytes: usize,
        job: u8,
        reply: *mut Numbers,
    );
    fn bench_replay(
        journal: *const u8,
        journal_bytes: usize,
        tiles: *mut u32,
        tile_places: usize,
        count: usize,
        operations: *mut u64,
        operation_places: usize,
        reply: *mut Rebuilt,
    );
}

/// A session in its parts, as it comes and goes.
struct Passed {
    marks: Marks,
    parts: Parts,
    levels: Levels,
}

impl Passed {
    fn of(session: &Session) -> Passed {
        let rule = session.rule as usize;
        Passed {
            marks: session.marks,
            parts: [
                session.tiles,
                session.operations,
                session.journal,
                rule,
                session.spoken,
            ],
            levels: session.levels,
        }
    }

    fn session(self) -> Session {
        let [tiles, operations, journal, number, spoken] = self.parts;
        let rule = Rule::ALL.into_iter().find(|&rule| rule as usize == number);
        Session {
            rule: rule.expect("the number of a rule"),
            marks: self.marks,
            tiles,
            operations,
            journal,
            levels: self.levels,
            spoken,
        }
    }
}

pub fn is_sound(world: &World) -> bool {
    let passed = Passed::of(&world.session);
    // SAFETY: each pointer is to as many elements as its length says, and is only read
    unsafe {
        bench_sound(
            &passed.marks,
            &passed.parts,
            &passed.levels,
            world.tiles.as_ptr(),
            world.tiles.len(),
            world.operations.as_ptr(),
            world.operations.len(),
            world.journal.as_ptr(),
            world.journal.len(),
        )
    }
}

/// A function with the arguments that all calls on a session have, and then its own.
macro_rules! on_session {
    ($function:ident($passed:expr, $world:expr $(, $argument:expr)*)) => {
        // SAFETY: each pointer is to as many elements as its length says, and no two overlap
        unsafe {
            $function(
                &mut $passed.marks,
                &mut $passed.parts,
                &mut $passed.levels,
                $world.tiles.as_mut_ptr(),
                $world.tiles.len(),
                $world.operations.as_mut_ptr(),
                $world.operations.len(),
                $world.journal.as_mut_ptr(),
                $world.journal.len()
                $(, $argument)*
            )
        }
    };
}

pub fn call(world: &mut World, call: Call) -> Told {
    let mut reply: Numbers = [0; 6];
    let mut passed = Passed::of(&world.session);
    let (p, r) = (&mut passed, &mut reply);
    match call {
        Call::Start(count, rule) => {
            on_session!(bench_start(p, world, count, rule as usize, r))
        }
        Call::Open(job) => on_session!(bench_open(p, world, job, r)),
        Call::Operation(Origin { job, sheet }, procedure, address) => {
            let Address {
                edition,
                zoom,
                column,
                row,
            } = address;
            let asked = procedure as u8;
            on_session!(bench_operation(
                p, world, job, sheet, asked, edition, zoom, column, row, r
            ))
        }
        Call::Rectangle(Origin { job, sheet }, change, rectangle) => {
            let Rectangle {
                edition,
                zoom,
                west,
                east,
                top,
                bottom,
            } = rectangle;
            let asked = change as u8;
            on_session!(bench_rectangle(
                p, world, job, sheet, asked, edition, zoom, west, east, top, bottom, r
            ))
        }
        Call::Commit(job) => on_session!(bench_commit(p, world, job, r)),
        Call::Abort(job) => on_session!(bench_abort(p, world, job, r)),
    }
    world.session = passed.session();
    reply.map(i64::from)
}

pub fn replay(journal: &[u8], tiles: &mut [u32], count: usize, operations: &mut [u64]) -> Rebuilt {
    let mut reply = [0; 4];
    // SAFETY: each pointer is to as many elements as its length says, and no two overlap
    unsafe {
        bench_replay(
            journal.as_ptr(),
            journal.len(),
            tiles.as_mut_ptr(),
            tiles.len(),
            count,
            operations.as_mut_ptr(),
            operations.len(),
            &mut reply,
        );
    }
    reply
}
