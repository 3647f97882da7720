//! Writes a script and follows along what its lines do, so that later lines can be chosen to fit.

use crate::address::Address;
use crate::console::Console;
use crate::journals::some_sheet;
use crate::operation::Origin;
use crate::random::Random;
use crate::rectangle::Rectangle;
use crate::rule::{Rule, RULES};
use crate::scripts::addresses::LEVELS;
use crate::scripts::bad_lines;
use crate::scripts::spelling::{operation_line, rectangle_line};
use crate::scripts::wrong_counts::Kept;
use crate::soundness::fresh_counts;
use crate::tile::Tile;

/// Tables with more numbers than this are summed up rarely.
const MANY_NUMBERS: usize = 2500;

pub struct Writer {
    pub random: Random,
    pub console: Console,
    text: Vec<u8>,
    lines: usize,
    levels_taken: usize,
}

impl Writer {
    /// The script of the next seed begins its round of the levels one level higher.
    pub fn new(seed: u64) -> Writer {
        Writer {
            random: Random::seeded(seed),
            console: Console::new(),
            text: Vec::new(),
            lines: 0,
            levels_taken: (seed % LEVELS.len() as u64) as usize,
        }
    }

    /// Each level in its turn, so that none is left out.
    pub fn next_level(&mut self) -> u8 {
        self.levels_taken += 1;
        LEVELS[self.levels_taken % LEVELS.len()]
    }

    pub fn lines(&self) -> usize {
        self.lines
    }

    pub fn bytes(&self) -> usize {
        self.text.len()
    }

    pub fn into_text(self) -> Vec<u8> {
        self.text
    }

    /// Writes a line and gives its answer.
    pub fn tell(&mut self, line: impl AsRef<[u8]>) -> String {
        self.text.extend_from_slice(line.as_ref());
        self.text.push(b'\n');
        self.lines += 1;
        self.console.answer(line.as_ref())
    }

    /// Now and then a bad line and the kept counts; then, mostly, a look at the whole content.
    pub fn look(&mut self) {
        if self.random.one_in(12) {
            self.tell_bad_line();
        }
        if self.random.one_in(4) {
            self.tell("levels");
        }
        self.sum_mostly();
    }

    pub fn tell_bad_line(&mut self) {
        let tables = &self.console.tables;
        let line = bad_lines::bad_line(&mut self.random, tables, self.text.len());
        self.tell(line);
    }

    /// Asks for the sum of everything, after most lines where that is little, else rarely.
    pub fn sum_mostly(&mut self) {
        let tables = &self.console.tables;
        let numbers = tables.tiles.len() + tables.operations.len() + tables.journal.len();
        let wanted = if numbers > MANY_NUMBERS {
            self.random.one_in(50)
        } else {
            !self.random.one_in(4)
        };
        if wanted {
            self.tell("sum");
        }
    }

    pub fn lend(&mut self, tiles: usize, operations: usize, journal: usize) {
        self.tell(format!("lend {} {} {}", tiles, operations, journal));
    }

    /// An operation of the job for any sheet; gives the answer.
    pub fn operate(&mut self, word: &str, job: u8, place: Address) -> String {
        let sheet = some_sheet(&mut self.random);
        self.tell(operation_line(word, Origin { job, sheet }, place))
    }

    /// A rectangle of the job for any sheet; gives the answer.
    pub fn sweep(&mut self, word: &str, job: u8, rectangle: Rectangle) -> String {
        let sheet = some_sheet(&mut self.random);
        self.tell(rectangle_line(word, Origin { job, sheet }, rectangle))
    }

    /// A start by either rule.
    pub fn start(&mut self, count: usize) {
        let rule = self.random.pick(&RULES);
        self.start_by(rule, count);
    }

    pub fn start_by(&mut self, rule: Rule, count: usize) {
        self.tell(format!("start {} {}", count, rule.number()));
    }

    /// Puts the tiles into the first places, in ascending order, as far as there are places.
    pub fn put_tiles(&mut self, mut tiles: Vec<Tile>) -> usize {
        tiles.sort();
        tiles.dedup();
        tiles.truncate(self.console.tables.tiles.len());
        for (place, tile) in tiles.iter().enumerate() {
            self.tell(format!("tile {} {}", place, tile.key()));
        }
        tiles.len()
    }

    /// Sets each kept count that is not what a fresh count gives.
    pub fn count_anew(&mut self) {
        let (levels, spoken) = fresh_counts(&self.console.session, &self.console.tables);
        let of_levels = LEVELS.map(Kept::Level).into_iter().zip(levels);
        for (kept, fresh) in of_levels.chain([(Kept::Spoken, spoken)]) {
            if kept.of(&self.console.session) != fresh {
                self.tell(kept.line(fresh));
            }
        }
    }

    /// Half of the scripts end in something that is not a line.
    pub fn finish_without_line_feed(&mut self) {
        let rest = self.random.pick(&["", "", "", "sum", "open 1", " "]);
        self.text.extend_from_slice(rest.as_bytes());
    }

    pub fn open_jobs(&self) -> Vec<u8> {
        let marks = self.console.session.open.iter();
        (0u8..)
            .zip(marks)
            .filter(|(_, mark)| **mark)
            .map(|(job, _)| job)
            .collect()
    }
}
