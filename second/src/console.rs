//! The console: each line of text is a command, and each is answered by one line, or by several for
//! a person to read.

use crate::address::{address_step, Address};
use crate::journal::{Reader, Reading};
use crate::line::{parse, Call, Change, Command};
use crate::mend::mend;
use crate::operation::Origin;
use crate::picture::{help, picture};
use crate::rectangle::{Rectangle, Sweep};
use crate::replay::replay;
use crate::reply::{numbers, sweep_numbers, Numbers, Reply, SweepNumbers, SweepReply};
use crate::service;
use crate::session::{length_of, Session, Tables};
use crate::tile::level_place;
use crate::words::{levels_text, record_text};

const MOST_LENT: (u32, u32, u32) = (5000, 1200, 66_000);
const SUM_MODULUS: u64 = 4_294_967_291;

/// The most output bytes of a mend, and what they hold before.
pub const MOST_OUTPUT: u32 = 66_000;
const UNTOUCHED: u8 = 255;

#[derive(Clone, Debug)]
pub struct Console {
    pub session: Session,
    pub tables: Tables,
}

impl Default for Console {
    fn default() -> Console {
        Console::new()
    }
}

impl Console {
    pub fn new() -> Console {
        Console {
            session: Session::empty(),
            tables: Tables::default(),
        }
    }

    /// The answer to one line, without its line feed.
    pub fn answer(&mut self, line: &[u8]) -> String {
        let answer = parse(line).and_then(|command| self.obey(command));
        answer.unwrap_or_else(|| "?".to_string())
    }

    /// Does what the command says; none where it names something that is not lent.
    fn obey(&mut self, command: Command) -> Option<String> {
        match command {
            Command::Lend(tiles, operations, journal) => self.lend(tiles, operations, journal),
            Command::Call(call) => Some(reply_line(self.call(call))),
            Command::Sweep(origin, sweep, rectangle) => {
                Some(sweep_line(self.sweep(origin, sweep, rectangle)))
            }
            Command::Address(address) => Some(address_line(address)),
            Command::Read(place) => Some(self.read(length_of(place))),
            Command::Replay(count, length) => self.replay(count, length_of(length)),
            Command::Mend(count, length, room) => self.mend(count, length_of(length), room),
            Command::Levels => Some(levels_text(&self.session)),
            Command::Sum => Some(format!("sum {}", self.sum())),
            Command::Show => Some(picture(&self.session, &self.tables, self.used_journal())),
            Command::Help => Some(help()),
            Command::Change(change) => self.change(change).map(|()| "ok".to_string()),
        }
    }

    fn lend(&mut self, tiles: u32, operations: u32, journal: u32) -> Option<String> {
        let (most_tiles, most_operations, most_journal) = MOST_LENT;
        if tiles > most_tiles || operations > most_operations || journal > most_journal {
            return None;
        }
        self.session = Session::empty();
        self.tables = Tables::lent(length_of(tiles), length_of(operations), length_of(journal));
        Some(format!("lent {} {} {}", tiles, operations, journal))
    }

    fn call(&mut self, call: Call) -> Reply {
        let (session, tables) = (&mut self.session, &mut self.tables);
        match call {
            Call::Start(count, rule) => {
                let (started, reply) = service::start(tables, count, rule);
                *session = started;
                reply
            }
            Call::Open(job) => service::open(session, tables, job),
            Call::Operate(origin, procedure, address) => {
                service::operate(session, tables, origin, procedure, address)
            }
            Call::Commit(job) => service::commit(session, tables, job),
            Call::Abort(job) => service::abort(session, tables, job),
        }
    }

    fn sweep(&mut self, origin: Origin, sweep: Sweep, rectangle: Rectangle) -> SweepReply {
        let (session, tables) = (&mut self.session, &mut self.tables);
        service::sweep(session, tables, origin, sweep, rectangle)
    }

    /// Changes something from outside; none for a place that is not lent and a zoom that is none.
    fn change(&mut self, change: Change) -> Option<()> {
        let (session, tables) = (&mut self.session, &mut self.tables);
        match change {
            Change::Tile(place, key) => *tables.tiles.get_mut(length_of(place))? = key,
            Change::Entry(place, entry) => *tables.operations.get_mut(length_of(place))? = entry,
            Change::Byte(place, byte) => *tables.journal.get_mut(length_of(place))? = byte,
            Change::Tiles(count) => session.tiles = count,
            Change::Operations(count) => session.operations = count,
            Change::Journal(count) => session.journal = count,
            Change::Mark(job, mark) => *session.open.get_mut(usize::from(job))? = mark,
            Change::Rule(rule) => session.rule = rule,
            Change::Level(zoom, count) => session.levels[level_place(zoom)?] = count,
            Change::Spoken(count) => session.spoken = count,
        }
        Some(())
    }

    /// The session's journal: its used bytes, or all where the count is larger.
    pub fn used_journal(&self) -> &[u8] {
        let journal = &self.tables.journal;
        let used = length_of(self.session.journal);
        journal.get(..used).unwrap_or(journal)
    }

    fn read(&self, place: usize) -> String {
        let mut reader = Reader::at(self.used_journal(), place);
        let reading = reader.read();
        let next = reader.place();
        match reading {
            Reading::Whole(record) => format!("{} next {}", record_text(record), next),
            Reading::End => "end".to_string(),
            Reading::Cut => "cut".to_string(),
            Reading::Malformed => format!("reply 10 offset {}", next),
        }
    }

    fn replay(&mut self, count: u32, length: usize) -> Option<String> {
        let journal = self.tables.journal.get(..length)?;
        let tiles = &mut self.tables.tiles;
        let replayed = replay(journal, tiles, count, &mut self.tables.operations);
        Some(format!(
            "reply {} offset {} undone {} count {}",
            replayed.reply, replayed.offset, replayed.undone, replayed.count
        ))
    }

    fn mend(&mut self, count: u32, length: usize, room: u32) -> Option<String> {
        let journal = self.tables.journal.get(..length)?;
        let room = Some(room).filter(|room| *room <= MOST_OUTPUT)?;
        let mut output = vec![UNTOUCHED; length_of(room)];
        let tiles = &mut self.tables.tiles;
        let mended = mend(
            journal,
            tiles,
            count,
            &mut self.tables.operations,
            &mut output,
        );
        let bytes = output.into_iter().map(u64::from);
        Some(format!(
            "reply {} length {} left {} aborted {} count {} sum {}",
            mended.reply,
            mended.length,
            mended.left_out,
            mended.aborted,
            mended.count,
            sum_of(bytes)
        ))
    }

    fn sum(&self) -> u64 {
        let session = &self.session;
        let marks = session.open.iter().map(|mark| u64::from(*mark));
        let used = [session.tiles, session.operations, session.journal];
        let rule = [u32::from(session.rule.number())];
        let spoken = [session.spoken];
        let numbers = [&used[..], &rule, &session.levels, &spoken].concat();
        let tiles = self.tables.tiles.iter().map(|key| u64::from(*key));
        let entries = self.tables.operations.iter().copied();
        let bytes = self.tables.journal.iter().map(|byte| u64::from(*byte));
        let session = marks.chain(numbers.into_iter().map(u64::from));
        sum_of(session.chain(tiles).chain(entries).chain(bytes))
    }
}

/// The sum of a list of numbers, in which their order counts.
fn sum_of(numbers: impl Iterator<Item = u64>) -> u64 {
    numbers.fold(0, |sum, number| {
        (sum * 31 + number % SUM_MODULUS) % SUM_MODULUS
    })
}

fn reply_line(reply: Reply) -> String {
    let Numbers {
        number,
        answer,
        holder,
        turns,
    } = numbers(reply);
    let held_by = holder_text(holder);
    format!("reply {number} answer {answer} {held_by} turns {turns}")
}

fn sweep_line(reply: SweepReply) -> String {
    let SweepNumbers {
        number,
        holder,
        turns,
    } = sweep_numbers(reply);
    let (held_by, first, last) = (holder_text(holder), turns.first, turns.last);
    format!("reply {number} {held_by} turns {first} {last}")
}

fn holder_text(holder: Origin) -> String {
    format!("holder {} sheet {}", holder.job, holder.sheet)
}

fn address_line(address: Address) -> String {
    match address_step(address) {
        Ok(reached) => format!("reply 0 key {} turns {}", reached.tile.key(), reached.turns),
        Err(refusal) => format!("reply {} key 0 turns 0", refusal.number()),
    }
}
