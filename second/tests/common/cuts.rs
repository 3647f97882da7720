//! The journal of a history: it reads back as the calls, and cut at any byte it replays, and is
//! mended, to what the committed jobs did.

use super::counts::counts_of;
use super::history::{Logged, Trial};
use second::journal::{Reader, Reading, Record};
use second::mend::mend;
use second::operation::Kind;
use second::replay::{replay, stopped};
use second::rule::Rule;
use second::strictness::{run, Step, Tiles};
use second::tile::Tile;
use std::collections::BTreeSet;

/// A journal with what its records are, and the tables that it is replayed onto.
pub struct Chronicle {
    rule: Rule,
    start: Tiles,
    tile_places: usize,
    operation_places: usize,
    journal: Vec<u8>,
    log: Vec<Logged>,
}

impl Trial {
    pub fn chronicle(&self) -> Chronicle {
        Chronicle {
            rule: self.rule,
            start: self.start.clone(),
            tile_places: self.bench.tables.tiles.len(),
            operation_places: self.bench.tables.operations.len(),
            journal: self.bench.journal().to_vec(),
            log: self.log.clone(),
        }
    }
}

impl Chronicle {
    /// The same with some operations in the old form.
    pub fn with_old_records(mut self, mut is_old: impl FnMut() -> bool) -> Chronicle {
        self.journal.truncate(self.head());
        for logged in self.log.iter_mut() {
            if let Record::Operation(recorded) = &mut logged.record {
                recorded.sheet = recorded.sheet.filter(|_| !is_old());
            }
            self.journal.extend(logged.record.bytes());
            logged.end = self.journal.len();
        }
        self
    }

    /// Bytes before the first call's record: by rule 2 those of the rule record.
    fn head(&self) -> usize {
        match self.rule {
            Rule::EachAlone => 0,
            Rule::JobAsOne => 4,
        }
    }

    pub fn reads_back(&self) {
        let mut reader = Reader::at(&self.journal, 0);
        if self.rule == Rule::JobAsOne {
            assert_eq!(reader.read(), Reading::Whole(Record::JobAsOne));
        }
        assert_eq!(reader.place(), self.head());
        for logged in &self.log {
            assert_eq!(reader.read(), Reading::Whole(logged.record));
            assert_eq!(reader.place(), logged.end);
        }
        assert_eq!(reader.read(), Reading::End);
    }

    fn whole(&self, length: usize) -> impl Iterator<Item = &Logged> {
        self.log.iter().filter(move |logged| logged.end <= length)
    }

    /// The offset behind the last whole record of so many bytes.
    fn offset(&self, length: usize) -> usize {
        let head = Some(self.head()).filter(|head| *head <= length);
        let ends = self.whole(length).map(|logged| logged.end);
        ends.chain(head).max().unwrap_or(0)
    }

    /// The jobs that are open there, in rising order.
    fn open_at(&self, length: usize) -> BTreeSet<u8> {
        let mut open = BTreeSet::new();
        for logged in self.whole(length) {
            match logged.record {
                Record::Open(job) => {
                    open.insert(job);
                }
                Record::Commit(job) | Record::Abort(job) => {
                    open.remove(&job);
                }
                Record::Operation(_) | Record::JobAsOne => {}
            }
        }
        open
    }

    /// The tiles that the jobs leave whose commit is whole there.
    fn committed_at(&self, length: usize) -> Tiles {
        let commits = |logged: &&Logged| matches!(logged.record, Record::Commit(_));
        let committed: BTreeSet<usize> = self
            .whole(length)
            .filter(commits)
            .map(|logged| logged.transaction)
            .collect();
        let kept: Vec<Step> = self
            .whole(length)
            .filter(|logged| committed.contains(&logged.transaction))
            .filter_map(|logged| logged.step)
            .collect();
        run(&self.start, kept.iter())
            .expect("the recorded answers")
            .tiles
    }

    /// The tiles as a table with the session's places.
    fn table(&self, tiles: &Tiles) -> Vec<u32> {
        let keys = tiles.iter().map(|tile| tile.key());
        let padded = keys.chain(std::iter::repeat(0));
        padded.take(self.tile_places).collect()
    }

    /// What stands in the tables before a replay or a mend; the operations table may hold anything.
    fn tables_before(&self) -> (Vec<u32>, u32, Vec<u64>) {
        let operations = vec![u64::MAX; self.operation_places];
        (self.table(&self.start), self.start.len() as u32, operations)
    }

    pub fn cut_everywhere(&self) {
        for length in 0..=self.journal.len() {
            let left = self.committed_at(length);
            let (mut tiles, count, mut operations) = self.tables_before();
            let journal = &self.journal[..length];
            self.check_inside(journal, &tiles, count);
            let outcome = replay(journal, &mut tiles, count, &mut operations);
            assert_eq!(outcome.reply, 0);
            assert_eq!(outcome.offset as usize, self.offset(length));
            assert_eq!(outcome.undone as usize, self.open_at(length).len());
            assert_eq!(outcome.count as usize, left.len());
            assert_eq!(tiles, self.table(&left));
            assert!(operations.iter().all(|entry| *entry == 0));
        }
    }

    /// Where a replay stops, the session inside it has kept its counts.
    fn check_inside(&self, journal: &[u8], tiles: &[u32], count: u32) {
        let inside = stopped(journal, tiles, count, self.operation_places);
        let state = inside.expect("tables to start on").state;
        let entries = state.admitted.iter();
        let deletes = entries.filter(|entry| entry.kind == Kind::Removed);
        let deleted: Vec<Tile> = deletes.map(|entry| entry.tile).collect();
        let due = counts_of(state.rule, &state.tiles, &deleted);
        assert_eq!((state.levels, state.spoken), due);
    }

    /// Mends the journal cut at every byte into just enough room and into one byte less, and
    /// replays what comes out.
    pub fn mend_everywhere(&self) {
        for length in 0..=self.journal.len() {
            let journal = &self.journal[..length];
            let mut due = journal[..self.offset(length)].to_vec();
            let open = self.open_at(length);
            due.extend(open.iter().flat_map(|job| [4, 0, 1, *job]));
            let (mut tiles, count, mut operations) = self.tables_before();
            let mut output = vec![7; due.len()];
            let mended = mend(journal, &mut tiles, count, &mut operations, &mut output);
            assert_eq!((mended.reply, mended.length as usize), (0, due.len()));
            assert_eq!(mended.left_out as usize, length - self.offset(length));
            assert_eq!(mended.aborted as usize, open.len());
            assert_eq!(output, due);
            assert_eq!(tiles, self.table(&self.committed_at(length)));
            assert!(operations.iter().all(|entry| *entry == 0));
            self.check_mended(&due, &tiles, mended.count);
            self.check_short(journal, due.len());
        }
    }

    /// The mended journal replays to the same tiles, to its end and with nothing left to undo.
    fn check_mended(&self, mended: &[u8], due: &[u32], left: u32) {
        let (mut tiles, count, mut operations) = self.tables_before();
        let outcome = replay(mended, &mut tiles, count, &mut operations);
        assert_eq!((outcome.reply, outcome.undone, outcome.count), (0, 0, left));
        assert_eq!(outcome.offset as usize, mended.len());
        assert_eq!(tiles, due);
    }

    fn check_short(&self, journal: &[u8], needed: usize) {
        if needed == 0 {
            return;
        }
        let before = self.tables_before();
        let (mut tiles, count, mut operations) = before.clone();
        let mut output = vec![7; needed - 1];
        let mended = mend(journal, &mut tiles, count, &mut operations, &mut output);
        assert_eq!((mended.reply, mended.count), (18, count));
        assert_eq!((mended.length, mended.left_out, mended.aborted), (0, 0, 0));
        assert_eq!((tiles, count, operations), before);
        assert_eq!(output, vec![7; needed - 1]);
    }
}
