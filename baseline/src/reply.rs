//! Replies of the calls.

use crate::entry::Origin;

#[derive(Clone, Copy, Debug, PartialEq, Eq)]
pub enum Refusal {
    NotSound,
    NoSuchJob,
    NotOpen,
    AlreadyOpen,
    OutOfRange,
    Held(Origin),
    NoTileRoom,
    NoOperationRoom,
    NoJournalRoom,
    Misshapen,
    NoEdition,
}

/// What a call that is done tells: an operation's answer and its turns, or the turns of a
/// rectangle's first column and of its last, and else nothing.
#[derive(Clone, Copy, Debug, Default, PartialEq, Eq)]
pub struct Done {
    pub answer: bool,
    pub turns: i32,
    pub last: i32,
}

/// What is told; or why the call was refused.
pub type Reply = Result<Done, Refusal>;

/// The number, the answer, the holder's job and sheet, and the turns of a reply, each 0 where there
/// is none.
pub fn numbers(reply: Reply) -> [i64; 6] {
    match reply {
        Ok(done) => {
            let [turns, last] = [done.turns, done.last].map(i64::from);
            [0, done.answer.into(), 0, 0, turns, last]
        }
        Err(Refusal::Held(holder)) => {
            let number = refusal_number(Refusal::Held(holder));
            [number, 0, holder.job.into(), holder.sheet.into(), 0, 0]
        }
        Err(refusal) => [refusal_number(refusal), 0, 0, 0, 0, 0],
    }
}

fn refusal_number(refusal: Refusal) -> i64 {
    match refusal {
        Refusal::NotSound => 1,
        Refusal::NoSuchJob => 2,
        Refusal::NotOpen => 3,
        Refusal::AlreadyOpen => 4,
        Refusal::OutOfRange => 5,
        Refusal::Held(_) => 6,
        Refusal::NoTileRoom => 7,
        Refusal::NoOperationRoom => 8,
        Refusal::NoJournalRoom => 9,
        Refusal::Misshapen => 13,
        Refusal::NoEdition => 14,
    }
}
