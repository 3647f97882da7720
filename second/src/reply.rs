//! Replies of the service, by their numbers in the papers.

use crate::operation::Origin;

/// Why a call was refused, in the order of checking.
#[derive(Clone, Copy, Debug, PartialEq, Eq)]
pub enum Refusal {
    NotSound,
    JobTooHigh,
    NotOpen,
    AlreadyOpen,
    UnknownEdition,
    OutsideRange,
    WrongRectangle,
    Held(Origin),
    NoTileRoom,
    OperationsFull,
    NoJournalRoom,
}

impl Refusal {
    pub fn number(self) -> u8 {
        match self {
            Refusal::NotSound => 1,
            Refusal::JobTooHigh => 2,
            Refusal::NotOpen => 3,
            Refusal::AlreadyOpen => 4,
            Refusal::UnknownEdition => 14,
            Refusal::OutsideRange => 5,
            Refusal::WrongRectangle => 13,
            Refusal::Held(_) => 6,
            Refusal::NoTileRoom => 7,
            Refusal::OperationsFull => 8,
            Refusal::NoJournalRoom => 9,
        }
    }

    /// Whose entry holds; job 0 and sheet 0 for every refusal that names none.
    pub fn holder(self) -> Origin {
        if let Refusal::Held(holder) = self {
            holder
        } else {
            Origin::default()
        }
    }
}

/// What a call that was done answers: an operation its answer and its turns, any other nothing.
#[derive(Clone, Copy, Debug, PartialEq, Eq)]
pub enum Answer {
    Nothing,
    Operated { ok: bool, turns: i32 },
}

impl Answer {
    pub fn number(self) -> u8 {
        match self {
            Answer::Nothing => 0,
            Answer::Operated { ok, .. } => u8::from(ok),
        }
    }

    pub fn turns(self) -> i32 {
        match self {
            Answer::Nothing => 0,
            Answer::Operated { turns, .. } => turns,
        }
    }
}

pub type Reply = Result<Answer, Refusal>;

/// The fields of a reply, with 0 in those that its number does not call for.
#[derive(Clone, Copy, Debug, Default, PartialEq, Eq)]
pub struct Numbers {
    pub number: u8,
    pub answer: u8,
    pub holder: Origin,
    pub turns: i32,
}

pub fn numbers(reply: Reply) -> Numbers {
    match reply {
        Ok(answer) => Numbers {
            answer: answer.number(),
            turns: answer.turns(),
            ..Numbers::default()
        },
        Err(refusal) => Numbers {
            number: refusal.number(),
            holder: refusal.holder(),
            ..Numbers::default()
        },
    }
}

/// The turns of a rectangle's west column and of its east column.
#[derive(Clone, Copy, Debug, Default, PartialEq, Eq)]
pub struct Span {
    pub first: i32,
    pub last: i32,
}

/// A rectangle answers its turns and nothing else.
pub type SweepReply = Result<Span, Refusal>;

/// The fields of a reply to a rectangle.
#[derive(Clone, Copy, Debug, Default, PartialEq, Eq)]
pub struct SweepNumbers {
    pub number: u8,
    pub holder: Origin,
    pub turns: Span,
}

pub fn sweep_numbers(reply: SweepReply) -> SweepNumbers {
    match reply {
        Ok(turns) => SweepNumbers {
            turns,
            ..SweepNumbers::default()
        },
        Err(refusal) => SweepNumbers {
            number: refusal.number(),
            holder: refusal.holder(),
            ..SweepNumbers::default()
        },
    }
}
