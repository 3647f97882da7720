//! The two rules by which a session may run.

/// What fails as one, and so what every history must be able to lose.
#[derive(Clone, Copy, Debug, PartialEq, Eq)]
pub enum Rule {
    /// Rule 1: each unfinished operation may fail on its own.
    EachAlone,
    /// Rule 2: an open job fails as a whole, so it may go on with the tiles that it changed.
    JobAsOne,
}

pub const RULES: [Rule; 2] = [Rule::EachAlone, Rule::JobAsOne];

impl Rule {
    pub fn number(self) -> u8 {
        match self {
            Rule::EachAlone => 1,
            Rule::JobAsOne => 2,
        }
    }

    pub fn from_number(number: u8) -> Option<Rule> {
        RULES.iter().copied().find(|rule| rule.number() == number)
    }
}
