//! The two rules by which a session may run.

#[derive(Clone, Copy, Debug, PartialEq, Eq, PartialOrd, Ord)]
pub enum Rule {
    /// Each unfinished operation may fail alone, so that nobody may build upon it.
    Alone = 1,
    /// The unfinished operations of a job fail as one, so that the job itself may build upon them.
    Together = 2,
}

impl Rule {
    pub const ALL: [Rule; 2] = [Rule::Alone, Rule::Together];
}
