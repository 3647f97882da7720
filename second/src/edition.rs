//! The editions of the feed, by the side from which they count the rows of a level.

#[derive(Clone, Copy, Debug, PartialEq, Eq)]
pub enum Edition {
    /// Edition 1.
    FromSouth,
    /// Edition 2. Keys count so, too.
    FromNorth,
}

pub const EDITIONS: [Edition; 2] = [Edition::FromSouth, Edition::FromNorth];

impl Edition {
    pub fn number(self) -> u8 {
        match self {
            Edition::FromSouth => 1,
            Edition::FromNorth => 2,
        }
    }

    pub fn from_number(number: u8) -> Option<Edition> {
        EDITIONS
            .iter()
            .copied()
            .find(|edition| edition.number() == number)
    }

    /// The row counted from the north; none for a row that a level of so many rows does not have.
    pub fn north_row(self, row: i32, rows: u32) -> Option<u32> {
        // The range is tested first, so that nothing overflows.
        let row = u32::try_from(row).ok().filter(|row| *row < rows)?;
        Some(match self {
            Edition::FromSouth => rows - 1 - row,
            Edition::FromNorth => row,
        })
    }
}
