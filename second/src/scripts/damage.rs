//! Damage to tables, and its repair.

/// Lines that break a rule, and lines that mend it again.
#[derive(Default)]
pub struct Damage {
    pub breaking: Vec<String>,
    pub mending: Vec<String>,
}

impl Damage {
    pub fn one(breaking: String, mending: String) -> Damage {
        Damage::default().and(breaking, mending)
    }

    pub fn and(mut self, breaking: String, mending: String) -> Damage {
        self.breaking.push(breaking);
        self.mending.push(mending);
        self
    }
}
