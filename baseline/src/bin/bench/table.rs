//! The table of times.

use crate::scenes::{check_name, rectangle_names, rectangles};
use crate::ways::{Way, WAYS};
use baseline::rule::Rule;
use baseline::soundness::Check;
use baseline::workload::packs::Sort;

pub struct Row {
    pub name: String,
    pub microseconds: [f64; WAYS.len()],
}

impl Row {
    pub fn of(&self, way: Way) -> f64 {
        let times = WAYS.iter().zip(self.microseconds);
        let own = times.filter(|(other, _)| **other == way);
        own.map(|(_, time)| time).sum()
    }

    /// The proved call's time by this one's.
    fn ratio_to(&self, check: Check) -> f64 {
        self.of(Way::Proved) / self.of(Way::Rust(check))
    }
}

pub fn print<'a>(rows: impl Iterator<Item = &'a Row>) {
    print!("{:60}", "microseconds a call, best round");
    for way in WAYS {
        print!("{:>10}", way.name());
    }
    println!("{:>16}{:>15}", "proved / filter", "proved / tuned");
    for row in rows {
        print!("{:60}", row.name);
        for time in row.microseconds {
            print!("{time:>10.2}");
        }
        let (filter, tuned) = (row.ratio_to(Check::Filter), row.ratio_to(Check::Tuned));
        println!("{filter:>16.2}{tuned:>15.2}");
    }
}

/// What the second rule's check costs where each tile was replaced, by what the first rule's costs
/// where as many entries changed their tiles. At most 2 is asked for.
pub fn print_cost_of_replacing(rows: &[Row]) {
    let proved = |rule, sort| proved_time(rows, &check_name(rule, sort));
    let by_first = proved(Rule::Alone, Sort::Changing);
    for sort in [Sort::Replaced, Sort::ReplacedApart] {
        let ratio = proved(Rule::Together, sort) / by_first;
        let name = sort.name();
        println!("proved check, rule 2 on \"{name}\" / rule 1 on all changing: {ratio:.2}");
    }
}

/// What a rectangle costs by what the check on its tables costs, which is a part of it. A few is
/// asked for.
pub fn print_cost_of_rectangles(rows: &[Row]) {
    for (rule, change) in rectangles() {
        let [check, rectangle] = rectangle_names(rule, change);
        let ratio = proved_time(rows, &rectangle) / proved_time(rows, &check);
        println!("proved {rectangle} / the proved check on its tables: {ratio:.2}");
    }
}

fn proved_time(rows: &[Row], name: &str) -> f64 {
    let row = rows.iter().find(|row| row.name == name);
    row.map_or(f64::NAN, |row| row.of(Way::Proved))
}
