//! How often each reply was given where the ways were compared, lest a comparison say nothing.

use baseline::rule::Rule;
use std::collections::BTreeMap;

/// What was compared.
#[derive(Clone, Copy, PartialEq, Eq, PartialOrd, Ord)]
pub enum Compared {
    Start,
    Call,
    Rectangle,
    Replay,
}

impl Compared {
    const ALL: [Compared; 4] = [
        Compared::Start,
        Compared::Call,
        Compared::Rectangle,
        Compared::Replay,
    ];

    fn name(self) -> &'static str {
        match self {
            Compared::Start => "starts",
            Compared::Call => "calls",
            Compared::Rectangle => "rectangles",
            Compared::Replay => "replays",
        }
    }

    /// The numbers that must have come up.
    fn numbers(self, rule: Rule) -> &'static [u64] {
        match (self, rule) {
            (Compared::Start, Rule::Alone) => &[0, 1],
            (Compared::Start, Rule::Together) => &[0, 1, 9],
            (Compared::Call, _) => &[0, 1, 2, 3, 4, 5, 6, 7, 8, 9, 14],
            (Compared::Rectangle, _) => &[0, 1, 2, 3, 5, 6, 7, 8, 9, 13, 14],
            (Compared::Replay, _) => &[0, 1, 10, 11, 12],
        }
    }
}

#[derive(Default)]
pub struct Census {
    counts: BTreeMap<(Compared, Rule, u64), usize>,
}

impl Census {
    pub fn count(&mut self, compared: Compared, rule: Rule, number: u64) {
        *self.counts.entry((compared, rule, number)).or_default() += 1;
    }

    /// A reply that was never given, if there is one.
    pub fn missing(&self) -> Option<String> {
        kinds().find_map(|(compared, rule)| {
            let mut numbers = compared.numbers(rule).iter();
            let never = numbers.find(|&&n| !self.counts.contains_key(&(compared, rule, n)));
            never.map(|n| {
                let (name, rule) = (compared.name(), rule as u8);
                format!("of the {name} by rule {rule} none was told {n}")
            })
        })
    }

    pub fn shares(&self) -> String {
        let lines = kinds().map(|(compared, rule)| {
            let counts = self.counts.iter();
            let own = counts.filter(|((c, r, _), _)| (*c, *r) == (compared, rule));
            let each: Vec<String> = own.map(|((_, _, n), c)| format!("{n}: {c}")).collect();
            let (name, rule, each) = (compared.name(), rule as u8, each.join(", "));
            format!("replies compared, of {name} by rule {rule}: {each}")
        });
        lines.collect::<Vec<String>>().join("\n")
    }

    pub fn total(&self) -> String {
        let [starts, calls, rectangles, replays] = Compared::ALL.map(|compared| {
            let counts = self.counts.iter();
            let own = counts.filter(|((c, _, _), _)| *c == compared);
            own.map(|(_, count)| count).sum::<usize>()
        });
        format!(
            "{starts} starts, {calls} calls, {rectangles} rectangles and {replays} replays agree"
        )
    }
}

fn kinds() -> impl Iterator<Item = (Compared, Rule)> {
    let by_both = |compared| Rule::ALL.into_iter().map(move |rule| (compared, rule));
    Compared::ALL.into_iter().flat_map(by_both)
}
