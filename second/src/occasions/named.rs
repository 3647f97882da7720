//! Occasions by name.

use crate::rule::{Rule, RULES};

/// A name for an occasion, and whether it is one, by what there is to know about a command.
pub type Named<T> = (&'static str, fn(&T) -> bool);

pub fn names_of<T>(named: &'static [Named<T>]) -> impl Iterator<Item = &'static str> {
    named.iter().map(|(name, _)| *name)
}

/// The name of what may happen to several calls, for one of them.
pub fn name_of_call(call: &str, name: &str) -> String {
    format!("{} {}", call, name)
}

/// The name of what is asked for by a rule.
pub fn name_by_rule(rule: Rule, name: &str) -> String {
    format!("by rule {}: {}", rule.number(), name)
}

/// The names that apply; none where the command is nothing of the sort.
pub fn applying<T>(named: &[Named<T>], known: Option<T>) -> Vec<&'static str> {
    let known = match known {
        None => return Vec::new(),
        Some(known) => known,
    };
    let applying = named.iter().filter(|(_, applies)| applies(&known));
    applying.map(|(name, _)| *name).collect()
}

/// Occasions of both rules, and those that there are only by rule 2.
pub struct ByRule<T: 'static> {
    pub both: &'static [Named<T>],
    pub rule_2: &'static [Named<T>],
}

impl<T> ByRule<T> {
    fn of_rule(&self, rule: Rule) -> Vec<Named<T>> {
        match rule {
            Rule::EachAlone => self.both.to_vec(),
            Rule::JobAsOne => [self.both, self.rule_2].concat(),
        }
    }

    /// The names that apply, with the rule.
    pub fn applying(&self, rule: Rule, known: T) -> Vec<String> {
        let names = applying(&self.of_rule(rule), Some(known)).into_iter();
        names.map(|name| name_by_rule(rule, name)).collect()
    }

    pub fn all_names(&self) -> Vec<String> {
        let of_rule = |rule| {
            let named = self.of_rule(rule).into_iter();
            named.map(move |(name, _)| name_by_rule(rule, name))
        };
        RULES.into_iter().flat_map(of_rule).collect()
    }
}
