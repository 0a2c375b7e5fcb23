//! What was drawn, and whether everything was.

use std::collections::BTreeMap;
use std::fmt::{self, Display, Formatter};

/// How often each outcome was drawn, of those that there are.
pub struct Drawn {
    listed: &'static [&'static str],
    outcomes: BTreeMap<String, usize>,
    /// The messages that were delivered or handed up.
    pub messages: usize,
}

impl Drawn {
    pub fn new(listed: &'static [&'static str]) -> Drawn {
        Drawn {
            listed,
            outcomes: BTreeMap::new(),
            messages: 0,
        }
    }

    pub fn add(&mut self, outcome: String) {
        let is_listed = self.listed.contains(&outcome.as_str());
        assert!(is_listed, "{outcome} isn't listed");
        *self.outcomes.entry(outcome).or_default() += 1;
    }

    pub fn count(&self, outcome: &str) -> usize {
        self.outcomes.get(outcome).copied().unwrap_or(0)
    }

    /// How many outcomes were drawn, all together.
    pub fn total(&self) -> usize {
        self.outcomes.values().sum()
    }

    /// Panics where an outcome was never drawn.
    pub fn assert_everything(&self) {
        let missing: Vec<_> = self
            .listed
            .iter()
            .filter(|outcome| self.count(outcome) == 0)
            .collect();
        assert!(missing.is_empty(), "never drawn: {missing:?}");
    }
}

impl Display for Drawn {
    fn fmt(&self, f: &mut Formatter<'_>) -> fmt::Result {
        let drawn = self.listed.iter();
        let drawn = drawn.map(|&outcome| (outcome, self.count(outcome)));
        for (outcome, count) in drawn.filter(|(_, count)| *count > 0) {
            write!(f, "{outcome} {count}, ")?;
        }
        write!(f, "messages {}", self.messages)
    }
}
