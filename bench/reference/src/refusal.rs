//! Refusals: the number of the broken rule and the place.

use std::fmt;

#[derive(Clone, Copy, Debug, PartialEq, Eq)]
pub enum Rule {
    Truncated = 1,
    Counts = 2,
    Slot = 3,
    ChannelPartition = 4,
    ChannelPage = 5,
    Root = 6,
    Table = 7,
    Shared = 8,
    Start = 9,
    Budget = 10,
    NotLent = 11,
    Surplus = 12,
}

#[derive(Clone, Copy, Debug, PartialEq, Eq)]
pub struct Refusal {
    pub rule: Rule,
    pub place: usize,
}

impl Refusal {
    pub fn new(rule: Rule, place: usize) -> Self {
        Refusal { rule, place }
    }

    /// A frame that is needed and not lent.
    pub fn not_lent() -> Self {
        Refusal::new(Rule::NotLent, 0)
    }
}

impl fmt::Display for Refusal {
    fn fmt(&self, f: &mut fmt::Formatter) -> fmt::Result {
        write!(f, "refused {} at {}", self.rule as u8, self.place)
    }
}
