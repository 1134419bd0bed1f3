//! What was asked for, and where the base stood.
use crate::entries::Entry;
use crate::race::Who;

/// What a ratio, library : other, is to be.
pub enum Limit {
    /// Asked for.
    AtMost(f64),
    /// Reached before, and not to be lost.
    Below(f64),
}

impl Limit {
    pub fn met(&self, ratio: f64) -> bool {
        match self {
            Limit::AtMost(most) => ratio <= *most,
            Limit::Below(bound) => ratio < *bound,
        }
    }
}

impl std::fmt::Display for Limit {
    fn fmt(&self, f: &mut std::fmt::Formatter<'_>) -> std::fmt::Result {
        match self {
            Limit::AtMost(most) => write!(f, "at most {most:.1}"),
            Limit::Below(bound) => write!(f, "keep below {bound:.1}"),
        }
    }
}

/// On which inputs.
#[derive(Clone, Copy, PartialEq)]
pub enum Inputs {
    /// 500,000 IPv4 origins, and in brackets the mix.
    Large,
    /// The history in which nothing cancels.
    Growing,
}

pub struct Goal {
    pub entry: Entry,
    pub against: Who,
    pub inputs: Inputs,
    pub limit: Limit,
    /// The figures of the base.
    pub base: &'static str,
}

/// What the base was.
pub const BASE: &str = "2a5ab55, x86-64";

#[rustfmt::skip]
pub const GOALS: [Goal; 9] = {
    use {Entry::*, Inputs::*, Limit::*, Who::*};
    const fn goal(entry: Entry, against: Who, inputs: Inputs, limit: Limit, base: &'static str) -> Goal {
        Goal { entry, against, inputs, limit, base }
    }
    [
        goal(Check,     Memcpy, Large,   AtMost(1.5), "7.9 (3.9)"),
        goal(Check,     Plain,  Large,   Below(0.8),  "2.5 (2.2)"),
        goal(Construct, Parsed, Large,   AtMost(2.0), "17.8 (14.7)"),
        goal(Construct, Bytes,  Large,   Below(0.3),  "1.0 (1.1)"),
        goal(Update,    Parsed, Large,   AtMost(1.5), "8.4 (7.7)"),
        goal(Merge,     Parsed, Large,   AtMost(3.0), "18.7 (11.3)"),
        goal(Apply,     Plain,  Large,   AtMost(2.5), "14.6 (13.2)"),
        goal(Query(63), Parsed, Large,   AtMost(6.0), "151 (55)"),
        goal(Query(63), Parsed, Growing, Below(0.5),  "10.2"),
    ]
};
