//! Counts how often each answer of each call was seen, so that no suite can pass by seeing nothing.

use model::Told;
use std::collections::BTreeMap;
use std::fmt;

/// Whether a call named 0 or something else.
#[derive(Clone, Copy, Debug, PartialEq, Eq, PartialOrd, Ord)]
pub enum Named {
    /// It named 0.
    Zero,
    /// It named a number above 0.
    More,
}

/// An answer, and what it named.
pub type Seen = (u32, Named);

use Named::{More, Zero};

/// All that a publish can tell. Nothing is undone before the second change, so 12 never names 0.
pub const PUBLISH: &[Seen] = &[
    (0, Zero),
    (0, More),
    (1, Zero),
    (2, Zero),
    (3, Zero),
    (4, Zero),
    (5, Zero),
    (6, Zero),
    (6, More),
    (7, Zero),
    (7, More),
    (8, Zero),
    (8, More),
    (9, Zero),
    (9, More),
    (10, Zero),
    (10, More),
    (11, Zero),
    (11, More),
    (12, More),
    (13, Zero),
    (13, More),
];

/// All that a prepare can tell.
pub const PREPARE: &[Seen] = &[
    (0, Zero),
    (0, More),
    (1, Zero),
    (2, Zero),
    (3, Zero),
    (4, Zero),
    (5, Zero),
    (6, Zero),
    (6, More),
    (7, Zero),
    (7, More),
    (8, Zero),
    (8, More),
    (10, Zero),
    (10, More),
    (11, Zero),
    (11, More),
    (12, More),
];

/// All that a rollback can tell.
pub const ROLLBACK: &[Seen] = &[
    (0, Zero),
    (1, Zero),
    (2, Zero),
    (3, Zero),
    (4, Zero),
    (6, Zero),
    (6, More),
    (12, Zero),
    (12, More),
    (14, Zero),
    (14, More),
];

/// All that a source removal can tell.
pub const REMOVAL: &[Seen] = &[
    (0, Zero),
    (1, Zero),
    (2, Zero),
    (3, Zero),
    (4, Zero),
    (6, Zero),
    (6, More),
    (13, Zero),
    (13, More),
];

/// All that a count can tell.
pub const COUNT: &[Seen] = &[(0, Zero), (0, More), (1, Zero), (2, Zero), (6, Zero)];

/// All that the cached pass can tell.
pub const CACHED: &[Seen] = &[
    (0, Zero),
    (0, More),
    (20, Zero),
    (21, Zero),
    (23, Zero),
    (24, Zero),
];

/// All that the refreshed pass can tell.
pub const REFRESHED: &[Seen] = &[
    (0, Zero),
    (0, More),
    (20, Zero),
    (21, Zero),
    (22, Zero),
    (23, Zero),
    (24, Zero),
];

/// All that a detach can tell.
pub const DETACH: &[Seen] = &[
    (0, Zero),
    (0, More),
    (20, Zero),
    (21, Zero),
    (23, Zero),
    (24, Zero),
    (24, More),
    (25, Zero),
    (25, More),
];

/// All that a bucket engine can tell.
pub const BUCKETS: &[Seen] = &[
    (0, Zero),
    (0, More),
    (30, Zero),
    (31, Zero),
    (32, Zero),
    (32, More),
];

/// Yes and no.
pub const YES_AND_NO: &[Seen] = &[(0, Zero), (1, Zero)];

/// How often each call told what.
#[derive(Clone, Debug, Default)]
pub struct Coverage(BTreeMap<(&'static str, Seen), u64>);

impl Coverage {
    /// Counts one call.
    pub fn add(&mut self, call: &'static str, told: Told) {
        let named = if told.named == 0 { Zero } else { More };
        *self.0.entry((call, (told.answer, named))).or_default() += 1;
    }

    fn times(&self, call: &'static str, seen: Seen) -> u64 {
        self.0.get(&(call, seen)).copied().unwrap_or(0)
    }

    /// Panics unless the call told each of these often enough, and nothing else.
    pub fn expect(&self, call: &'static str, expected: &[Seen], least: u64) {
        for &seen in expected {
            self.enough(call, seen.0, self.times(call, seen), least);
        }
        self.expect_no_other(call, expected);
    }

    /// The same, but an answer may be of either kind, whatever it named.
    pub fn expect_answers(&self, call: &'static str, expected: &[Seen], least: u64) {
        for &(answer, _) in expected {
            let times = self.times(call, (answer, Zero)) + self.times(call, (answer, More));
            self.enough(call, answer, times, least);
        }
        self.expect_no_other(call, expected);
    }

    fn enough(&self, call: &'static str, answer: u32, times: u64, least: u64) {
        assert!(
            times >= least,
            "{call} told {answer} {times} times, and {least} are wanted\n{self}"
        );
    }

    fn expect_no_other(&self, call: &'static str, expected: &[Seen]) {
        for (name, seen) in self.0.keys() {
            assert!(
                *name != call || expected.contains(seen),
                "{call} told {seen:?}, which it never should\n{self}"
            );
        }
    }

    /// How many calls there were.
    pub fn calls(&self) -> u64 {
        self.0.values().sum()
    }
}

impl fmt::Display for Coverage {
    fn fmt(&self, out: &mut fmt::Formatter) -> fmt::Result {
        for ((call, (answer, named)), times) in &self.0 {
            writeln!(out, "{call} {answer} {named:?}: {times}")?;
        }
        write!(out, "{} calls", self.calls())
    }
}
