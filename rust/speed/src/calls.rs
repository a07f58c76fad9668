//! The rows of the tables: each call at each size, with its sides.

pub mod buckets;
pub mod guards;
mod jobs;
pub mod lanes;
pub mod postings;
mod states;

use crate::measure::{disagreement, times, Side, Taken};

/// One row: a call at a size, and what each side took.
pub struct Row {
    pub call: &'static str,
    pub size: String,
    /// What the proved code took, where its time means something.
    pub rattle: Option<Taken>,
    pub ordinary: Vec<Taken>,
}

/// Rows whose sides are the same.
pub struct Group {
    pub title: &'static str,
    pub rows: Vec<Row>,
}

/// The sides of a row. Every side has the same inputs, and as many calls to a round.
pub struct Sides<'a> {
    pub rattle: Box<dyn Side + 'a>,
    pub ordinary: Vec<Box<dyn Side + 'a>>,
    pub inputs: usize,
    pub calls: usize,
}

/// Checks that all sides show the same on every input, and then times them.
pub fn row(call: &'static str, size: String, sides: Sides) -> Row {
    let mut all = vec![sides.rattle];
    all.extend(sides.ordinary);
    if let Some(difference) = disagreement(&mut all, sides.inputs) {
        panic!("{call}, {size}: {difference}");
    }
    let timed = if crate::is_native() { 0 } else { 1 };
    let mut taken = times(&mut all[timed..], sides.calls).into_iter();
    Row {
        call,
        size,
        rattle: if timed == 0 { taken.next() } else { None },
        ordinary: taken.collect(),
    }
}

/// A count and what is counted.
fn counted(count: usize, one: &str) -> String {
    let ending = if count == 1 { "" } else { "s" };
    format!("{count} {one}{ending}")
}
