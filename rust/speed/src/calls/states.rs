//! What the posting calls work on: the lent numbers, a sorted `Vec` or a `BTreeSet`, set from an input and shown as numbers.

use crate::inputs::Posted;
use crate::ordinary::tables::{SortedVec, Tree};
use asdrifen::{Done, Head, Told};

pub const NOTHING: Told = Told {
    answer: u32::MAX,
    named: 0,
    other: 0,
};

/// What a call works on: the head, a table of some kind, the record, and the answer that it gave.
pub struct State<T> {
    pub head: Head,
    pub table: T,
    pub record: Vec<u32>,
    pub told: Told,
}

impl State<Vec<u32>> {
    pub fn keep(&mut self, done: Done) {
        self.head = done.head;
        self.told = done.told;
    }
}

/// A kind of table that can be set to the numbers of an input, and shown as numbers again.
pub trait Shape {
    fn empty(capacity: usize) -> Self;
    fn set(&mut self, numbers: &[u32], used: usize);
    fn numbers(&self) -> Vec<u32>;
}

impl Shape for Vec<u32> {
    fn empty(capacity: usize) -> Self {
        vec![0; capacity * 3]
    }

    fn set(&mut self, numbers: &[u32], _: usize) {
        self.copy_from_slice(numbers);
    }

    fn numbers(&self) -> Vec<u32> {
        self.clone()
    }
}

impl Shape for SortedVec {
    fn empty(capacity: usize) -> Self {
        SortedVec {
            rows: Vec::with_capacity(capacity),
            capacity,
        }
    }

    fn set(&mut self, numbers: &[u32], used: usize) {
        let rows = &numbers.as_chunks().0[..used];
        self.rows.clear();
        self.rows.extend(rows.iter().map(|&[b, k, r]| (b, k, r)));
    }

    fn numbers(&self) -> Vec<u32> {
        padded(self.rows.iter(), self.capacity)
    }
}

impl Shape for Tree {
    fn empty(capacity: usize) -> Self {
        Tree {
            rows: Default::default(),
            capacity,
        }
    }

    fn set(&mut self, numbers: &[u32], used: usize) {
        let rows = &numbers.as_chunks().0[..used];
        self.rows = rows.iter().map(|&[b, k, r]| (b, k, r)).collect();
    }

    fn numbers(&self) -> Vec<u32> {
        padded(self.rows.iter(), self.capacity)
    }
}

fn padded<'a>(rows: impl Iterator<Item = &'a (u32, u32, u32)>, capacity: usize) -> Vec<u32> {
    let mut numbers: Vec<_> = rows.flat_map(|&(b, k, r)| [b, k, r]).collect();
    numbers.resize(capacity * 3, 0);
    numbers
}

pub fn empty<T: Shape>(input: &Posted) -> State<T> {
    State {
        head: input.head,
        table: T::empty(input.table.len() / 3),
        record: vec![0; input.record.len()],
        told: NOTHING,
    }
}

pub fn shown<T: Shape>(state: &State<T>) -> Vec<u32> {
    let (head, told) = (state.head, state.told);
    assert_eq!(told.answer, 0, "only calls that are accepted are measured");
    let mut numbers = vec![head.bindings, head.used, head.poisoned];
    numbers.extend([told.answer, told.named, told.other]);
    numbers.extend(state.table.numbers());
    numbers.extend(&state.record);
    numbers
}
