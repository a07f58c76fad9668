//! Three ordinary ways to keep postings: the lent numbers themselves, a sorted `Vec`, and a `BTreeSet`.

use asdrifen::Head;
use std::collections::BTreeSet;

/// Binding, key, row.
pub type Posting = (u32, u32, u32);

const MOST_POSTINGS: usize = 4096;
const MOST_BINDINGS: u32 = 64;

/// What the calls need of a table.
pub trait Table {
    /// Answer 1 does not apply.
    fn well_formed(&self, head: Head) -> bool;
    fn used(&self) -> usize;
    fn has_room(&self) -> bool;
    fn contains(&self, posting: Posting) -> bool;
    fn insert(&mut self, posting: Posting);
    fn remove(&mut self, posting: Posting);
    fn count(&self, binding: u32, key: u32) -> usize;
}

fn proper_head(head: Head, used: usize, capacity: usize) -> bool {
    capacity <= MOST_POSTINGS
        && head.bindings <= MOST_BINDINGS
        && head.poisoned <= 1
        && head.used as usize == used
        && used <= capacity
}

/// The lent numbers, three to a posting, in order, and zeros past the postings in use.
pub struct LentTable<'a> {
    numbers: &'a mut [u32],
    used: usize,
}

impl<'a> LentTable<'a> {
    pub fn new(numbers: &'a mut [u32], head: Head) -> Self {
        LentTable {
            numbers,
            used: head.used as usize,
        }
    }

    fn rows(&self) -> &[[u32; 3]] {
        &self.numbers.as_chunks().0[..self.used]
    }

    fn find(&self, (binding, key, row): Posting) -> Result<usize, usize> {
        self.rows().binary_search(&[binding, key, row])
    }
}

impl Table for LentTable<'_> {
    fn well_formed(&self, head: Head) -> bool {
        let (rows, rest) = self.numbers.as_chunks::<3>();
        if !rest.is_empty() || !proper_head(head, self.used, rows.len()) {
            return false;
        }
        let (used, free) = rows.split_at(self.used);
        used.is_sorted_by(|a, b| a < b)
            && used.last().is_none_or(|row| row[0] < head.bindings)
            && free.as_flattened().iter().all(|&number| number == 0)
    }

    fn used(&self) -> usize {
        self.used
    }

    fn has_room(&self) -> bool {
        self.used < self.numbers.len() / 3
    }

    fn contains(&self, posting: Posting) -> bool {
        self.find(posting).is_ok()
    }

    fn insert(&mut self, posting: Posting) {
        if let Err(at) = self.find(posting) {
            let (first, end) = (at * 3, self.used * 3);
            self.numbers.copy_within(first..end, first + 3);
            self.numbers[first..first + 3].copy_from_slice(&[posting.0, posting.1, posting.2]);
            self.used += 1;
        }
    }

    fn remove(&mut self, posting: Posting) {
        if let Ok(at) = self.find(posting) {
            let (first, end) = (at * 3, self.used * 3);
            self.numbers.copy_within(first + 3..end, first);
            self.numbers[end - 3..end].fill(0);
            self.used -= 1;
        }
    }

    fn count(&self, binding: u32, key: u32) -> usize {
        let rows = self.rows();
        let from = rows.partition_point(|row| (row[0], row[1]) < (binding, key));
        rows[from..].partition_point(|row| (row[0], row[1]) <= (binding, key))
    }
}

/// A sorted `Vec`, and how many postings it may have.
pub struct SortedVec {
    pub rows: Vec<Posting>,
    pub capacity: usize,
}

impl Table for SortedVec {
    fn well_formed(&self, head: Head) -> bool {
        proper_head(head, self.rows.len(), self.capacity)
            && self.rows.is_sorted_by(|a, b| a < b)
            && self.rows.last().is_none_or(|row| row.0 < head.bindings)
    }

    fn used(&self) -> usize {
        self.rows.len()
    }

    fn has_room(&self) -> bool {
        self.rows.len() < self.capacity
    }

    fn contains(&self, posting: Posting) -> bool {
        self.rows.binary_search(&posting).is_ok()
    }

    fn insert(&mut self, posting: Posting) {
        if let Err(at) = self.rows.binary_search(&posting) {
            self.rows.insert(at, posting);
        }
    }

    fn remove(&mut self, posting: Posting) {
        if let Ok(at) = self.rows.binary_search(&posting) {
            self.rows.remove(at);
        }
    }

    fn count(&self, binding: u32, key: u32) -> usize {
        let from = self
            .rows
            .partition_point(|row| (row.0, row.1) < (binding, key));
        self.rows[from..].partition_point(|row| (row.0, row.1) <= (binding, key))
    }
}

/// A `BTreeSet`, and how many postings it may have. It cannot be out of order, so that is not looked at.
pub struct Tree {
    pub rows: BTreeSet<Posting>,
    pub capacity: usize,
}

impl Table for Tree {
    fn well_formed(&self, head: Head) -> bool {
        proper_head(head, self.rows.len(), self.capacity)
            && self.rows.last().is_none_or(|row| row.0 < head.bindings)
    }

    fn used(&self) -> usize {
        self.rows.len()
    }

    fn has_room(&self) -> bool {
        self.rows.len() < self.capacity
    }

    fn contains(&self, posting: Posting) -> bool {
        self.rows.contains(&posting)
    }

    fn insert(&mut self, posting: Posting) {
        self.rows.insert(posting);
    }

    fn remove(&mut self, posting: Posting) {
        self.rows.remove(&posting);
    }

    fn count(&self, binding: u32, key: u32) -> usize {
        self.rows
            .range((binding, key, 0)..=(binding, key, u32::MAX))
            .count()
    }
}
