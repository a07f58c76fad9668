//! The index that owns its table, and what is published to it.

use crate::answers::{Answer, Refused};
use crate::raw::{Done, Guard, Head};
use crate::{lent, limits};

/// A posting: a row stands under a key of a binding.
#[derive(Clone, Copy, Debug, PartialEq, Eq, PartialOrd, Ord, Hash)]
pub struct Posting {
    /// The binding: the number of an index.
    pub binding: u32,
    /// The key.
    pub key: u32,
    /// The row.
    pub row: u32,
}

/// What is to happen to one row of one binding.
///
/// `before` is the key that it leaves, the source; `after` the key that it comes to, the destination.
///
/// ```
/// use asdrifen::{Change, Posting};
///
/// let change = Change::moved(Posting { binding: 0, key: 5, row: 1 }, 6);
/// assert_eq!(change, Change { binding: 0, row: 1, before: Some(5), after: Some(6) });
/// assert_eq!(change.flatten(), [0, 1, 1, 5, 1, 6]);
/// ```
#[derive(Clone, Copy, Debug, PartialEq, Eq, Hash)]
pub struct Change {
    /// The binding.
    pub binding: u32,
    /// The row.
    pub row: u32,
    /// The key that the row leaves, if any.
    pub before: Option<u32>,
    /// The key that the row comes to, if any.
    pub after: Option<u32>,
}

impl Change {
    /// The posting comes in.
    pub fn added(posting: Posting) -> Change {
        Change {
            binding: posting.binding,
            row: posting.row,
            before: None,
            after: Some(posting.key),
        }
    }

    /// The posting goes out.
    pub fn removed(posting: Posting) -> Change {
        Change {
            binding: posting.binding,
            row: posting.row,
            before: Some(posting.key),
            after: None,
        }
    }

    /// The posting goes to another key.
    pub fn moved(posting: Posting, key: u32) -> Change {
        Change {
            after: Some(key),
            ..Change::removed(posting)
        }
    }

    /// The six numbers of the change: binding, row, before flag, before key, after flag, after key.
    pub fn flatten(self) -> [u32; 6] {
        let [before_flag, before_key] = flag_and_key(self.before);
        let [after_flag, after_key] = flag_and_key(self.after);
        [
            self.binding,
            self.row,
            before_flag,
            before_key,
            after_flag,
            after_key,
        ]
    }
}

// With flag 0 the key must be 0.
fn flag_and_key(key: Option<u32>) -> [u32; 2] {
    match key {
        Some(key) => [1, key],
        None => [0, 0],
    }
}

/// The numbers of a list of changes, for the calls of [`crate::lent`].
pub fn flatten_changes(changes: &[Change]) -> Vec<u32> {
    changes.iter().flat_map(|change| change.flatten()).collect()
}

/// The numbers of a list of guards, for the by-value calls of [`crate::lent`].
pub fn flatten_guards(guards: &[Guard]) -> Vec<u32> {
    guards
        .iter()
        .flat_map(|guard| [guard.binding, guard.key])
        .collect()
}

impl Guard {
    /// The guard of a key of a binding. Lend only guards that are held: answer 6 rests on it.
    pub fn new(binding: u32, key: u32) -> Guard {
        Guard { binding, key }
    }
}

/// A posting index: a table with its head, kept together.
///
/// The head holds the poison flag. The index keeps every head that a call
/// leaves, so that a poisoned index stays poisoned and gives no count again.
///
/// ```
/// use asdrifen::{Change, Guard, Index, Posting};
///
/// let mut index = Index::new(1, 8)?;
/// let held = [Guard::new(0, 5), Guard::new(0, 6)];
/// let member = Posting { binding: 0, key: 5, row: 1 };
///
/// index.publish(&[Change::added(member)], &held)?;
/// assert_eq!(index.count(0, 5)?, 1);
///
/// index.publish(&[Change::moved(member, 6)], &held)?;
/// assert_eq!(index.count(0, 5)?, 0);
/// assert_eq!(index.count(0, 6)?, 1);
/// # Ok::<(), asdrifen::Refused>(())
/// ```
#[derive(Clone, Debug, PartialEq, Eq)]
pub struct Index {
    head: Head,
    table: Vec<u32>,
}

impl Index {
    /// An empty index. More than [`limits::BINDINGS`] or [`limits::CAPACITY`] is refused with 1 TABLE.
    pub fn new(bindings: u32, capacity: usize) -> Result<Index, Refused> {
        // Asked here, so that no table is made that every call would refuse.
        if bindings > limits::BINDINGS || capacity > limits::CAPACITY {
            return Err(Refused::new(Answer::Table, 0, 0));
        }
        let head = Head {
            bindings,
            used: 0,
            poisoned: 0,
        };
        Ok(Index::from_parts(head, vec![0; 3 * capacity]))
    }

    /// An index from a head and a table that came from elsewhere.
    ///
    /// Any numbers may come in. Where they are not well formed, each call is refused with 1 TABLE.
    ///
    /// ```
    /// use asdrifen::{Answer, Head, Index};
    ///
    /// // Three postings are said to be in use, and there is room for one.
    /// let head = Head { bindings: 1, used: 3, poisoned: 0 };
    /// let index = Index::from_parts(head, vec![0, 5, 1]);
    /// assert_eq!(index.count(0, 5).unwrap_err().answer, Answer::Table);
    /// ```
    pub fn from_parts(head: Head, table: Vec<u32>) -> Index {
        Index { head, table }
    }

    /// The head and the table, to be kept elsewhere. Keep both: the head has the poison flag.
    pub fn into_parts(self) -> (Head, Vec<u32>) {
        (self.head, self.table)
    }

    /// The head as the last call left it.
    pub fn head(&self) -> Head {
        self.head
    }

    /// All numbers of the table, for diagnosis. Do not count from them: [`Index::count`] does, or withholds.
    pub fn table(&self) -> &[u32] {
        &self.table
    }

    /// Whether the poison flag is set. Then every publish and count is refused with 2 POISONED.
    pub fn is_poisoned(&self) -> bool {
        self.head.poisoned != 0
    }

    /// Sets the poison flag: from now on the counts are withheld.
    ///
    /// ```
    /// use asdrifen::{Answer, Index};
    ///
    /// let mut index = Index::new(1, 4)?;
    /// index.poison();
    /// assert_eq!(index.count(0, 5).unwrap_err().answer, Answer::Poisoned);
    /// # Ok::<(), asdrifen::Refused>(())
    /// ```
    pub fn poison(&mut self) {
        lent::poison_indexes(&mut self.head);
    }

    /// The number of postings with a binding and key: right, or withheld.
    pub fn count(&self, binding: u32, key: u32) -> Result<u32, Refused> {
        lent::count(self.head, &self.table, binding, key).counted()
    }

    /// The postings in use, ascending. Withheld where a count is: a sum over them is a count too.
    ///
    /// ```
    /// use asdrifen::{Head, Index, Posting};
    ///
    /// let head = Head { bindings: 1, used: 2, poisoned: 0 };
    /// let index = Index::from_parts(head, vec![0, 5, 1, 0, 5, 2, 0, 0, 0]);
    /// let rows: Vec<u32> = index.postings()?.map(|posting| posting.row).collect();
    /// assert_eq!(rows, [1, 2]);
    /// # Ok::<(), asdrifen::Refused>(())
    /// ```
    pub fn postings(&self) -> Result<impl Iterator<Item = Posting> + '_, Refused> {
        match self.count(0, 0) {
            // 6 says only that binding 0 is not there; the table is good.
            Err(refused) if refused.answer != Answer::Guard => Err(refused),
            _ => Ok(self.stored()),
        }
    }

    fn stored(&self) -> impl Iterator<Item = Posting> + '_ {
        let posting = |numbers: &[u32]| Posting {
            binding: numbers[0],
            key: numbers[1],
            row: numbers[2],
        };
        let used = self.head.used as usize;
        self.table.chunks_exact(3).take(used).map(posting)
    }

    /// Publishes: all destinations in, then all sources out.
    ///
    /// Gives the record, the numbers of the changes that had a destination. After
    /// 12 and 13 the index is poisoned; after every other refusal it is as before.
    /// The record that a 13 leaves is not given; [`lent::publish`] writes it.
    ///
    /// ```
    /// use asdrifen::{Answer, Change, Guard, Index, Named, Posting};
    ///
    /// let mut index = Index::new(1, 1)?;
    /// let held = [Guard::new(0, 5)];
    /// let add = |row| Change::added(Posting { binding: 0, key: 5, row });
    ///
    /// let refused = index.publish(&[add(1), add(2)], &held).unwrap_err();
    /// assert_eq!((refused.answer, refused.named), (Answer::Full, Named::Change(1)));
    /// assert_eq!(index.count(0, 5)?, 0);
    /// assert_eq!(index.publish(&[add(1)], &held)?, [0]);
    /// # Ok::<(), asdrifen::Refused>(())
    /// ```
    pub fn publish(&mut self, changes: &[Change], guards: &[Guard]) -> Result<Vec<u32>, Refused> {
        self.with_strip(&[]).publish(changes, guards)
    }

    /// The first half of a publish alone: all destinations in, or none. Gives the record.
    ///
    /// ```
    /// use asdrifen::{Change, Guard, Index, Posting};
    ///
    /// let mut index = Index::new(1, 4)?;
    /// let held = [Guard::new(0, 5)];
    /// let changes = [Change::added(Posting { binding: 0, key: 5, row: 1 })];
    ///
    /// let record = index.prepare(&changes, &held)?;
    /// assert_eq!(index.count(0, 5)?, 1);
    /// index.rollback(&changes, &held, &record)?;
    /// assert_eq!(index.count(0, 5)?, 0);
    /// # Ok::<(), asdrifen::Refused>(())
    /// ```
    pub fn prepare(&mut self, changes: &[Change], guards: &[Guard]) -> Result<Vec<u32>, Refused> {
        self.with_strip(&[]).prepare(changes, guards)
    }

    /// Takes a prepare back. The record is the one that prepare gave.
    pub fn rollback(
        &mut self,
        changes: &[Change],
        guards: &[Guard],
        record: &[u32],
    ) -> Result<(), Refused> {
        self.with_strip(&[]).rollback(changes, guards, record)
    }

    /// The second half of a publish alone: all sources out.
    ///
    /// ```
    /// use asdrifen::{Change, Guard, Head, Index, Posting};
    ///
    /// let head = Head { bindings: 1, used: 1, poisoned: 0 };
    /// let mut index = Index::from_parts(head, vec![0, 5, 1]);
    /// let removed = Change::removed(Posting { binding: 0, key: 5, row: 1 });
    /// index.remove_sources(&[removed], &[Guard::new(0, 5)])?;
    /// assert_eq!(index.count(0, 5)?, 0);
    /// # Ok::<(), asdrifen::Refused>(())
    /// ```
    pub fn remove_sources(&mut self, changes: &[Change], guards: &[Guard]) -> Result<(), Refused> {
        self.with_strip(&[]).remove_sources(changes, guards)
    }

    /// The same calls under a strip that says how storage behaves, for drills.
    ///
    /// Each insertion and removal of a call reads the next byte: 0 well, 1 or 2 it
    /// fails; a removal that fails with 2 has the posting gone. Past the end storage
    /// does not fail.
    ///
    /// ```
    /// use asdrifen::{Answer, Change, Guard, Index, Posting};
    ///
    /// let mut index = Index::new(1, 4)?;
    /// let held = [Guard::new(0, 5)];
    /// let add = |row| Change::added(Posting { binding: 0, key: 5, row });
    ///
    /// // The second insertion fails, and the first is undone.
    /// let refused = index.with_strip(&[0, 1]).publish(&[add(1), add(2)], &held).unwrap_err();
    /// assert_eq!(refused.answer, Answer::Store);
    /// assert_eq!(index.count(0, 5)?, 0);
    /// # Ok::<(), asdrifen::Refused>(())
    /// ```
    pub fn with_strip<'a>(&'a mut self, strip: &'a [u8]) -> WithStrip<'a> {
        WithStrip { index: self, strip }
    }

    // The head is kept before the answer is looked at, so no poison flag is lost.
    fn keep(&mut self, done: Done) -> Result<u32, Refused> {
        self.head = done.head;
        done.told.result()
    }
}

/// An [`Index`] under a strip; see [`Index::with_strip`].
#[derive(Debug)]
pub struct WithStrip<'a> {
    index: &'a mut Index,
    strip: &'a [u8],
}

impl WithStrip<'_> {
    /// As [`Index::publish`].
    pub fn publish(self, changes: &[Change], guards: &[Guard]) -> Result<Vec<u32>, Refused> {
        let Index { head, table } = self.index;
        let mut record = vec![0; changes.len()];
        let changes = flatten_changes(changes);
        let told = lent::publish(head, table, &changes, guards, self.strip, &mut record);
        record.truncate(told.result()? as usize);
        Ok(record)
    }

    /// As [`Index::prepare`].
    pub fn prepare(self, changes: &[Change], guards: &[Guard]) -> Result<Vec<u32>, Refused> {
        let mut record = vec![0; changes.len()];
        let done = lent::prepare_index_destinations(
            self.index.head,
            &mut self.index.table,
            &flatten_changes(changes),
            &flatten_guards(guards),
            self.strip,
            &mut record,
        );
        record.truncate(self.index.keep(done)? as usize);
        Ok(record)
    }

    /// As [`Index::rollback`].
    pub fn rollback(
        self,
        changes: &[Change],
        guards: &[Guard],
        record: &[u32],
    ) -> Result<(), Refused> {
        let done = lent::rollback_index_destinations(
            self.index.head,
            &mut self.index.table,
            &flatten_changes(changes),
            &flatten_guards(guards),
            self.strip,
            record,
        );
        self.index.keep(done).map(|_| ())
    }

    /// As [`Index::remove_sources`].
    pub fn remove_sources(self, changes: &[Change], guards: &[Guard]) -> Result<(), Refused> {
        let done = lent::remove_index_sources(
            self.index.head,
            &mut self.index.table,
            &flatten_changes(changes),
            &flatten_guards(guards),
            self.strip,
        );
        self.index.keep(done).map(|_| ())
    }
}
