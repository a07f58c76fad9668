//! Answers 3 to 9 and 14, in three ordinary ways: by walking the lists again and again, with hash sets, and with trees.

use super::postings::{refusal, Order};
use super::tables::{Posting, Table};
use asdrifen::{Guard, Told};
use std::collections::{BTreeMap, BTreeSet, HashMap, HashSet};

const MOST_CHANGES: usize = 256;
const MOST_GUARDS: usize = 1024;
const MOST_BYTES: usize = 1024;

/// A guard as a pair, however it lies in its list.
pub trait Pair {
    fn pair(&self) -> (u32, u32);
}

impl Pair for Guard {
    fn pair(&self) -> (u32, u32) {
        (self.binding, self.key)
    }
}

impl Pair for [u32; 2] {
    fn pair(&self) -> (u32, u32) {
        (self[0], self[1])
    }
}

/// One change of a list.
#[derive(Clone, Copy)]
pub struct Change {
    pub binding: u32,
    pub row: u32,
    pub before: Option<u32>,
    pub after: Option<u32>,
}

impl Change {
    pub fn destination(self) -> Option<Posting> {
        self.after.map(|key| (self.binding, key, self.row))
    }

    pub fn source(self) -> Option<Posting> {
        self.before.map(|key| (self.binding, key, self.row))
    }
}

/// The changes of a flat list, six numbers to each.
pub fn changes(list: &[u32]) -> impl DoubleEndedIterator<Item = Change> + ExactSizeIterator + '_ {
    list.as_chunks::<6>().0.iter().map(change)
}

fn change(numbers: &[u32; 6]) -> Change {
    let [binding, row, before_flag, before, after_flag, after] = *numbers;
    Change {
        binding,
        row,
        before: (before_flag != 0).then_some(before),
        after: (after_flag != 0).then_some(after),
    }
}

/// The destinations of a list with their change numbers.
fn destinations(list: &[u32]) -> impl Iterator<Item = (u32, Posting)> + '_ {
    numbered(changes(list).map(Change::destination))
}

/// The sources of a list with their change numbers.
fn sources(list: &[u32]) -> impl Iterator<Item = (u32, Posting)> + '_ {
    numbered(changes(list).map(Change::source))
}

fn numbered(
    postings: impl Iterator<Item = Option<Posting>>,
) -> impl Iterator<Item = (u32, Posting)> {
    postings
        .enumerate()
        .filter_map(|(i, posting)| Some((i as u32, posting?)))
}

/// 3 LIST.
pub fn proper_lists<G>(order: &Order<G>) -> bool {
    let proper_key = |flag, key| flag == 1 || (flag == 0 && key == 0);
    let (whole, rest) = order.changes.as_chunks::<6>();
    whole.len() <= MOST_CHANGES
        && order.whole_guards
        && order.guards.len() <= MOST_GUARDS
        && rest.is_empty()
        && whole
            .iter()
            .all(|c| proper_key(c[2], c[3]) && proper_key(c[4], c[5]))
}

/// 4 STRIP.
pub fn proper_strip(strip: &[u8]) -> bool {
    strip.len() <= MOST_BYTES && strip.iter().all(|&byte| byte <= 2)
}

/// 8 PRESENT.
pub fn check_present(list: &[u32], table: &impl Table) -> Result<(), Told> {
    match destinations(list).find(|&(_, posting)| table.contains(posting)) {
        Some((i, _)) => Err(refusal(8, i)),
        None => Ok(()),
    }
}

/// 6 GUARD, by what tells whether a pair is held.
fn check_held(bindings: u32, list: &[u32], held: impl Fn((u32, u32)) -> bool) -> Result<(), Told> {
    let named_held = |binding, key: Option<u32>| key.is_none_or(|key| held((binding, key)));
    let guarded = |c: Change| {
        c.binding < bindings && named_held(c.binding, c.before) && named_held(c.binding, c.after)
    };
    match changes(list).position(|change| !guarded(change)) {
        Some(i) => Err(refusal(6, i as u32)),
        None => Ok(()),
    }
}

/// 9 OVERLAP, by what tells whether a posting is a destination of the list.
fn check_sources(list: &[u32], goes_there: impl Fn(Posting) -> bool) -> Result<(), Told> {
    match sources(list).find(|&(_, posting)| goes_there(posting)) {
        Some((i, _)) => Err(refusal(9, i)),
        None => Ok(()),
    }
}

fn twice(i: u32, j: u32) -> Told {
    Told {
        answer: 7,
        named: i,
        other: j,
    }
}

/// The checks that look things up in a list.
pub trait Lookups {
    /// What 7 leaves for 9 to use.
    type Destinations;
    fn check_guards<G: Pair>(bindings: u32, list: &[u32], guards: &[G]) -> Result<(), Told>;
    fn check_twice(list: &[u32]) -> Result<Self::Destinations, Told>;
    fn check_overlap(list: &[u32], known: &Self::Destinations) -> Result<(), Told>;
    fn check_record(list: &[u32], record: &[u32]) -> Result<(), Told>;
}

/// 14 RECORD: the first place that means no destination, or that repeats a number.
fn record_by(
    list: &[u32],
    record: &[u32],
    mut repeats: impl FnMut(usize, u32) -> bool,
) -> Result<(), Told> {
    let whole = list.as_chunks::<6>().0;
    let means_none = |number: u32| {
        whole
            .get(number as usize)
            .is_none_or(|numbers| change(numbers).after.is_none())
    };
    for (place, &number) in record.iter().enumerate() {
        if means_none(number) || repeats(place, number) {
            return Err(refusal(14, place as u32));
        }
    }
    Ok(())
}

/// Each look-up walks its list. No memory is taken; the time grows with the square of the list.
pub struct ByWalks;

impl Lookups for ByWalks {
    type Destinations = ();

    fn check_guards<G: Pair>(bindings: u32, list: &[u32], guards: &[G]) -> Result<(), Told> {
        check_held(bindings, list, |named| {
            guards.iter().any(|guard| guard.pair() == named)
        })
    }

    fn check_twice(list: &[u32]) -> Result<(), Told> {
        for (j, later) in destinations(list) {
            let earlier = destinations(list)
                .take_while(|&(i, _)| i < j)
                .find(|&(_, posting)| posting == later);
            if let Some((i, _)) = earlier {
                return Err(twice(i, j));
            }
        }
        Ok(())
    }

    fn check_overlap(list: &[u32], _: &()) -> Result<(), Told> {
        check_sources(list, |source| {
            destinations(list).any(|(_, posting)| posting == source)
        })
    }

    fn check_record(list: &[u32], record: &[u32]) -> Result<(), Told> {
        record_by(list, record, |place, number| {
            record[..place].contains(&number)
        })
    }
}

/// Each look-up asks a hash set that was made for it.
pub struct ByHashing;

impl Lookups for ByHashing {
    type Destinations = HashMap<Posting, u32>;

    fn check_guards<G: Pair>(bindings: u32, list: &[u32], guards: &[G]) -> Result<(), Told> {
        let held: HashSet<_> = guards.iter().map(Pair::pair).collect();
        check_held(bindings, list, |named| held.contains(&named))
    }

    fn check_twice(list: &[u32]) -> Result<Self::Destinations, Told> {
        let mut known = HashMap::with_capacity(list.len() / 6);
        for (j, posting) in destinations(list) {
            if let Some(i) = known.insert(posting, j) {
                return Err(twice(i, j));
            }
        }
        Ok(known)
    }

    fn check_overlap(list: &[u32], known: &Self::Destinations) -> Result<(), Told> {
        check_sources(list, |source| known.contains_key(&source))
    }

    fn check_record(list: &[u32], record: &[u32]) -> Result<(), Told> {
        let mut seen = HashSet::new();
        record_by(list, record, |_, number| !seen.insert(number))
    }
}

/// Each look-up asks a tree that was made for it.
pub struct ByTrees;

impl Lookups for ByTrees {
    type Destinations = BTreeMap<Posting, u32>;

    fn check_guards<G: Pair>(bindings: u32, list: &[u32], guards: &[G]) -> Result<(), Told> {
        let held: BTreeSet<_> = guards.iter().map(Pair::pair).collect();
        check_held(bindings, list, |named| held.contains(&named))
    }

    fn check_twice(list: &[u32]) -> Result<Self::Destinations, Told> {
        let mut known = BTreeMap::new();
        for (j, posting) in destinations(list) {
            if let Some(i) = known.insert(posting, j) {
                return Err(twice(i, j));
            }
        }
        Ok(known)
    }

    fn check_overlap(list: &[u32], known: &Self::Destinations) -> Result<(), Told> {
        check_sources(list, |source| known.contains_key(&source))
    }

    fn check_record(list: &[u32], record: &[u32]) -> Result<(), Told> {
        let mut seen = BTreeSet::new();
        record_by(list, record, |_, number| !seen.insert(number))
    }
}
