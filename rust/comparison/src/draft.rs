//! Drafts of orders: structured, so that faults can be put in before the flat lists are made.

use crate::call::Order;
use crate::random::Random;
use model::Head;
use std::collections::BTreeSet;

/// Binding, key, row.
pub type Posting = (u32, u32, u32);

/// One change of a list.
#[derive(Clone, Copy, Debug, PartialEq, Eq)]
#[allow(missing_docs)]
pub struct Change {
    pub binding: u32,
    pub row: u32,
    pub before: Option<u32>,
    pub after: Option<u32>,
}

impl Change {
    /// The change that brings a posting.
    pub fn bringing(posting: Posting) -> Change {
        Change {
            binding: posting.0,
            row: posting.2,
            before: None,
            after: Some(posting.1),
        }
    }

    /// The change that takes a posting away.
    pub fn taking(posting: Posting) -> Change {
        Change {
            binding: posting.0,
            row: posting.2,
            before: Some(posting.1),
            after: None,
        }
    }

    /// The posting that it takes away.
    pub fn source(&self) -> Option<Posting> {
        self.before.map(|key| (self.binding, key, self.row))
    }

    /// The posting that it brings.
    pub fn destination(&self) -> Option<Posting> {
        self.after.map(|key| (self.binding, key, self.row))
    }

    /// The six numbers.
    pub fn numbers(&self) -> [u32; 6] {
        let flag = |key: Option<u32>| u32::from(key.is_some());
        [
            self.binding,
            self.row,
            flag(self.before),
            self.before.unwrap_or(0),
            flag(self.after),
            self.after.unwrap_or(0),
        ]
    }
}

/// The six numbers of each change.
pub fn flat_changes(changes: &[Change]) -> Vec<u32> {
    changes.iter().flat_map(Change::numbers).collect()
}

/// The changes of a well-formed list.
pub fn read_changes(numbers: &[u32]) -> Vec<Change> {
    let key = |flag: u32, key: u32| (flag == 1).then_some(key);
    let change = |numbers: &[u32]| Change {
        binding: numbers[0],
        row: numbers[1],
        before: key(numbers[2], numbers[3]),
        after: key(numbers[4], numbers[5]),
    };
    numbers.chunks_exact(6).map(change).collect()
}

/// The two numbers of each guard.
pub fn flat_guards(guards: &[(u32, u32)]) -> Vec<u32> {
    guards
        .iter()
        .flat_map(|&(binding, key)| [binding, key])
        .collect()
}

/// The three numbers of each posting, ascending, with zeros behind them for the free places.
pub fn flat_table(postings: &BTreeSet<Posting>, capacity: usize) -> Vec<u32> {
    let mut table: Vec<u32> = postings
        .iter()
        .flat_map(|&(binding, key, row)| [binding, key, row])
        .collect();
    table.resize(capacity * 3, 0);
    table
}

/// The guards that the changes need.
pub fn needed_guards(changes: &[Change]) -> BTreeSet<(u32, u32)> {
    let mut needed = BTreeSet::new();
    for change in changes {
        let keys = change.before.into_iter().chain(change.after);
        needed.extend(keys.map(|key| (change.binding, key)));
    }
    needed
}

/// An order before it is made flat. All its parts fit together until a fault is put in.
#[derive(Clone, Debug)]
#[allow(missing_docs)]
pub struct Draft {
    pub bindings: u32,
    pub postings: BTreeSet<Posting>,
    pub free: usize,
    pub changes: Vec<Change>,
    pub guards: Vec<(u32, u32)>,
    pub strip: Vec<u8>,
}

impl Draft {
    /// The flat order. The record list has this many places more than there are changes.
    pub fn order(&self, random: &mut Random, spare: usize) -> Order {
        Order {
            head: Head {
                bindings: self.bindings,
                used: self.postings.len() as u32,
                poisoned: 0,
            },
            table: flat_table(&self.postings, self.postings.len() + self.free),
            changes: flat_changes(&self.changes),
            guards: flat_guards(&self.guards),
            strip: self.strip.clone(),
            record: random.numbers(self.changes.len() + spare),
        }
    }

    /// The numbers of the changes that bring something.
    pub fn bringing(&self) -> Vec<u32> {
        let all = 0..self.changes.len();
        all.filter(|&place| self.changes[place].after.is_some())
            .map(|place| place as u32)
            .collect()
    }

    /// The number of changes that take something away.
    pub fn taking(&self) -> usize {
        let takes = |change: &&Change| change.before.is_some();
        self.changes.iter().filter(takes).count()
    }

    /// The draft with its destinations in the table already, as far as there is room: so rollback
    /// meets it.
    pub fn prepared(&self) -> Draft {
        let mut prepared = self.clone();
        let destinations = self.changes.iter().filter_map(Change::destination);
        for posting in destinations.filter(|posting| posting.0 < self.bindings) {
            if prepared.free > 0 && prepared.postings.insert(posting) {
                prepared.free -= 1;
            }
        }
        prepared
    }

    /// Makes the strip reach up to this place, and sets the byte there.
    pub fn set_byte(&mut self, place: usize, byte: u8) {
        if self.strip.len() <= place {
            self.strip.resize(place + 1, 0);
        }
        self.strip[place] = byte;
    }
}

/// The bindings, keys and rows from which postings are drawn.
#[derive(Clone, Debug)]
#[allow(missing_docs)]
pub struct World {
    pub bindings: u32,
    pub used_bindings: Vec<u32>,
    pub keys: Vec<u32>,
    pub rows: Vec<u32>,
}

/// Numbers that stand at the ends, and some between.
const NOTABLE: [u32; 8] = [0, 1, 2, 5, 9, 0x8000_0000, u32::MAX - 1, u32::MAX];

/// So many different numbers, many of them notable.
fn some_numbers(random: &mut Random, count: usize) -> Vec<u32> {
    let mut numbers = BTreeSet::new();
    while numbers.len() < count {
        let notable = numbers.len() < NOTABLE.len() / 2 && !random.one_in(4);
        numbers.insert(if notable {
            random.pick(&NOTABLE)
        } else {
            random.number()
        });
    }
    numbers.into_iter().collect()
}

impl World {
    /// A small world: few postings are possible, so that lists meet each other often.
    pub fn small(random: &mut Random) -> World {
        let bindings = random.pick(&[1, 1, 2, 2, 3, 64]);
        let used: BTreeSet<u32> = [0, 1 % bindings, bindings - 1].into_iter().collect();
        let keys = 1 + random.below(4);
        let rows = 1 + random.below(6);
        World {
            bindings,
            used_bindings: used.into_iter().collect(),
            keys: some_numbers(random, keys),
            rows: some_numbers(random, rows),
        }
    }

    /// A world large enough to fill the largest table.
    pub fn large(random: &mut Random) -> World {
        let bindings = random.pick(&[1, 2, 63, 64]);
        let keys = 40;
        let rows = 400;
        World {
            bindings,
            used_bindings: (0..bindings).collect(),
            keys: some_numbers(random, keys),
            rows: some_numbers(random, rows),
        }
    }

    /// Any posting of this world.
    pub fn posting(&self, random: &mut Random) -> Posting {
        (
            random.pick(&self.used_bindings),
            random.pick(&self.keys),
            random.pick(&self.rows),
        )
    }

    /// A set of at most this many postings.
    pub fn postings(&self, random: &mut Random, count: usize) -> BTreeSet<Posting> {
        let mut postings = BTreeSet::new();
        for _ in 0..4 * count {
            if postings.len() < count {
                postings.insert(self.posting(random));
            }
        }
        postings
    }

    /// So many changes that fit the postings: no destination twice, none there yet, none a source.
    pub fn changes(
        &self,
        random: &mut Random,
        postings: &BTreeSet<Posting>,
        count: usize,
    ) -> Vec<Change> {
        let present: Vec<Posting> = postings.iter().copied().collect();
        let mut taken = BTreeSet::new();
        let mut changes = Vec::new();
        for _ in 0..count {
            let change = self.change(random, &present, &taken);
            taken.extend(change.source());
            taken.extend(change.destination());
            changes.push(change);
        }
        changes
    }

    /// A change of a row that may be in the table. No posting that is taken is touched again.
    fn change(
        &self,
        random: &mut Random,
        present: &[Posting],
        taken: &BTreeSet<Posting>,
    ) -> Change {
        let known = !present.is_empty() && !random.one_in(3);
        let (binding, key, row) = if known {
            random.pick(present)
        } else {
            self.posting(random)
        };
        let before = (known || random.one_in(8)) && !taken.contains(&(binding, key, row));
        let before = before.then_some(key);
        let free = |key: u32| {
            let posting = (binding, key, row);
            Some(key) != before
                && !taken.contains(&posting)
                && present.binary_search(&posting).is_err()
        };
        let after = random.pick(&self.keys);
        let after = (!random.one_in(5) && free(after)).then_some(after);
        Change {
            binding,
            row,
            before,
            after,
        }
    }

    /// The guards that the changes need and some more, in any order, some of them twice.
    pub fn guards(&self, random: &mut Random, changes: &[Change], more: usize) -> Vec<(u32, u32)> {
        let mut guards: Vec<(u32, u32)> = needed_guards(changes).into_iter().collect();
        for _ in 0..more {
            let repeated = !guards.is_empty() && random.one_in(2);
            guards.push(if repeated {
                random.pick(&guards)
            } else {
                (random.number(), random.pick(&self.keys))
            });
        }
        random.shuffle(&mut guards);
        guards
    }
}

/// A strip of up to this many bytes: none, well behaved, or with some failures.
pub fn some_strip(random: &mut Random, longest: usize) -> Vec<u8> {
    let length = random.below(longest + 1);
    let failing = random.pick(&[0, 0, 0, 3, 8, 20]);
    let byte = |random: &mut Random| match failing {
        0 => 0,
        times if random.one_in(times) => random.pick(&[1, 2]),
        _ => 0,
    };
    (0..length).map(|_| byte(random)).collect()
}

/// A good small order: only storage can refuse it.
pub fn small_draft(random: &mut Random, world: &World) -> Draft {
    let count = random.below(12);
    let postings = world.postings(random, count);
    let count = random.below(7);
    let changes = world.changes(random, &postings, count);
    let more = random.below(4);
    Draft {
        bindings: world.bindings,
        free: random.below(8),
        guards: world.guards(random, &changes, more),
        strip: some_strip(random, 2 * changes.len() + 2),
        postings,
        changes,
    }
}
