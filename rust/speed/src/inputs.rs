//! Seeded inputs: the same in every run.

use asdrifen::{Guard, Head, View};
use std::collections::{BTreeMap, BTreeSet};

/// How many inputs a row has, by the numbers of one. The rounds go through them in turn: enough of them that a processor does
/// not learn their branches by heart, and not so many that they leave its caches.
pub fn rotation(numbers: usize) -> u64 {
    const IN_ALL: usize = 1 << 17;
    (IN_ALL / numbers).clamp(16, 256) as u64
}

pub const BINDINGS: u32 = 8;

/// A small generator (splitmix64).
pub struct Random(u64);

impl Random {
    pub fn new(seed: u64) -> Self {
        Random(seed)
    }

    pub fn next(&mut self) -> u64 {
        self.0 = self.0.wrapping_add(0x9E37_79B9_7F4A_7C15);
        let mut z = self.0;
        z = (z ^ (z >> 30)).wrapping_mul(0xBF58_476D_1CE4_E5B9);
        z = (z ^ (z >> 27)).wrapping_mul(0x94D0_49BB_1331_11EB);
        z ^ (z >> 31)
    }

    pub fn below(&mut self, end: u32) -> u32 {
        (self.next() % u64::from(end)) as u32
    }
}

/// A table and an order on it that is accepted: each change takes a row that stands in the table to another key.
pub struct Posted {
    pub head: Head,
    pub table: Vec<u32>,
    pub changes: Vec<u32>,
    pub guards: Vec<Guard>,
    pub flat_guards: Vec<u32>,
    /// The table between prepare and source removal, and its head.
    pub prepared_head: Head,
    pub prepared: Vec<u32>,
    pub record: Vec<u32>,
    /// A binding and key of the table, to count.
    pub asked: Guard,
}

/// How large a row is.
#[derive(Clone, Copy)]
pub struct Size {
    /// Postings that the table has room for.
    pub capacity: u32,
    /// Postings in it.
    pub used: u32,
    pub changes: u32,
    /// Where the changes name fewer guards than this, idle ones are held besides.
    pub guards: usize,
}

pub fn posted(size: Size, seed: u64) -> Posted {
    let mut random = Random::new(seed);
    let keys = (size.used / 4).max(4);
    let rows = rows_of_index(&mut random, size, keys);
    let moves = moves(&mut random, &rows, size.changes, keys);
    let guards = guards(&mut random, &moves, size.guards);
    let table = flat_table(&rows, size.capacity);
    let after: BTreeMap<_, _> = rows
        .iter()
        .map(|(&row, &place)| ((place, row), ()))
        .chain(moves.iter().map(|m| (((m.binding, m.after), m.row), ())))
        .collect();
    let prepared = flat(after.keys().map(|&((b, k), r)| [b, k, r]), size.capacity);
    let head = |used: usize| Head {
        bindings: BINDINGS,
        used: used as u32,
        poisoned: 0,
    };
    let asked = rows.values().nth(rows.len() / 2).copied().unwrap_or((0, 0));
    Posted {
        head: head(rows.len()),
        table,
        changes: moves.iter().flat_map(Move::numbers).collect(),
        flat_guards: guards.iter().flat_map(|g| [g.binding, g.key]).collect(),
        guards,
        prepared_head: head(after.len()),
        prepared,
        record: (0..size.changes).collect(),
        asked: Guard {
            binding: asked.0,
            key: asked.1,
        },
    }
}

struct Move {
    binding: u32,
    row: u32,
    before: u32,
    after: u32,
}

impl Move {
    fn numbers(&self) -> [u32; 6] {
        [self.binding, self.row, 1, self.before, 1, self.after]
    }
}

/// Each row's binding and key.
fn rows_of_index(random: &mut Random, size: Size, keys: u32) -> BTreeMap<u32, (u32, u32)> {
    let mut rows = BTreeMap::new();
    while rows.len() < size.used as usize {
        let place = (random.below(BINDINGS), random.below(keys));
        rows.insert(random.below(1 << 24), place);
    }
    rows
}

/// So many rows, each moved to another key of its binding.
fn moves(
    random: &mut Random,
    rows: &BTreeMap<u32, (u32, u32)>,
    count: u32,
    keys: u32,
) -> Vec<Move> {
    let all: Vec<_> = rows.iter().collect();
    let mut chosen = BTreeSet::new();
    while chosen.len() < count as usize {
        chosen.insert(random.below(all.len() as u32));
    }
    let mut moves: Vec<_> = chosen
        .into_iter()
        .map(|i| {
            let (&row, &(binding, before)) = all[i as usize];
            let after = (before + 1 + random.below(keys - 1)) % keys;
            Move {
                binding,
                row,
                before,
                after,
            }
        })
        .collect();
    shuffle(random, &mut moves);
    moves
}

/// The guards that the moves name, each once, and idle ones up to a number, in no order.
fn guards(random: &mut Random, moves: &[Move], at_least: usize) -> Vec<Guard> {
    let mut named: BTreeSet<_> = moves
        .iter()
        .flat_map(|m| [(m.binding, m.before), (m.binding, m.after)])
        .collect();
    let idle = at_least.saturating_sub(named.len()) as u32;
    named.extend((0..idle).map(|key| (BINDINGS, key)));
    let mut guards: Vec<_> = named
        .into_iter()
        .map(|(binding, key)| Guard { binding, key })
        .collect();
    shuffle(random, &mut guards);
    guards
}

fn shuffle<T>(random: &mut Random, list: &mut [T]) {
    for i in (1..list.len()).rev() {
        list.swap(i, random.below(i as u32 + 1) as usize);
    }
}

fn flat_table(rows: &BTreeMap<u32, (u32, u32)>, capacity: u32) -> Vec<u32> {
    let ordered: BTreeSet<_> = rows.iter().map(|(&row, &(b, k))| [b, k, row]).collect();
    flat(ordered.into_iter(), capacity)
}

fn flat(rows: impl Iterator<Item = [u32; 3]>, capacity: u32) -> Vec<u32> {
    let mut numbers: Vec<_> = rows.flatten().collect();
    numbers.resize(capacity as usize * 3, 0);
    numbers
}

/// The lanes below a height.
fn lanes(height: u32) -> u32 {
    u32::MAX >> (32 - height)
}

/// A node with every lane attached and in the window.
pub fn full_view(height: u32, _: &mut Random) -> View {
    View {
        height,
        guarded: 1,
        retired: 0,
        attached: lanes(height),
        window: lanes(height),
    }
}

/// A node with some lanes attached, all of them in the window.
pub fn partly_attached(height: u32, random: &mut Random) -> View {
    let attached = random.next() as u32 & lanes(height);
    View {
        attached,
        window: attached | random.next() as u32,
        ..full_view(height, random)
    }
}

/// A node with every lane attached, of which the window has some.
pub fn stale_window(height: u32, random: &mut Random) -> View {
    View {
        window: random.next() as u32,
        ..full_view(height, random)
    }
}

/// So many numbers below a count of buckets.
pub fn elements(count: usize, buckets: u32, seed: u64) -> Vec<u32> {
    let mut random = Random::new(seed);
    (0..count).map(|_| random.below(buckets)).collect()
}
