//! Ordinary Rust answers as the proved code does, also where a call is refused or storage fails: else the times would compare
//! two different things.

use crate::inputs::Random;
use crate::ordinary::checks::{ByHashing, ByTrees, ByWalks, Lookups};
use crate::ordinary::postings::{self, flat_order};
use crate::ordinary::tables::{LentTable, SortedVec, Table, Tree};
use crate::ordinary::{buckets, lanes};
use asdrifen::{lent, Head, Told, View};
use std::collections::BTreeSet;

const CASES: usize = 20_000;

/// What a posting call is lent. Numbers are small, so that they meet often.
struct Case {
    head: Head,
    table: Vec<u32>,
    changes: Vec<u32>,
    guards: Vec<u32>,
    strip: Vec<u8>,
    record: Vec<u32>,
}

fn one_in(random: &mut Random, times: u32) -> bool {
    random.below(times) == 0
}

fn small_table(random: &mut Random) -> (Head, Vec<u32>) {
    let capacity = 1 + random.below(6);
    let rows: BTreeSet<_> = (0..random.below(capacity + 1))
        .map(|_| [random.below(2), random.below(3), random.below(3)])
        .collect();
    let head = Head {
        bindings: 2,
        used: rows.len() as u32,
        poisoned: u32::from(one_in(random, 16)),
    };
    let mut table: Vec<_> = rows.into_iter().flatten().collect();
    table.resize(capacity as usize * 3, 0);
    (head, table)
}

fn small_change(random: &mut Random) -> Vec<u32> {
    let key = |random: &mut Random| match random.below(16) {
        0 => [2, 0],
        1 => [0, 1],
        2..=5 => [0, 0],
        _ => [1, random.below(3)],
    };
    let place = [random.below(2), random.below(3)];
    [place, key(random), key(random)].concat()
}

fn small_guards(random: &mut Random) -> Vec<u32> {
    let mut guards = Vec::new();
    for binding in 0..2 {
        for key in 0..3 {
            if !one_in(random, 20) {
                guards.extend([binding, key]);
            }
        }
    }
    if one_in(random, 32) {
        guards.pop();
    }
    guards
}

fn small_case(random: &mut Random) -> Case {
    let (mut head, mut table) = small_table(random);
    if one_in(random, 16) {
        let at = random.below(table.len() as u32) as usize;
        table[at] = random.below(3);
    }
    if one_in(random, 32) {
        head.used += 1;
    }
    let changes: Vec<_> = (0..random.below(4))
        .flat_map(|_| small_change(random))
        .collect();
    let room = (changes.len() as u32 / 6 + random.below(3)).saturating_sub(1);
    Case {
        head,
        table,
        guards: small_guards(random),
        strip: (0..random.below(6))
            .map(|_| random.below(40).saturating_sub(36) as u8)
            .collect(),
        record: (0..room).map(|_| random.below(3)).collect(),
        changes,
    }
}

/// What is seen after a posting call.
type Seen = (Told, Head, Vec<u32>, Vec<u32>);

#[derive(Clone, Copy)]
enum Call {
    Publish,
    Prepare,
    Rollback,
    Remove,
}

const CALLS: [Call; 4] = [Call::Publish, Call::Prepare, Call::Rollback, Call::Remove];

fn rattle(case: &Case, call: Call) -> Seen {
    let (mut table, mut record) = (case.table.clone(), case.record.clone());
    let Case {
        head,
        changes,
        guards,
        strip,
        ..
    } = case;
    let done = match call {
        Call::Publish => {
            lent::publish_by_value(*head, &mut table, changes, guards, strip, &mut record)
        }
        Call::Prepare => {
            lent::prepare_index_destinations(*head, &mut table, changes, guards, strip, &mut record)
        }
        Call::Rollback => {
            lent::rollback_index_destinations(*head, &mut table, changes, guards, strip, &record)
        }
        Call::Remove => lent::remove_index_sources(*head, &mut table, changes, guards, strip),
    };
    (done.told, done.head, table, record)
}

fn ordinary<L: Lookups>(case: &Case, call: Call, table: &mut impl Table) -> (Told, Head, Vec<u32>) {
    let (mut head, mut record) = (case.head, case.record.clone());
    let order = flat_order(&case.changes, &case.guards, &case.strip);
    let told = match call {
        Call::Publish => postings::publish::<L, _>(&mut head, table, &order, &mut record),
        Call::Prepare => postings::prepare::<L, _>(&mut head, table, &order, &mut record),
        Call::Rollback => postings::rollback::<L, _>(&mut head, table, &order, &record),
        Call::Remove => postings::remove_sources::<L, _>(&mut head, table, &order),
    };
    (told, head, record)
}

fn on_numbers<L: Lookups>(case: &Case, call: Call) -> Seen {
    let mut numbers = case.table.clone();
    let mut table = LentTable::new(&mut numbers, case.head);
    let (told, head, record) = ordinary::<L>(case, call, &mut table);
    (told, head, numbers, record)
}

/// The postings of a table that can be kept in order: only a well formed one.
fn rows(case: &Case) -> Option<Vec<(u32, u32, u32)>> {
    let mut numbers = case.table.clone();
    let table = LentTable::new(&mut numbers, case.head);
    if !table.well_formed(case.head) {
        return None;
    }
    let rows = &case.table.as_chunks().0[..case.head.used as usize];
    Some(rows.iter().map(|&[b, k, r]| (b, k, r)).collect())
}

fn padded(rows: impl IntoIterator<Item = (u32, u32, u32)>, length: usize) -> Vec<u32> {
    let mut numbers: Vec<_> = rows.into_iter().flat_map(|(b, k, r)| [b, k, r]).collect();
    numbers.resize(length, 0);
    numbers
}

fn on_vec(case: &Case, rows: &[(u32, u32, u32)], call: Call) -> Seen {
    let mut table = SortedVec {
        rows: rows.to_vec(),
        capacity: case.table.len() / 3,
    };
    let (told, head, record) = ordinary::<ByHashing>(case, call, &mut table);
    (told, head, padded(table.rows, case.table.len()), record)
}

fn on_tree(case: &Case, rows: &[(u32, u32, u32)], call: Call) -> Seen {
    let mut table = Tree {
        rows: rows.iter().copied().collect(),
        capacity: case.table.len() / 3,
    };
    let (told, head, record) = ordinary::<ByTrees>(case, call, &mut table);
    (told, head, padded(table.rows, case.table.len()), record)
}

#[test]
fn posting_calls_answer_alike() {
    let mut random = Random::new(5);
    let mut met = BTreeSet::new();
    for _ in 0..CASES {
        let case = small_case(&mut random);
        for call in CALLS {
            let expected = rattle(&case, call);
            met.insert(expected.0.answer);
            assert_eq!(on_numbers::<ByWalks>(&case, call), expected);
            assert_eq!(on_numbers::<ByHashing>(&case, call), expected);
            assert_eq!(on_numbers::<ByTrees>(&case, call), expected);
            if let Some(rows) = rows(&case) {
                assert_eq!(on_vec(&case, &rows, call), expected);
                assert_eq!(on_tree(&case, &rows, call), expected);
            }
        }
    }
    assert!(
        met.iter().copied().eq(0..=14),
        "not every answer was met: {met:?}"
    );
}

#[test]
fn counts_are_alike() {
    let mut random = Random::new(6);
    let mut met = BTreeSet::new();
    for _ in 0..CASES {
        let case = small_case(&mut random);
        let (binding, key) = (random.below(3), random.below(3));
        let expected = lent::count(case.head, &case.table, binding, key);
        met.insert(expected.answer);
        let mut numbers = case.table.clone();
        let table = LentTable::new(&mut numbers, case.head);
        assert_eq!(postings::count(case.head, &table, binding, key), expected);
    }
    assert!(met.into_iter().eq([0, 1, 2, 6]));
}

#[test]
fn lane_calls_answer_alike() {
    let mut random = Random::new(7);
    let mut met = BTreeSet::new();
    for _ in 0..CASES {
        let height = random.below(6);
        let mask = |random: &mut Random| random.below(1 << height.max(1));
        let view = View {
            height: if one_in(&mut random, 32) { 33 } else { height },
            guarded: u32::from(!one_in(&mut random, 16)),
            retired: u32::from(one_in(&mut random, 16)),
            attached: mask(&mut random),
            window: mask(&mut random),
        };
        let strip: Vec<_> = (0..random.below(8))
            .map(|_| random.below(41).saturating_sub(37) as u8)
            .collect();
        let rounds = random.below(3);
        let pairs = [
            (
                lent::cached_detach(view, &[], &strip),
                lanes::cached_detach(view, &strip),
            ),
            (
                lent::refreshed_detach(view, &[], &strip),
                lanes::refreshed_detach(view, &strip),
            ),
            (
                lent::detach_before_retire(view, &[], &strip, rounds),
                lanes::detach_before_retire(view, &strip, rounds),
            ),
        ];
        for (expected, found) in pairs {
            met.insert(expected.answer);
            assert_eq!(found, expected);
        }
    }
    assert!(met.into_iter().eq([0, 20, 21, 22, 23, 24, 25]));
}

#[test]
fn bucket_calls_answer_alike() {
    let mut random = Random::new(8);
    let mut met = BTreeSet::new();
    for _ in 0..CASES {
        let count = if one_in(&mut random, 32) {
            65_537
        } else {
            random.below(70)
        };
        let input: Vec<_> = (0..random.below(12)).map(|_| random.below(66)).collect();
        let fresh = vec![9; random.below(14) as usize];
        let (mut expected, mut found) = (fresh.clone(), fresh.clone());
        let told = lent::canonical_buckets_sort(&input, count, &mut expected);
        met.insert(told.answer);
        assert_eq!(buckets::by_sorting(&input, count, &mut found), told);
        assert_eq!(found, expected);
        found.clone_from(&fresh);
        assert_eq!(buckets::by_flags(&input, count, &mut found), told);
        assert_eq!(found, expected);
        found.clone_from(&fresh);
        let mut scratch = vec![7; 1100];
        assert_eq!(
            buckets::by_bits(&input, count, &mut found, &mut scratch),
            told
        );
        assert_eq!(found, expected);
    }
    assert!(met.into_iter().eq([0, 30, 31, 32]));
}
