//! The lettered orders A to N, each with its line, and with all that it leaves behind.

use model::{publish, Guard, Head, Told};

/// What stands in the places of the record list before each order.
const STALE: u32 = 77;

const GUARDS: [Guard; 3] = [
    Guard { binding: 0, key: 5 },
    Guard { binding: 0, key: 6 },
    Guard { binding: 1, key: 9 },
];

const TABLE: [u32; 12] = [0, 5, 1, 0, 5, 2, 0, 0, 0, 0, 0, 0];

const ONE_MOVE: [u32; 6] = [0, 1, 1, 5, 1, 6];
const TWO_MOVES: [u32; 12] = [0, 1, 1, 5, 1, 6, 0, 2, 1, 5, 1, 6];
const THREE_NEW: [u32; 18] = [1, 7, 0, 0, 1, 9, 1, 8, 0, 0, 1, 9, 1, 9, 0, 0, 1, 9];

/// One lettered order: what differs from the common beginning.
struct Order {
    letter: char,
    changes: &'static [u32],
    strip: &'static [u8],
    poisoned: u32,
    length: usize,
}

/// What an order leaves behind.
#[derive(Debug, PartialEq)]
struct Left {
    line: String,
    told: (u32, u32, u32),
    table: Vec<u32>,
    record: Vec<u32>,
}

fn order(letter: char, changes: &'static [u32], strip: &'static [u8]) -> Order {
    Order {
        letter,
        changes,
        strip,
        poisoned: 0,
        length: TABLE.len(),
    }
}

fn run(order: &Order) -> Left {
    let mut head = Head {
        bindings: 2,
        used: 2,
        poisoned: order.poisoned,
    };
    let mut table = TABLE[..order.length].to_vec();
    let mut record = vec![STALE; 3];
    let Told {
        answer,
        named,
        other,
    } = publish(
        &mut head,
        &mut table,
        order.changes,
        &GUARDS,
        order.strip,
        &mut record,
    );
    Left {
        line: format!("{} {answer} {} {}", order.letter, head.used, head.poisoned),
        told: (answer, named, other),
        table,
        record,
    }
}

/// The postings with zeros behind them, up to the length of the table.
fn table_of(postings: &[[u32; 3]]) -> Vec<u32> {
    let mut table = postings.concat();
    table.resize(TABLE.len(), 0);
    table
}

fn expect(
    order: Order,
    line: &str,
    told: (u32, u32, u32),
    postings: &[[u32; 3]],
    record: [u32; 3],
) {
    let length = order.length;
    let expected = Left {
        line: line.to_string(),
        told,
        table: table_of(postings)[..length].to_vec(),
        record: record.to_vec(),
    };
    assert_eq!(run(&order), expected);
}

const AS_BEFORE: [[u32; 3]; 2] = [[0, 5, 1], [0, 5, 2]];
const UNWRITTEN: [u32; 3] = [STALE; 3];

#[test]
fn accepted_orders() {
    let moved = [[0, 5, 2], [0, 6, 1]];
    let recorded = [0, STALE, STALE];
    let a = order('A', &ONE_MOVE, &[]);
    expect(a, "A 0 2 0", (0, 1, 0), &moved, recorded);
    let b = order('B', &[0, 1, 1, 5, 0, 0], &[]);
    expect(b, "B 0 1 0", (0, 0, 0), &[[0, 5, 2]], UNWRITTEN);
    let n = order('N', &[], &[]);
    expect(n, "N 0 2 0", (0, 0, 0), &AS_BEFORE, UNWRITTEN);
}

#[test]
fn a_full_table_refuses() {
    let c = order('C', &THREE_NEW, &[]);
    expect(c, "C 11 2 0", (11, 2, 0), &AS_BEFORE, UNWRITTEN);
    let m = Order {
        length: 6,
        ..order('M', &ONE_MOVE, &[])
    };
    expect(m, "M 11 2 0", (11, 0, 0), &AS_BEFORE, UNWRITTEN);
}

#[test]
fn a_failed_undo_poisons() {
    let kept = [[0, 5, 1], [0, 5, 2], [1, 9, 8]];
    let d = order('D', &THREE_NEW, &[0, 0, 0, 1, 0]);
    expect(d, "D 12 3 1", (12, 2, 0), &kept, UNWRITTEN);
    let e = order('E', &THREE_NEW, &[0, 0, 0, 2, 0]);
    expect(e, "E 12 2 1", (12, 2, 0), &AS_BEFORE, UNWRITTEN);
}

#[test]
fn a_failed_source_removal_poisons() {
    let both = [[0, 5, 1], [0, 5, 2], [0, 6, 1], [0, 6, 2]];
    let moved = [[0, 6, 1], [0, 6, 2]];
    let recorded = [0, 1, STALE];
    let f = order('F', &TWO_MOVES, &[0, 0, 1]);
    expect(f, "F 13 4 1", (13, 0, 0), &both, recorded);
    let g = order('G', &TWO_MOVES, &[0, 0, 0, 2]);
    expect(g, "G 13 2 1", (13, 1, 0), &moved, recorded);
}

#[test]
fn a_failed_insertion_leaves_all_as_before() {
    let h = order('H', &ONE_MOVE, &[1]);
    expect(h, "H 10 2 0", (10, 0, 0), &AS_BEFORE, UNWRITTEN);
}

#[test]
fn refused_lists_change_nothing() {
    let i = order('I', &[0, 1, 0, 0, 1, 6, 0, 1, 0, 0, 1, 6], &[]);
    expect(i, "I 7 2 0", (7, 0, 1), &AS_BEFORE, UNWRITTEN);
    let j = order('J', &[0, 2, 0, 0, 1, 5], &[]);
    expect(j, "J 8 2 0", (8, 0, 0), &AS_BEFORE, UNWRITTEN);
    let k = order('K', &[0, 3, 0, 0, 1, 6, 0, 3, 1, 6, 0, 0], &[]);
    expect(k, "K 9 2 0", (9, 1, 0), &AS_BEFORE, UNWRITTEN);
}

#[test]
fn a_poisoned_head_is_refused() {
    let l = Order {
        poisoned: 1,
        ..order('L', &ONE_MOVE, &[])
    };
    expect(l, "L 2 2 1", (2, 0, 0), &AS_BEFORE, UNWRITTEN);
}
