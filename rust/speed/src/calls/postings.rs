//! The rows of the posting calls.

use super::jobs::{Count, Job, Prepare, Publish, PublishByValue, RemoveSources, Rollback};
use super::states::{empty, shown, Shape, State, NOTHING};
use super::{counted, row, Group, Row, Sides};
use crate::inputs::{posted, rotation, Posted, Size};
use crate::measure::{Calls, Side};
use crate::ordinary::checks::{ByHashing, ByTrees, ByWalks, Lookups};
use crate::ordinary::tables::{LentTable, SortedVec, Table, Tree};

fn restore<J: Job, T: Shape>(input: &Posted, state: &mut State<T>) {
    state.told = NOTHING;
    if J::AFTER_PREPARE {
        state.head = input.prepared_head;
        state.table.set(&input.prepared, state.head.used as usize);
        state.record.copy_from_slice(&input.record);
    } else {
        state.head = input.head;
        state.table.set(&input.table, state.head.used as usize);
        state.record.fill(u32::MAX);
    }
}

fn on_numbers<J: Job, L: Lookups>(input: &Posted, state: &mut State<Vec<u32>>) {
    let mut table = LentTable::new(&mut state.table, state.head);
    state.told = J::ordinary::<L>(input, &mut state.head, &mut table, &mut state.record);
}

fn on_table<J: Job, L: Lookups, T: Table>(input: &Posted, state: &mut State<T>) {
    state.told = J::ordinary::<L>(input, &mut state.head, &mut state.table, &mut state.record);
}

fn side<'a, J: Job + 'a, T: Shape + 'a>(
    name: &'static str,
    inputs: &'a [Posted],
    calls: usize,
    call: impl Fn(&Posted, &mut State<T>) + 'a,
) -> Box<dyn Side + 'a> {
    Calls::boxed(name, inputs, calls, empty, restore::<J, T>, call, shown)
}

fn write_sides<'a, J: Job + 'a>(inputs: &'a [Posted], calls: usize) -> Sides<'a> {
    Sides {
        rattle: side::<J, _>("Rattle", inputs, calls, J::rattle),
        ordinary: vec![
            side::<J, _>(
                "lent numbers, walks",
                inputs,
                calls,
                on_numbers::<J, ByWalks>,
            ),
            side::<J, _>(
                "sorted Vec, walks",
                inputs,
                calls,
                on_table::<J, ByWalks, SortedVec>,
            ),
            side::<J, _>(
                "sorted Vec, HashSet",
                inputs,
                calls,
                on_table::<J, ByHashing, SortedVec>,
            ),
            side::<J, _>("BTreeSet", inputs, calls, on_table::<J, ByTrees, Tree>),
        ],
        inputs: inputs.len(),
        calls,
    }
}

/// A size, and how many calls a round has at it.
const SIZES: [(Size, usize); 4] = [
    (size(16, 12, 1, 0), 64),
    (size(512, 480, 16, 0), 8),
    (size(4096, 3840, 256, 0), 1),
    (size(4096, 3840, 256, 1024), 1),
];

const fn size(capacity: u32, used: u32, changes: u32, guards: usize) -> Size {
    Size {
        capacity,
        used,
        changes,
        guards,
    }
}

fn inputs(size: Size) -> Vec<Posted> {
    (0..rotation(size.capacity as usize * 3))
        .map(|seed| posted(size, seed))
        .collect()
}

fn write_rows<J: Job>(rows: &mut Vec<Row>) {
    for (size, calls) in SIZES {
        let inputs = inputs(size);
        let guards = inputs.iter().map(|input| input.guards.len()).max();
        let text = format!(
            "{}, {}, {} of {} postings",
            counted(size.changes as usize, "change"),
            counted(guards.unwrap_or(0), "guard"),
            size.used,
            size.capacity
        );
        rows.push(row(J::NAME, text, write_sides::<J>(&inputs, calls)));
    }
}

pub fn writing() -> Group {
    let mut rows = Vec::new();
    write_rows::<Publish>(&mut rows);
    write_rows::<PublishByValue>(&mut rows);
    write_rows::<Prepare>(&mut rows);
    write_rows::<Rollback>(&mut rows);
    write_rows::<RemoveSources>(&mut rows);
    Group {
        title: "Posting calls that write",
        rows,
    }
}

fn count_row(used: u32, calls: usize) -> Row {
    let inputs = inputs(size(used, used, 0, 0));
    let sides = Sides {
        rattle: side::<Count, _>("Rattle", &inputs, calls, Count::rattle),
        ordinary: vec![
            side::<Count, _>("lent numbers", &inputs, calls, on_numbers::<Count, ByWalks>),
            side::<Count, _>(
                "sorted Vec",
                &inputs,
                calls,
                on_table::<Count, ByWalks, SortedVec>,
            ),
            side::<Count, _>("BTreeSet", &inputs, calls, on_table::<Count, ByTrees, Tree>),
        ],
        inputs: inputs.len(),
        calls,
    };
    row(Count::NAME, format!("{used} of {used} postings"), sides)
}

pub fn counting() -> Group {
    Group {
        title: "Count",
        rows: vec![count_row(16, 64), count_row(512, 16), count_row(4096, 4)],
    }
}
