//! The bucket calls and the stamp test.

use super::{row, Group, Row, Sides};
use crate::inputs::{elements, rotation, Random};
use crate::measure::{Calls, Side};
use crate::ordinary::buckets as ordinary;
use asdrifen::{lent, Told};

const BUCKETS: u32 = 65_536;

/// The lists that a call writes, and its answer. The scratch is in words of either width.
struct State<W> {
    output: Vec<u32>,
    scratch: Vec<W>,
    told: Told,
}

fn numbers<W>(state: &State<W>) -> Vec<u32> {
    assert_eq!(
        state.told.answer, 0,
        "only calls that are accepted are measured"
    );
    let mut numbers = state.output.clone();
    numbers.extend([state.told.answer, state.told.named, state.told.other]);
    numbers
}

fn side<'a, W: Copy + Default + 'a>(
    name: &'static str,
    inputs: &'a [Vec<u32>],
    calls: usize,
    call: impl Fn(&[u32], &mut State<W>) -> Told + 'a,
) -> Box<dyn Side + 'a> {
    let words = BUCKETS as usize / (size_of::<W>() * 8);
    Calls::boxed(
        name,
        inputs,
        calls,
        move |input: &Vec<u32>| State {
            output: vec![0; input.len()],
            scratch: vec![W::default(); words],
            told: Told {
                answer: u32::MAX,
                named: 0,
                other: 0,
            },
        },
        |_, state| state.output.fill(u32::MAX),
        move |input, state| state.told = call(input, state),
        numbers,
    )
}

fn engine_sides<'a>(
    inputs: &'a [Vec<u32>],
    calls: usize,
    rattle: impl Fn(&[u32], &mut State<u32>) -> Told + 'a,
) -> Sides<'a> {
    Sides {
        rattle: side("Rattle", inputs, calls, rattle),
        ordinary: vec![
            side("sort_unstable, dedup", inputs, calls, by_sorting),
            side("Vec<bool>", inputs, calls, by_flags),
            side("u64 bitmap", inputs, calls, by_bits),
        ],
        inputs: inputs.len(),
        calls,
    }
}

fn by_sorting(input: &[u32], state: &mut State<u64>) -> Told {
    ordinary::by_sorting(input, BUCKETS, &mut state.output)
}

fn by_flags(input: &[u32], state: &mut State<u64>) -> Told {
    ordinary::by_flags(input, BUCKETS, &mut state.output)
}

fn by_bits(input: &[u32], state: &mut State<u64>) -> Told {
    ordinary::by_bits(input, BUCKETS, &mut state.output, &mut state.scratch)
}

fn rattle_sort(input: &[u32], state: &mut State<u32>) -> Told {
    lent::canonical_buckets_sort(input, BUCKETS, &mut state.output)
}

fn rattle_bitmap(input: &[u32], state: &mut State<u32>) -> Told {
    lent::canonical_buckets_bitmap(input, BUCKETS, &mut state.output, &mut state.scratch)
}

fn engine_rows(call: &'static str, rattle: fn(&[u32], &mut State<u32>) -> Told) -> Vec<Row> {
    [(64, 8), (512, 2), (4096, 1)]
        .into_iter()
        .map(|(count, calls)| {
            let inputs: Vec<_> = (0..rotation(count))
                .map(|seed| elements(count, BUCKETS, seed))
                .collect();
            let sides = engine_sides(&inputs, calls, rattle);
            row(call, format!("{count} of {BUCKETS} buckets"), sides)
        })
        .collect()
}

pub fn engines() -> Group {
    let mut rows = engine_rows("canonical_buckets_sort", rattle_sort);
    rows.extend(engine_rows("canonical_buckets_bitmap", rattle_bitmap));
    Group {
        title: "Buckets",
        rows,
    }
}

#[inline(never)]
fn called_precedes(stamp: u64, snapshot: u64) -> bool {
    ordinary::precedes(stamp, snapshot)
}

fn stamp_side<'a>(
    name: &'static str,
    inputs: &'a [(u64, u64)],
    calls: usize,
    call: impl Fn(u64, u64) -> bool + 'a,
) -> Box<dyn Side + 'a> {
    Calls::boxed(
        name,
        inputs,
        calls,
        |_| false,
        |_, precedes| *precedes = false,
        move |&(stamp, snapshot), precedes| *precedes = call(stamp, snapshot),
        |&precedes| vec![u32::from(precedes)],
    )
}

pub fn stamps() -> Group {
    let mut random = Random::new(1);
    let inputs: Vec<_> = (0..rotation(2))
        .map(|_| (random.next(), random.next()))
        .collect();
    let calls = 1024;
    let sides = Sides {
        rattle: stamp_side("Rattle", &inputs, calls, lent::stamp_precedes_snapshot),
        ordinary: vec![
            stamp_side("called", &inputs, calls, called_precedes),
            stamp_side("in line", &inputs, calls, ordinary::precedes),
        ],
        inputs: inputs.len(),
        calls,
    };
    Group {
        title: "Stamps",
        rows: vec![row("stamp_precedes_snapshot", "two stamps".into(), sides)],
    }
}
