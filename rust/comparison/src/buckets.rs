//! The bucket engines: all small inputs, and random ones around the limits.

use crate::amounts;
use crate::call::{Buckets, Call};
use crate::compare::{Compared, Comparison};
use crate::random::{seeds, Random};
use crate::small_orders::lists_up_to;

/// What stands in output and scratch before a call.
const STALE: u32 = 0xdead_beef;
/// The longest input.
const INPUT: usize = 4_096;
/// The most buckets.
const MOST: u32 = 65_536;

/// The room that the output needs.
fn output_need(input: &[u32], buckets: u32) -> usize {
    input.len().min(buckets as usize)
}

/// The room that the scratch needs.
fn scratch_need(buckets: u32) -> usize {
    (buckets as usize).div_ceil(32)
}

/// Both engines.
pub fn bucket_calls(lent: &Buckets) -> [Call; 2] {
    [Call::Sort(lent.clone()), Call::Bitmap(lent.clone())]
}

/// All inputs of up to four numbers below 5, all bucket counts up to 5, and all output lengths next
/// to what is needed.
pub fn small_inputs(comparison: &mut Comparison) -> Compared {
    for input in lists_up_to(&[0, 1, 2, 3, 4], 4) {
        for buckets in 0..=5 {
            for (output, scratch) in small_rooms(&input, buckets) {
                let lent = Buckets {
                    input: input.clone(),
                    buckets,
                    output: vec![STALE; output],
                    scratch: vec![STALE; scratch],
                };
                comparison.check_all("small input", &bucket_calls(&lent))?;
            }
        }
    }
    Ok(())
}

/// Lengths of output and scratch: one less, as needed, one more.
fn small_rooms(input: &[u32], buckets: u32) -> Vec<(usize, usize)> {
    let output = output_need(input, buckets);
    let scratch = scratch_need(buckets);
    vec![
        (output.saturating_sub(1), scratch),
        (output, scratch.saturating_sub(1)),
        (output, scratch),
        (output + 1, scratch + 1),
    ]
}

/// An input of this length, from few or many elements below the limit.
fn some_input(random: &mut Random, length: usize, limit: u32) -> Vec<u32> {
    let spread = random.pick(&[limit, limit, limit.min(40), limit.min(1_000)]);
    let first = random.up_to(limit - spread);
    (0..length).map(|_| first + random.up_to(spread)).collect()
}

/// The need, or near it.
fn near(random: &mut Random, need: usize) -> usize {
    match random.below(12) {
        0 => need.saturating_sub(1),
        1 => 0,
        2..=6 => need + 1 + random.below(9),
        _ => need,
    }
}

/// A random input, some with bad elements, some without enough room.
pub fn some_buckets(random: &mut Random) -> Buckets {
    let count = random.up_to(300);
    let buckets = random.pick(&[0, 1, 31, 32, 33, 64, count, count, MOST - 1, MOST]);
    let small = random.below(200);
    let length = random.pick(&[0, 1, small, small, small, 1_000, INPUT - 1, INPUT]);
    let mut input = some_input(random, length, buckets.saturating_sub(1));
    if random.one_in(5) || buckets == 0 {
        put_bad_elements(random, &mut input, buckets);
    }
    let output = near(random, output_need(&input, buckets));
    let scratch = near(random, scratch_need(buckets));
    Buckets {
        input,
        buckets,
        output: random.numbers(output),
        scratch: random.numbers(scratch),
    }
}

fn put_bad_elements(random: &mut Random, input: &mut [u32], buckets: u32) {
    for _ in 0..random.pick(&[1, 2, 3]) {
        if !input.is_empty() {
            let place = random.below(input.len());
            input[place] = random.pick(&[buckets, buckets + 1, buckets + 32, u32::MAX]);
        }
    }
}

/// Takes input or bucket count beyond its limit.
fn beyond(random: &mut Random, lent: &mut Buckets) {
    match random.below(4) {
        0 => lent.input.resize(INPUT + 1, 0),
        1 => lent.buckets = MOST + 1,
        2 => lent.buckets = random.pick(&[u32::MAX, u32::MAX - 30, u32::MAX - 31]),
        _ => lent.buckets = random.damaged(lent.buckets),
    }
}

/// Random inputs. One in eight is taken beyond a limit.
pub fn random_inputs(comparison: &mut Comparison) -> Compared {
    for seed in seeds(amounts::RANDOM_BUCKETS) {
        let random = &mut Random::new(seed);
        let mut lent = some_buckets(random);
        if random.one_in(8) {
            beyond(random, &mut lent);
        }
        let origin = format!("random buckets, seed {seed}");
        comparison.check_all(&origin, &bucket_calls(&lent))?;
    }
    Ok(())
}
