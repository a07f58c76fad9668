//! The search for a guard, the poison flag and the stamp test.

use crate::amounts;
use crate::call::{Call, Holding};
use crate::compare::{Compared, Comparison};
use crate::random::{seeds, Random};
use crate::small_orders::{lists_of, lists_up_to};
use model::{Guard, Head};

/// Numbers at the ends and next to them.
const EDGES: [u32; 6] = [0, 1, 2, 64, u32::MAX - 1, u32::MAX];

fn guard(numbers: &[u32]) -> Guard {
    Guard {
        binding: numbers[0],
        key: numbers[1],
    }
}

/// All lists of up to three guards of small numbers, and all pairs asked.
pub fn small_guards(comparison: &mut Comparison) -> Compared {
    let pairs: Vec<Guard> = lists_of(&[0, 1], 2)
        .iter()
        .map(|numbers| guard(numbers))
        .collect();
    for guards in lists_up_to(&pairs, 3) {
        for asked in lists_of(&[0, 1, 2], 2) {
            let call = Call::Held(Holding {
                guards: guards.clone(),
                binding: asked[0],
                key: asked[1],
            });
            comparison.check("small guards", &call)?;
        }
    }
    Ok(())
}

/// Lists of any length, also beyond the limit of publish. Half of what is asked is in the list, and
/// some is there but for one number.
pub fn random_guards(comparison: &mut Comparison) -> Compared {
    for seed in seeds(amounts::RANDOM_GUARDS) {
        let random = &mut Random::new(seed);
        let length = random.pick(&[1, 2, 3, 100, 1_023, 1_024, 1_025, 2_000]);
        let mut numbers = random.numbers(2 * length);
        if random.one_in(2) {
            let place = random.below(numbers.len());
            numbers[place] = random.pick(&EDGES);
        }
        let guards: Vec<Guard> = numbers.chunks(2).map(guard).collect();
        let asked = some_asked(random, &guards);
        let call = Call::Held(Holding {
            binding: asked.binding,
            key: asked.key,
            guards,
        });
        comparison.check(&format!("random guards, seed {seed}"), &call)?;
    }
    Ok(())
}

fn some_asked(random: &mut Random, guards: &[Guard]) -> Guard {
    let any = random.pick(guards);
    let mut asked = random.pick(&[guards[0], guards[guards.len() - 1], any]);
    match random.below(4) {
        0 => asked.binding = random.damaged(asked.binding),
        1 => asked.key = random.damaged(asked.key),
        _ => {}
    }
    asked
}

/// Heads of edge numbers.
pub fn poisoned_heads(comparison: &mut Comparison) -> Compared {
    for numbers in lists_of(&EDGES, 3) {
        let head = Head {
            bindings: numbers[0],
            used: numbers[1],
            poisoned: numbers[2],
        };
        comparison.check("poisoned head", &Call::Poison(head))?;
    }
    Ok(())
}

/// Stamps at which a test of fewer bits, or with a sign, would go wrong.
const EDGE_STAMPS: [u64; 14] = [
    0,
    1,
    2,
    (1 << 31) - 1,
    1 << 31,
    (1 << 32) - 1,
    1 << 32,
    (1 << 32) + 1,
    (1 << 33) + 1,
    (1 << 63) - 1,
    1 << 63,
    (1 << 63) + 1,
    u64::MAX - 1,
    u64::MAX,
];

/// All pairs of edge stamps, then random ones, often close to each other.
pub fn stamps(comparison: &mut Comparison) -> Compared {
    for pair in lists_of(&EDGE_STAMPS, 2) {
        comparison.check("edge stamps", &Call::Stamp(pair[0], pair[1]))?;
    }
    for seed in seeds(amounts::RANDOM_STAMPS) {
        let random = &mut Random::new(seed);
        let stamp = random.wide();
        let near = stamp.wrapping_add(random.pick(&[0, 1, u64::MAX, 1 << 32]));
        let any = random.wide();
        let snapshot = random.pick(&[near, near, any]);
        let origin = format!("random stamps, seed {seed}");
        comparison.check(&origin, &Call::Stamp(stamp, snapshot))?;
    }
    Ok(())
}
