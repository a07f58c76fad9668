//! Long histories of publish calls with storage failures, and their replays.

use comparison::amounts;
use comparison::engine::{Engine, LIBRARY, MODEL};
use comparison::history::{run, Seen, Size};
use comparison::limits;
use comparison::random::seeds;

fn histories(engine: &dyn Engine, count: u64, size: impl Fn(u64) -> Size) -> Seen {
    let mut seen = Seen::default();
    for seed in seeds(count) {
        match run(engine, seed, size(seed)) {
            Ok(more) => seen.add(more),
            Err(difference) => panic!("{difference}"),
        }
    }
    println!("{seen:?}");
    seen
}

/// Capacities from nothing to more than is ever needed.
fn small(seed: u64) -> Size {
    Size {
        steps: amounts::HISTORY_STEPS,
        capacity: [0, 1, 2, 3, 5, 8, 12, 20, 40, 80][(seed % 10) as usize],
        changes: 5,
        counts: 12,
        rough: 100,
    }
}

fn large(_seed: u64) -> Size {
    Size {
        steps: amounts::LARGE_HISTORY_STEPS,
        capacity: limits::POSTINGS,
        changes: limits::CHANGES,
        counts: 20,
        rough: 200,
    }
}

fn small_histories(engine: &dyn Engine) {
    let seen = histories(engine, amounts::HISTORIES, small);
    assert!(seen.accepted > 5_000, "{seen:?}");
    assert!(seen.refused > 2_000, "{seen:?}");
    assert!(seen.storage_failures > 2_000, "{seen:?}");
    assert!(seen.poisoned_by_undo > 10, "{seen:?}");
    assert!(seen.poisoned_by_source > 10, "{seen:?}");
    assert!(seen.longest >= amounts::HISTORY_STEPS, "{seen:?}");
}

#[test]
fn small_histories_of_the_library() {
    small_histories(&LIBRARY);
}

#[test]
fn small_histories_of_the_model() {
    small_histories(&MODEL);
}

#[test]
fn large_histories_of_the_library() {
    let seen = histories(&LIBRARY, amounts::LARGE_HISTORIES, large);
    assert!(seen.accepted > 50, "{seen:?}");
    assert!(seen.storage_failures > 20, "{seen:?}");
}
