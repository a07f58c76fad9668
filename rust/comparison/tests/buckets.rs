//! The library's bucket engines, guards, poison flag and stamp test against the model's.

use comparison::compare::{Compared, Comparison};
use comparison::coverage::{Coverage, BUCKETS, YES_AND_NO};
use comparison::engine::{LIBRARY, MODEL};
use comparison::{amounts, buckets, guards};

fn compare(suite: fn(&mut Comparison) -> Compared) -> Coverage {
    let mut comparison = Comparison::new(&MODEL, &LIBRARY);
    suite(&mut comparison).unwrap_or_else(|difference| panic!("{difference}"));
    println!("{}", comparison.coverage());
    comparison.coverage().clone()
}

#[test]
fn small_inputs() {
    compare(buckets::small_inputs);
}

#[test]
fn random_inputs() {
    let coverage = compare(buckets::random_inputs);
    coverage.expect("canonical_buckets_sort", BUCKETS, amounts::LEAST);
    coverage.expect("canonical_buckets_bitmap", BUCKETS, amounts::LEAST);
}

#[test]
fn small_guards() {
    let coverage = compare(guards::small_guards);
    coverage.expect("held", YES_AND_NO, amounts::LEAST);
}

#[test]
fn random_guards() {
    let coverage = compare(guards::random_guards);
    coverage.expect("held", YES_AND_NO, amounts::LEAST);
}

#[test]
fn poisoned_heads() {
    compare(guards::poisoned_heads);
}

#[test]
fn stamps() {
    let coverage = compare(guards::stamps);
    coverage.expect("stamp_precedes_snapshot", YES_AND_NO, amounts::LEAST);
}
