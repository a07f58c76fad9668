//! The library's lane calls against the model's.

use comparison::compare::{Compared, Comparison};
use comparison::coverage::{Coverage, CACHED, DETACH, REFRESHED};
use comparison::engine::{LIBRARY, MODEL};
use comparison::{amounts, lanes};

fn compare(suite: fn(&mut Comparison) -> Compared) -> Coverage {
    let mut comparison = Comparison::new(&MODEL, &LIBRARY);
    suite(&mut comparison).unwrap_or_else(|difference| panic!("{difference}"));
    println!("{}", comparison.coverage());
    comparison.coverage().clone()
}

#[test]
fn small_views() {
    compare(lanes::small_views);
}

#[test]
fn edge_views() {
    compare(lanes::edge_views);
}

#[test]
fn longest_retries() {
    compare(lanes::longest_retries);
}

#[test]
fn random_views() {
    let coverage = compare(lanes::random_views);
    coverage.expect("cached_detach", CACHED, amounts::LEAST);
    coverage.expect("refreshed_detach", REFRESHED, amounts::LEAST);
    coverage.expect("detach_before_retire", DETACH, amounts::LEAST);
}
