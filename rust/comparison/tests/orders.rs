//! The library's calls on changes against the model's.

use comparison::compare::{Compared, Comparison};
use comparison::coverage::{Coverage, Seen, COUNT, PREPARE, PUBLISH, REMOVAL, ROLLBACK};
use comparison::engine::{LIBRARY, MODEL};
use comparison::{amounts, limits, orders, small_orders};

fn compare(suite: fn(&mut Comparison) -> Compared) -> Coverage {
    let mut comparison = Comparison::new(&MODEL, &LIBRARY);
    suite(&mut comparison).unwrap_or_else(|difference| panic!("{difference}"));
    println!("{}", comparison.coverage());
    comparison.coverage().clone()
}

/// The calls on a table, and all that each can tell.
const ALL: [(&str, &[Seen]); 6] = [
    ("publish", PUBLISH),
    ("publish_by_value", PUBLISH),
    ("prepare_index_destinations", PREPARE),
    ("rollback_index_destinations", ROLLBACK),
    ("remove_index_sources", REMOVAL),
    ("count", COUNT),
];

#[test]
fn one_change() {
    compare(small_orders::one_change);
}

#[test]
fn one_change_of_bare_numbers() {
    compare(small_orders::one_change_of_bare_numbers);
}

#[test]
fn two_changes_published() {
    compare(small_orders::two_changes_published);
}

#[test]
fn two_changes_removed() {
    compare(small_orders::two_changes_removed);
}

#[test]
fn small_tables() {
    let coverage = compare(small_orders::small_tables);
    coverage.expect("count", COUNT, amounts::LEAST);
}

#[test]
fn random_orders() {
    let coverage = compare(orders::random_orders);
    for (call, expected) in ALL {
        coverage.expect(call, expected, 10 * amounts::LEAST);
    }
}

#[test]
fn damaged_orders() {
    let coverage = compare(orders::damaged_orders);
    for (call, expected) in ALL {
        coverage.expect_answers(call, expected, amounts::LEAST);
    }
}

#[test]
fn limit_orders() {
    let coverage = compare(limits::limit_orders);
    for (call, expected) in ALL {
        coverage.expect_answers(call, expected, 1);
    }
}

#[test]
fn largest_order() {
    compare(limits::largest_order);
}
