//! The suites can fail: each engine below is wrong in one way, and a suite tells it apart from the
//! model. The library has no part in this.

mod buckets;
mod fault;
mod lanes;
mod postings;

use comparison::compare::{Compared, Comparison};
use comparison::engine::{Engine, MODEL};
use comparison::history::{self, Size};
use comparison::random::seeds;
use comparison::{limits, orders, relations, small_orders};
use fault::Wrong;

/// A suite and its name.
type Suite = (&'static str, fn(&mut Comparison) -> Compared);

const ORDER_SUITES: [Suite; 9] = [
    ("largest_order", limits::largest_order),
    ("one_change", small_orders::one_change),
    (
        "one_change_of_bare_numbers",
        small_orders::one_change_of_bare_numbers,
    ),
    ("small_tables", small_orders::small_tables),
    ("random_orders", orders::random_orders),
    ("damaged_orders", orders::damaged_orders),
    ("two_changes_published", small_orders::two_changes_published),
    ("two_changes_removed", small_orders::two_changes_removed),
    ("limit_orders", limits::limit_orders),
];

const LANE_SUITES: [Suite; 4] = [
    ("small_views", comparison::lanes::small_views),
    ("edge_views", comparison::lanes::edge_views),
    ("longest_retries", comparison::lanes::longest_retries),
    ("random_views", comparison::lanes::random_views),
];

const BUCKET_SUITES: [Suite; 6] = [
    ("small_inputs", comparison::buckets::small_inputs),
    ("random_inputs", comparison::buckets::random_inputs),
    ("small_guards", comparison::guards::small_guards),
    ("random_guards", comparison::guards::random_guards),
    ("poisoned_heads", comparison::guards::poisoned_heads),
    ("stamps", comparison::guards::stamps),
];

/// The first suite that tells this engine from the model.
fn found_by(suites: &[Suite], wrong: &dyn Engine) -> Option<&'static str> {
    let fails = |(_, suite): &&Suite| suite(&mut Comparison::new(&MODEL, wrong)).is_err();
    suites.iter().find(fails).map(|(name, _)| *name)
}

fn all_are_told_apart(suites: &[Suite], wrong: Vec<Wrong>) {
    for (name, fault) in wrong {
        match found_by(suites, &fault) {
            Some(suite) => println!("{name}: seen by {suite}"),
            None => panic!("no suite sees: {name}"),
        }
    }
}

#[test]
fn wrong_publishes() {
    all_are_told_apart(&ORDER_SUITES, postings::wrong_publishes());
}

#[test]
fn wrong_checks() {
    all_are_told_apart(&ORDER_SUITES, postings::wrong_checks());
}

#[test]
fn wrong_limits() {
    all_are_told_apart(&ORDER_SUITES, postings::wrong_limits());
}

#[test]
fn wrong_prepares_rollbacks_and_removals() {
    all_are_told_apart(&ORDER_SUITES, postings::wrong_parts());
}

#[test]
fn wrong_counts() {
    all_are_told_apart(&ORDER_SUITES, postings::wrong_counts());
}

#[test]
fn wrong_lanes() {
    all_are_told_apart(&LANE_SUITES, lanes::wrong_entries());
    all_are_told_apart(&LANE_SUITES, lanes::wrong_passes());
    all_are_told_apart(&LANE_SUITES, lanes::wrong_rounds());
}

#[test]
fn wrong_buckets() {
    all_are_told_apart(&BUCKET_SUITES, buckets::wrong_sorts());
    all_are_told_apart(&BUCKET_SUITES, buckets::wrong_bitmaps());
}

#[test]
fn wrong_guards_and_stamps() {
    all_are_told_apart(&BUCKET_SUITES, buckets::wrong_guards_and_stamps());
}

const SIZE: Size = Size {
    steps: 200,
    capacity: 20,
    changes: 5,
    counts: 12,
    rough: 50,
};

#[test]
fn wrong_histories() {
    for (name, fault) in postings::wrong_histories() {
        let mut runs = seeds(200).map(|seed| history::run(&fault, seed, SIZE));
        let difference = runs.find_map(Result::err);
        let difference = difference.unwrap_or_else(|| panic!("no history sees: {name}"));
        let line = difference.fault.lines().next().unwrap_or_default();
        println!("{name}: {}: {line}", difference.origin);
    }
}

#[test]
fn wrong_relations() {
    type Relation = fn(&dyn Engine) -> Compared;
    let wrong: [(Relation, Wrong); 7] = [
        (
            relations::publish_is_publish_by_value,
            postings::head_not_written(),
        ),
        (
            relations::rollback_undoes_prepare,
            postings::record_from_one(),
        ),
        (
            relations::publish_is_prepare_then_removal,
            postings::strip_from_the_start_again(),
        ),
        (relations::bucket_engines_agree, buckets::output_cleared()),
        (
            relations::two_spare_rounds_are_enough,
            lanes::always_out_of_rounds(),
        ),
        (relations::counts_add_up, postings::always_counts_none()),
        (relations::held_is_membership, buckets::binding_alone()),
    ];
    for (relation, (name, fault)) in wrong {
        assert!(relation(&fault).is_err(), "the relation misses: {name}");
    }
}
