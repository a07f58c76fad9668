//! What the rules say of the calls among themselves, asked of the library and of the model.

use comparison::compare::Compared;
use comparison::engine::{Engine, LIBRARY, MODEL};
use comparison::relations;

fn holds(relation: fn(&dyn Engine) -> Compared) {
    for engine in [&LIBRARY, &MODEL] {
        relation(engine).unwrap_or_else(|difference| panic!("{difference}"));
    }
}

#[test]
fn publish_is_publish_by_value() {
    holds(relations::publish_is_publish_by_value);
}

#[test]
fn rollback_undoes_prepare() {
    holds(relations::rollback_undoes_prepare);
}

#[test]
fn publish_is_prepare_then_removal() {
    holds(relations::publish_is_prepare_then_removal);
}

#[test]
fn bucket_engines_agree() {
    holds(relations::bucket_engines_agree);
}

#[test]
fn two_spare_rounds_are_enough() {
    holds(relations::two_spare_rounds_are_enough);
}

#[test]
fn counts_add_up() {
    holds(relations::counts_add_up);
}

#[test]
fn held_is_membership() {
    holds(relations::held_is_membership);
}
