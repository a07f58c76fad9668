//! The posting calls, each as the proved code does it and as ordinary Rust does it over any table.

use super::states::State;
use crate::inputs::Posted;
use crate::ordinary::checks::Lookups;
use crate::ordinary::postings::{self as ordinary, flat_order, Order};
use crate::ordinary::tables::Table;
use asdrifen::{lent, Guard, Head, Told};

/// One of the calls on a table.
pub trait Job {
    const NAME: &'static str;
    /// It begins with the table and the record that prepare has left.
    const AFTER_PREPARE: bool;
    fn rattle(input: &Posted, state: &mut State<Vec<u32>>);
    fn ordinary<L: Lookups>(
        input: &Posted,
        head: &mut Head,
        table: &mut impl Table,
        record: &mut [u32],
    ) -> Told;
}

fn flat(input: &Posted) -> Order<'_, [u32; 2]> {
    flat_order(&input.changes, &input.flat_guards, &[])
}

pub struct Publish;

impl Job for Publish {
    const NAME: &'static str = "publish";
    const AFTER_PREPARE: bool = false;

    fn rattle(input: &Posted, state: &mut State<Vec<u32>>) {
        state.told = lent::publish(
            &mut state.head,
            &mut state.table,
            &input.changes,
            &input.guards,
            &[],
            &mut state.record,
        );
    }

    fn ordinary<L: Lookups>(
        input: &Posted,
        head: &mut Head,
        table: &mut impl Table,
        record: &mut [u32],
    ) -> Told {
        let order = Order {
            changes: &input.changes,
            guards: &input.guards,
            whole_guards: true,
            strip: &[],
        };
        ordinary::publish::<L, Guard>(head, table, &order, record)
    }
}

pub struct PublishByValue;

impl Job for PublishByValue {
    const NAME: &'static str = "publish_by_value";
    const AFTER_PREPARE: bool = false;

    fn rattle(input: &Posted, state: &mut State<Vec<u32>>) {
        let done = lent::publish_by_value(
            state.head,
            &mut state.table,
            &input.changes,
            &input.flat_guards,
            &[],
            &mut state.record,
        );
        state.keep(done);
    }

    fn ordinary<L: Lookups>(
        input: &Posted,
        head: &mut Head,
        table: &mut impl Table,
        record: &mut [u32],
    ) -> Told {
        ordinary::publish::<L, _>(head, table, &flat(input), record)
    }
}

pub struct Prepare;

impl Job for Prepare {
    const NAME: &'static str = "prepare_index_destinations";
    const AFTER_PREPARE: bool = false;

    fn rattle(input: &Posted, state: &mut State<Vec<u32>>) {
        let done = lent::prepare_index_destinations(
            state.head,
            &mut state.table,
            &input.changes,
            &input.flat_guards,
            &[],
            &mut state.record,
        );
        state.keep(done);
    }

    fn ordinary<L: Lookups>(
        input: &Posted,
        head: &mut Head,
        table: &mut impl Table,
        record: &mut [u32],
    ) -> Told {
        ordinary::prepare::<L, _>(head, table, &flat(input), record)
    }
}

pub struct Rollback;

impl Job for Rollback {
    const NAME: &'static str = "rollback_index_destinations";
    const AFTER_PREPARE: bool = true;

    fn rattle(input: &Posted, state: &mut State<Vec<u32>>) {
        let done = lent::rollback_index_destinations(
            state.head,
            &mut state.table,
            &input.changes,
            &input.flat_guards,
            &[],
            &state.record,
        );
        state.keep(done);
    }

    fn ordinary<L: Lookups>(
        input: &Posted,
        head: &mut Head,
        table: &mut impl Table,
        record: &mut [u32],
    ) -> Told {
        ordinary::rollback::<L, _>(head, table, &flat(input), record)
    }
}

pub struct RemoveSources;

impl Job for RemoveSources {
    const NAME: &'static str = "remove_index_sources";
    const AFTER_PREPARE: bool = true;

    fn rattle(input: &Posted, state: &mut State<Vec<u32>>) {
        let done = lent::remove_index_sources(
            state.head,
            &mut state.table,
            &input.changes,
            &input.flat_guards,
            &[],
        );
        state.keep(done);
    }

    fn ordinary<L: Lookups>(
        input: &Posted,
        head: &mut Head,
        table: &mut impl Table,
        _: &mut [u32],
    ) -> Told {
        ordinary::remove_sources::<L, _>(head, table, &flat(input))
    }
}

/// The job of count changes nothing; its state is set as for publish.
pub struct Count;

impl Job for Count {
    const NAME: &'static str = "count";
    const AFTER_PREPARE: bool = false;

    fn rattle(input: &Posted, state: &mut State<Vec<u32>>) {
        let asked = input.asked;
        state.told = lent::count(state.head, &state.table, asked.binding, asked.key);
    }

    fn ordinary<L: Lookups>(
        input: &Posted,
        head: &mut Head,
        table: &mut impl Table,
        _: &mut [u32],
    ) -> Told {
        let asked = input.asked;
        ordinary::count(*head, table, asked.binding, asked.key)
    }
}
