//! The membership walk over guards, and the poison flag.

use super::{counted, row, Group, Row, Sides};
use crate::inputs::{rotation, Random};
use crate::measure::{Calls, Side};
use crate::ordinary::postings as ordinary;
use asdrifen::{lent, Guard, Head};

/// A list of guards, and one of them to ask for.
struct Holding {
    guards: Vec<Guard>,
    asked: Guard,
}

fn holding(count: u32, seed: u64) -> Holding {
    let mut random = Random::new(seed);
    let guards: Vec<_> = (0..count)
        .map(|_| Guard {
            binding: random.below(64),
            key: random.below(1 << 16),
        })
        .collect();
    let asked = guards[random.below(count) as usize];
    Holding { guards, asked }
}

#[inline(never)]
fn called_held(guards: &[Guard], binding: u32, key: u32) -> bool {
    ordinary::held(guards, binding, key)
}

fn held_side<'a>(
    name: &'static str,
    inputs: &'a [Holding],
    calls: usize,
    call: impl Fn(&[Guard], u32, u32) -> bool + 'a,
) -> Box<dyn Side + 'a> {
    Calls::boxed(
        name,
        inputs,
        calls,
        |_| false,
        |_, held| *held = false,
        move |input, held| *held = call(&input.guards, input.asked.binding, input.asked.key),
        |&held| vec![u32::from(held)],
    )
}

fn held_row(count: u32, calls: usize) -> Row {
    let inputs: Vec<_> = (0..rotation(count as usize * 2))
        .map(|seed| holding(count, seed))
        .collect();
    let sides = Sides {
        rattle: held_side("Rattle", &inputs, calls, lent::held),
        ordinary: vec![
            held_side("called", &inputs, calls, called_held),
            held_side("in line", &inputs, calls, ordinary::held),
        ],
        inputs: inputs.len(),
        calls,
    };
    row("held", counted(count as usize, "guard"), sides)
}

#[inline(never)]
fn called_poison(head: &mut Head) {
    ordinary::poison(head);
}

fn poison_side<'a>(
    name: &'static str,
    inputs: &'a [Head],
    calls: usize,
    call: impl Fn(&mut Head) + 'a,
) -> Box<dyn Side + 'a> {
    Calls::boxed(
        name,
        inputs,
        calls,
        |&head| head,
        |&fresh, head| *head = fresh,
        move |_, head| call(head),
        |head| vec![head.bindings, head.used, head.poisoned],
    )
}

fn poison_row() -> Row {
    let inputs = [Head {
        bindings: 64,
        used: 0,
        poisoned: 0,
    }];
    let calls = 256;
    let sides = Sides {
        rattle: poison_side("Rattle", &inputs, calls, lent::poison_indexes),
        ordinary: vec![
            poison_side("called", &inputs, calls, called_poison),
            poison_side("in line", &inputs, calls, ordinary::poison),
        ],
        inputs: inputs.len(),
        calls,
    };
    row("poison_indexes", "one head".into(), sides)
}

pub fn group() -> Group {
    Group {
        title: "Guards and poison",
        rows: vec![
            held_row(4, 256),
            held_row(64, 256),
            held_row(1024, 64),
            poison_row(),
        ],
    }
}
