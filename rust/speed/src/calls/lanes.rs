//! The lane calls.

use super::{counted, row, Group, Row, Sides};
use crate::inputs::{full_view, partly_attached, rotation, stale_window, Random};
use crate::measure::{Calls, Side};
use crate::ordinary::lanes as ordinary;
use asdrifen::{lent, Detached, View};

const CALLS: usize = 64;

/// What readers hold pinned: no call looks at it.
const CONTENTS: [u32; 3] = [5, 6, 7];

/// Enough for an empty strip.
const ROUNDS: u32 = 2;

fn numbers(detached: &Detached) -> Vec<u32> {
    assert_eq!(
        detached.answer, 0,
        "only calls that are accepted are measured"
    );
    let view = detached.view;
    let mut numbers = vec![
        view.height,
        view.guarded,
        view.retired,
        view.attached,
        view.window,
    ];
    numbers.extend([detached.answer, detached.value]);
    numbers
}

fn untouched(&view: &View) -> Detached {
    Detached {
        view,
        answer: u32::MAX,
        value: 0,
    }
}

fn side<'a>(
    name: &'static str,
    views: &'a [View],
    call: impl Fn(View) -> Detached + 'a,
) -> Box<dyn Side + 'a> {
    Calls::boxed(
        name,
        views,
        CALLS,
        untouched,
        |view, detached| *detached = untouched(view),
        move |&view, detached| *detached = call(view),
        numbers,
    )
}

fn lane_row(
    call: &'static str,
    views: &[View],
    rattle: impl Fn(View) -> Detached,
    called: impl Fn(View) -> Detached,
    in_line: impl Fn(View) -> Detached,
) -> Row {
    let sides = Sides {
        rattle: side("Rattle", views, rattle),
        ordinary: vec![
            side("called", views, called),
            side("in line", views, in_line),
        ],
        inputs: views.len(),
        calls: CALLS,
    };
    row(call, counted(views[0].height as usize, "lane"), sides)
}

fn views(height: u32, view: fn(u32, &mut Random) -> View) -> Vec<View> {
    let mut random = Random::new(u64::from(height));
    (0..rotation(1))
        .map(|_| view(height, &mut random))
        .collect()
}

#[inline(never)]
fn called_cached(view: View) -> Detached {
    ordinary::cached_detach(view, &[])
}

fn cached_row(height: u32) -> Row {
    lane_row(
        "cached_detach",
        &views(height, full_view),
        |view| lent::cached_detach(view, &CONTENTS, &[]),
        called_cached,
        |view| ordinary::cached_detach(view, &[]),
    )
}

#[inline(never)]
fn called_refreshed(view: View) -> Detached {
    ordinary::refreshed_detach(view, &[])
}

fn refreshed_row(height: u32) -> Row {
    lane_row(
        "refreshed_detach",
        &views(height, partly_attached),
        |view| lent::refreshed_detach(view, &CONTENTS, &[]),
        called_refreshed,
        |view| ordinary::refreshed_detach(view, &[]),
    )
}

#[inline(never)]
fn called_detach(view: View) -> Detached {
    ordinary::detach_before_retire(view, &[], ROUNDS)
}

fn detach_row(height: u32) -> Row {
    lane_row(
        "detach_before_retire",
        &views(height, stale_window),
        |view| lent::detach_before_retire(view, &CONTENTS, &[], ROUNDS),
        called_detach,
        |view| ordinary::detach_before_retire(view, &[], ROUNDS),
    )
}

pub fn group() -> Group {
    let heights = [1, 8, 32];
    let rows = heights
        .map(cached_row)
        .into_iter()
        .chain(heights.map(refreshed_row))
        .chain(heights.map(detach_row))
        .collect();
    Group {
        title: "Lanes",
        rows,
    }
}
