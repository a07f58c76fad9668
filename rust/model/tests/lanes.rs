//! The lane rules: the worked example, and single rules.

use model::{cached_detach, detach_before_retire, refreshed_detach, Detached, View};

const VIEW: View = View {
    height: 3,
    guarded: 1,
    retired: 0,
    attached: 7,
    window: 7,
};

/// Answer, value, retired, attached and window.
fn seen(detached: Detached) -> (u32, u32, u32, u32, u32) {
    let view = detached.view;
    let Detached { answer, value, .. } = detached;
    (answer, value, view.retired, view.attached, view.window)
}

#[test]
fn a_window_without_lane_0_needs_two_rounds() {
    let view = View { window: 6, ..VIEW };
    let detach = |rounds| seen(detach_before_retire(view, &[], &[], rounds));
    assert_eq!(detach(0), (25, 0, 0, 1, 6));
    assert_eq!(detach(1), (25, 1, 0, 0, 1));
    assert_eq!(detach(2), (0, 2, 1, 0, 0));
    assert_eq!(detach(u32::MAX), (0, 2, 1, 0, 0));
}

#[test]
fn a_whole_window_needs_no_round() {
    assert_eq!(
        seen(detach_before_retire(VIEW, &[], &[], 0)),
        (0, 0, 1, 0, 7)
    );
}

#[test]
fn window_bits_above_the_height_are_ignored_and_kept() {
    let view = View {
        window: 0xff,
        ..VIEW
    };
    assert_eq!(
        seen(detach_before_retire(view, &[], &[], 0)),
        (0, 0, 1, 0, 0xff)
    );
    let outside = View {
        attached: 0,
        window: 0xf8,
        ..VIEW
    };
    assert_eq!(
        seen(refreshed_detach(outside, &[], &[])),
        (0, 1, 0, 0, 0xf8)
    );
}

#[test]
fn comparing_a_lane_that_is_not_attached_says_no() {
    let view = View {
        attached: 0,
        ..VIEW
    };
    assert_eq!(seen(cached_detach(view, &[], &[])), (0, 0, 0, 0, 7));
    assert_eq!(
        seen(detach_before_retire(view, &[], &[], 1)),
        (0, 1, 1, 0, 0)
    );
}

#[test]
fn the_cached_pass_stops_at_its_first_no() {
    assert_eq!(seen(cached_detach(VIEW, &[], &[0, 1])), (0, 0, 0, 3, 7));
    assert_eq!(seen(cached_detach(VIEW, &[], &[0, 2])), (24, 0, 0, 3, 7));
    assert_eq!(
        seen(cached_detach(VIEW, &[], &[0, 0, 0, 2])),
        (0, 1, 0, 0, 7)
    );
}

#[test]
fn the_refreshed_pass_tries_every_lane_of_the_window() {
    assert_eq!(seen(refreshed_detach(VIEW, &[], &[0, 1])), (0, 0, 0, 2, 7));
    assert_eq!(seen(refreshed_detach(VIEW, &[], &[])), (0, 0, 0, 0, 7));
}

#[test]
fn a_refresh_may_help_or_fail() {
    let detach = |strip: &[u8]| seen(detach_before_retire(VIEW, &[], strip, 9));
    assert_eq!(detach(&[1, 1]), (0, 2, 1, 0, 0));
    assert_eq!(detach(&[1, 2]), (24, 1, 0, 7, 7));
    assert_eq!(detach(&[1, 1, 2]), (24, 1, 0, 6, 6));
    assert_eq!(detach(&[2]), (24, 0, 0, 7, 7));
}

#[test]
fn refusals_in_their_order() {
    let bad = View {
        height: 33,
        guarded: 0,
        window: 0,
        ..VIEW
    };
    let answer = |view: View, strip: &[u8]| {
        let refused = refreshed_detach(view, &[], strip);
        assert_eq!((refused.view, refused.value), (view, 0));
        refused.answer
    };
    assert_eq!(answer(bad, &[3]), 20);
    assert_eq!(answer(View { height: 0, ..bad }, &[3]), 20);
    assert_eq!(answer(View { height: 3, ..bad }, &[3]), 21);
    let guarded = View {
        height: 3,
        guarded: 1,
        ..bad
    };
    assert_eq!(answer(guarded, &[3]), 22);
    assert_eq!(answer(VIEW, &[3]), 23);
    assert_eq!(answer(VIEW, &[0; 1_025]), 23);
}

#[test]
fn bad_views() {
    let answer = |view: View| cached_detach(view, &[], &[]).answer;
    assert_eq!(answer(View { guarded: 2, ..VIEW }), 21);
    assert_eq!(answer(View { retired: 1, ..VIEW }), 21);
    assert_eq!(answer(View { retired: 2, ..VIEW }), 21);
    assert_eq!(
        answer(View {
            attached: 8,
            ..VIEW
        }),
        21
    );
    let whole = View {
        height: 32,
        attached: u32::MAX,
        window: u32::MAX,
        ..VIEW
    };
    assert_eq!(seen(cached_detach(whole, &[], &[])), (0, 1, 0, 0, u32::MAX));
}

/// With two rounds more than the strip has bytes, and no error byte, every detach ends retired.
#[test]
fn two_spare_rounds_are_enough() {
    for length in 0..6_u32 {
        for bits in 0..1_u32 << length {
            let strip: Vec<u8> = (0..length).map(|place| (bits >> place & 1) as u8).collect();
            for masks in 0..64 {
                let view = View {
                    attached: masks & 7,
                    window: masks >> 3,
                    ..VIEW
                };
                let detached = detach_before_retire(view, &[], &strip, length + 2);
                assert_eq!((detached.answer, detached.view.retired), (0, 1));
            }
        }
    }
}
