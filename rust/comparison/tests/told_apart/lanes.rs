//! Wrong ways to detach.

use crate::fault::{instead, Fault, Wrong};
use comparison::call::{Call, Lane};
use model::answers::{BUDGET, HEIGHT, LANE_STRIP, OFFSET, VIEW, WINDOW};
use model::Told;

/// The bits of the window below the height.
fn shown(lane: &Lane) -> u32 {
    let lanes = (0..32).filter(|&number| number < lane.view.height);
    lanes.map(|number| lane.view.window & 1 << number).sum()
}

/// A refusal at entry.
fn refuse(answer: u32, lent: &Lane, told: &mut Told, after: &mut Lane) {
    (told.answer, told.named) = (answer, 0);
    *after = lent.clone();
}

/// A detach never says that it ended.
pub fn always_out_of_rounds() -> Wrong {
    let fault = Fault::Detach(|_, told, after| {
        if told.answer == 0 {
            told.answer = BUDGET;
            after.view.retired = 0;
        }
    });
    ("a detach never ends", fault)
}

/// Checks that are wrong or stand in the wrong order.
pub fn wrong_entries() -> Vec<Wrong> {
    vec![
        (
            "the window is cut to the height at entry",
            Fault::Cached(|lent, _, after| after.view.window = shown(lent)),
        ),
        (
            "window bits above the height count in the pass",
            Fault::Refreshed(|lent, told, _| {
                if told.answer == 0 && lent.view.window != shown(lent) {
                    told.named = 0;
                }
            }),
        ),
        (
            "height 33 is taken",
            Fault::Cached(|lent, told, after| {
                if lent.view.height == 33 {
                    let mut lane = lent.clone();
                    lane.view.height = 32;
                    if let Call::Cached(done) = instead(Call::Cached(lane), told) {
                        after.view.attached = done.view.attached;
                    }
                }
            }),
        ),
        (
            "height 32 is refused",
            Fault::Detach(|lent, told, after| {
                if lent.view.height == 32 {
                    refuse(HEIGHT, lent, told, after);
                }
            }),
        ),
        (
            "the view is looked at before the height",
            Fault::Cached(|lent, told, _| {
                if told.answer == HEIGHT && lent.view.guarded != 1 {
                    told.answer = VIEW;
                }
            }),
        ),
        (
            "the strip is looked at before the window",
            Fault::Refreshed(|lent, told, _| {
                if told.answer == WINDOW && lent.strip.iter().any(|&byte| byte > 2) {
                    told.answer = LANE_STRIP;
                }
            }),
        ),
        (
            "a guarded flag of 2 is taken",
            Fault::Cached(|lent, told, after| {
                if lent.view.guarded == 2 {
                    let mut lane = lent.clone();
                    lane.view.guarded = 1;
                    if let Call::Cached(done) = instead(Call::Cached(lane), told) {
                        after.view.attached = done.view.attached;
                    }
                }
            }),
        ),
        (
            "a retired flag of 2 comes back as 1",
            Fault::Cached(|lent, _, after| after.view.retired = lent.view.retired.min(1)),
        ),
        (
            "a detach asks for attached within the window",
            Fault::Detach(|lent, told, after| {
                let outside = lent.view.attached & !lent.view.window != 0;
                if outside && !(HEIGHT..=LANE_STRIP).contains(&told.answer) {
                    refuse(WINDOW, lent, told, after);
                }
            }),
        ),
    ]
}

/// Passes that are wrong.
pub fn wrong_passes() -> Vec<Wrong> {
    vec![
        (
            "the cached pass goes up",
            Fault::Cached(|lent, told, after| {
                if matches!(told.answer, 0 | OFFSET) {
                    cached_upwards(lent, told, after);
                }
            }),
        ),
        (
            "comparing a lane that is not attached says yes",
            Fault::Cached(|lent, told, _| {
                if told.answer == 0 && lent.view.attached == 0 && lent.strip.is_empty() {
                    told.named = 1;
                }
            }),
        ),
        (
            "a refreshed pass that cleared all says yes",
            Fault::Refreshed(|_, told, after| {
                if told.answer == 0 && after.view.attached == 0 {
                    told.named = 1;
                }
            }),
        ),
        (
            "an error says yes",
            Fault::Cached(|_, told, _| {
                if told.answer == OFFSET {
                    told.named = 1;
                }
            }),
        ),
        (
            "an error takes back what the pass cleared",
            Fault::Refreshed(|lent, told, after| {
                if told.answer == OFFSET {
                    after.view = lent.view;
                }
            }),
        ),
    ]
}

fn cached_upwards(lent: &Lane, told: &mut Told, after: &mut Lane) {
    *after = lent.clone();
    for lane in 0..lent.view.height {
        let byte = lent.strip.get(lane as usize).copied().unwrap_or(0);
        let shown = lent.view.window >> lane & 1 == 1;
        let attached = lent.view.attached >> lane & 1 == 1;
        let (answer, go_on) = match (shown, byte) {
            (false, _) | (_, 1) => (0, false),
            (_, 0) => (0, attached),
            _ => (OFFSET, false),
        };
        (told.answer, told.named) = (answer, u32::from(go_on));
        if !go_on {
            return;
        }
        after.view.attached &= !(1 << lane);
    }
}

/// Rounds that are wrong.
pub fn wrong_rounds() -> Vec<Wrong> {
    vec![
        always_out_of_rounds(),
        (
            "a round that met an error is not counted",
            Fault::Detach(|_, told, _| {
                if told.answer == OFFSET {
                    told.named = told.named.saturating_sub(1);
                }
            }),
        ),
        (
            "retired in the round that cleared the last lane",
            Fault::Detach(|_, told, after| {
                if told.answer == BUDGET && after.view.attached == 0 {
                    told.answer = 0;
                    after.view.retired = 1;
                }
            }),
        ),
        (
            "one round more than was lent",
            Fault::Detach(|lent, told, after| {
                let mut lane = lent.clone();
                lane.rounds = lent.rounds.saturating_add(1);
                if let Call::Detach(done) = instead(Call::Detach(lane), told) {
                    after.view = done.view;
                }
            }),
        ),
        (
            "at most 513 rounds are counted",
            Fault::Detach(|_, told, _| told.named = told.named.min(513)),
        ),
        (
            "a yes in the last round is too late",
            Fault::Detach(|lent, told, after| {
                if told.answer == 0 && told.named == lent.rounds && lent.rounds > 0 {
                    told.answer = BUDGET;
                    after.view.retired = 0;
                }
            }),
        ),
        (
            "the cached pass counts as a round",
            Fault::Detach(|_, told, _| {
                if told.answer == 0 {
                    told.named += 1;
                }
            }),
        ),
        (
            "a retired node loses its guard",
            Fault::Detach(|_, told, after| {
                if told.answer == 0 {
                    after.view.guarded = 0;
                }
            }),
        ),
        (
            "a retired node loses its window",
            Fault::Detach(|_, told, after| {
                if told.answer == 0 {
                    after.view.window = 0;
                }
            }),
        ),
    ]
}
