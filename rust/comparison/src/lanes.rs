//! The lane calls: all small views, all entry refusals, and random views.

use crate::amounts;
use crate::call::{Call, Lane};
use crate::compare::{Compared, Comparison};
use crate::random::{seeds, Random};
use crate::small_orders::lists_up_to;
use crate::twists::damage_strip;
use model::View;

/// A view that is guarded and not retired.
pub fn live_view(height: u32, attached: u32, window: u32) -> View {
    View {
        height,
        guarded: 1,
        retired: 0,
        attached,
        window,
    }
}

fn lane(view: View, strip: &[u8], rounds: u32) -> Lane {
    Lane {
        view,
        contents: vec![view.attached, view.window],
        strip: strip.to_vec(),
        rounds,
    }
}

/// All views of up to three lanes, all strips of up to four bytes, all rounds up to four.
pub fn small_views(comparison: &mut Comparison) -> Compared {
    let strips = lists_up_to(&[0, 1, 2], 4);
    for height in 1..=3 {
        for attached in 0..1 << height {
            for window in 0..1 << height {
                for strip in &strips {
                    let view = live_view(height, attached, window);
                    check_view(comparison, view, strip)?;
                }
            }
        }
    }
    Ok(())
}

fn check_view(comparison: &mut Comparison, view: View, strip: &[u8]) -> Compared {
    let origin = "small view";
    comparison.check(origin, &Call::Cached(lane(view, strip, 0)))?;
    comparison.check(origin, &Call::Refreshed(lane(view, strip, 0)))?;
    for rounds in 0..=4 {
        comparison.check(origin, &Call::Detach(lane(view, strip, rounds)))?;
    }
    Ok(())
}

/// The longest retries: a refresh that changes nothing and a compare that says no, over and over. A
/// strip of 1,024 bytes needs 514 rounds.
pub fn longest_retries(comparison: &mut Comparison) -> Compared {
    for length in [1_022, 1_023, 1_024] {
        let strip: Vec<u8> = [0, 1].into_iter().cycle().take(length).collect();
        for (height, attached) in [(1, 1), (32, 1), (32, 1 << 31)] {
            for rounds in [0, 1, 511, 512, 513, 514, 515, u32::MAX] {
                let view = live_view(height, attached, 0);
                let call = Call::Detach(lane(view, &strip, rounds));
                comparison.check("longest retry", &call)?;
            }
        }
    }
    Ok(())
}

/// Views of edge numbers, with good and bad strips: all of them.
pub fn edge_views(comparison: &mut Comparison) -> Compared {
    let mut bad_end = vec![0; 1_024];
    bad_end[1_023] = 3;
    let strips = [vec![], vec![3], vec![0; 1_024], vec![0; 1_025], bad_end];
    for view in edge_views_list() {
        for strip in &strips {
            for call in lane_calls(&lane(view, strip, 2)) {
                comparison.check("edge view", &call)?;
            }
        }
    }
    Ok(())
}

fn edge_views_list() -> Vec<View> {
    let mut views = Vec::new();
    for height in [0, 1, 2, 31, 32, 33, 64, u32::MAX] {
        for flags in 0..9 {
            for attached in [0, 1, 2, 3, 1 << 30, 1 << 31, u32::MAX] {
                for window in [0, 1, 3, 1 << 31, u32::MAX] {
                    views.push(View {
                        height,
                        guarded: flags / 3,
                        retired: flags % 3,
                        attached,
                        window,
                    });
                }
            }
        }
    }
    views
}

/// The three lane calls.
pub fn lane_calls(lane: &Lane) -> [Call; 3] {
    [
        Call::Cached(lane.clone()),
        Call::Refreshed(lane.clone()),
        Call::Detach(lane.clone()),
    ]
}

/// The lanes below the height.
fn below(height: u32) -> u32 {
    u32::MAX >> (32 - height)
}

/// A good view: any height, any lanes attached, and a window that shows all, some or none of them.
pub fn some_view(random: &mut Random) -> View {
    let height = random.pick(&[1, 2, 3, 4, 8, 31, 32]);
    let any = random.number();
    let thin = any & random.number();
    let attached = random.pick(&[u32::MAX, any, thin]) & below(height);
    let any = random.number();
    let window = match random.below(6) {
        0 => u32::MAX,
        1 => attached,
        2 => attached | any,
        3 => attached & any,
        4 => any,
        _ => below(height),
    };
    live_view(height, attached, window)
}

/// A strip of up to so many bytes below this one.
pub fn some_lane_strip(random: &mut Random, above: u8) -> Vec<u8> {
    let length = random.pick(&[0, 1, 3, 8, 40, 40, 1_024]);
    let length = random.below(length + 1);
    let calm = random.pick(&[1, 2, 10, 60]);
    let byte = |random: &mut Random| match random.one_in(calm) {
        true => random.below(usize::from(above)) as u8,
        false => 0,
    };
    (0..length).map(|_| byte(random)).collect()
}

fn some_lane(random: &mut Random) -> Lane {
    let errors = random.pick(&[2, 2, 3]);
    let strip = some_lane_strip(random, errors);
    let enough = strip.len() as u32 + 2;
    let few = random.up_to(12);
    let contents = random.below(4);
    Lane {
        view: some_view(random),
        contents: random.numbers(contents),
        strip,
        rounds: random.pick(&[0, 1, 2, few, few, enough, u32::MAX]),
    }
}

/// Changes one number of the view, of the contents or of the strip.
fn damage_lane(random: &mut Random, lane: &mut Lane) {
    let view = &mut lane.view;
    match random.below(8) {
        0 => view.height = random.pick(&[0, 33, u32::MAX, view.height - 1]),
        1 => view.guarded = random.pick(&[0, 2, u32::MAX]),
        2 => view.retired = random.pick(&[1, 2, u32::MAX]),
        3 => view.attached ^= 1 << random.below(32),
        4 => view.window ^= 1 << random.below(32),
        5 => lane.strip.resize(random.pick(&[1_024, 1_025]), 0),
        _ => damage_strip(random, &mut lane.strip),
    }
}

/// Random views. One in three is damaged.
pub fn random_views(comparison: &mut Comparison) -> Compared {
    for seed in seeds(amounts::RANDOM_VIEWS) {
        let random = &mut Random::new(seed);
        let mut lane = some_lane(random);
        if random.one_in(3) {
            damage_lane(random, &mut lane);
        }
        let origin = format!("random view, seed {seed}");
        comparison.check_all(&origin, &lane_calls(&lane))?;
    }
    Ok(())
}
