//! The lane calls in ordinary Rust.

use super::checks::proper_strip;
use super::storage::Storage;
use asdrifen::{Detached, View};

const MOST_LANES: u32 = 32;

/// Storage met an error.
struct Failed;

fn refused(view: View, answer: u32) -> Detached {
    Detached {
        view,
        answer,
        value: 0,
    }
}

fn check(view: View) -> Result<(), u32> {
    if view.height == 0 || view.height > MOST_LANES {
        return Err(20);
    }
    let above = u32::MAX.checked_shl(view.height).unwrap_or(0);
    if view.guarded != 1 || view.retired != 0 || view.attached & above != 0 {
        return Err(21);
    }
    Ok(())
}

/// One lane is tried: whether it was cleared.
fn compare(attached: &mut u32, lane: u32, storage: &mut Storage) -> Result<bool, Failed> {
    match storage.next() {
        0 => {
            let cleared = *attached >> lane & 1 == 1;
            *attached &= !(1 << lane);
            Ok(cleared)
        }
        1 => Ok(false),
        _ => Err(Failed),
    }
}

/// From the top lane down: yes where each lane is in the window and was cleared.
fn cached_pass(view: &mut View, storage: &mut Storage) -> Result<bool, Failed> {
    for lane in (0..view.height).rev() {
        if view.window >> lane & 1 == 0 || !compare(&mut view.attached, lane, storage)? {
            return Ok(false);
        }
    }
    Ok(true)
}

/// From the top lane down over the window: yes where no lane was tried.
fn refreshed_pass(view: &mut View, storage: &mut Storage) -> Result<bool, Failed> {
    let mut untried = true;
    for lane in (0..view.height).rev() {
        if view.window >> lane & 1 == 1 {
            untried = false;
            compare(&mut view.attached, lane, storage)?;
        }
    }
    Ok(untried)
}

/// The window becomes the attached lanes.
fn refresh(view: &mut View, storage: &mut Storage) -> Result<(), Failed> {
    match storage.next() {
        0 => {}
        1 => view.attached &= view.attached.wrapping_sub(1),
        _ => return Err(Failed),
    }
    view.window = view.attached;
    Ok(())
}

fn passed(view: View, said: Result<bool, Failed>) -> Detached {
    let (answer, value) = match said {
        Ok(yes) => (0, yes as u32),
        Err(Failed) => (24, 0),
    };
    Detached {
        view,
        answer,
        value,
    }
}

#[inline(always)]
pub fn cached_detach(mut view: View, strip: &[u8]) -> Detached {
    if let Err(answer) = check(view) {
        return refused(view, answer);
    }
    if !proper_strip(strip) {
        return refused(view, 23);
    }
    let said = cached_pass(&mut view, &mut Storage::new(strip));
    passed(view, said)
}

#[inline(always)]
pub fn refreshed_detach(mut view: View, strip: &[u8]) -> Detached {
    if let Err(answer) = check(view) {
        return refused(view, answer);
    }
    if view.attached & !view.window != 0 {
        return refused(view, 22);
    }
    if !proper_strip(strip) {
        return refused(view, 23);
    }
    let said = refreshed_pass(&mut view, &mut Storage::new(strip));
    passed(view, said)
}

#[inline(always)]
pub fn detach_before_retire(mut view: View, strip: &[u8], rounds: u32) -> Detached {
    if let Err(answer) = check(view) {
        return refused(view, answer);
    }
    if !proper_strip(strip) {
        return refused(view, 23);
    }
    let (answer, value) = detach(&mut view, strip, rounds);
    if answer == 0 {
        view.retired = 1;
    }
    Detached {
        view,
        answer,
        value,
    }
}

fn detach(view: &mut View, strip: &[u8], rounds: u32) -> (u32, u32) {
    let mut storage = Storage::new(strip);
    match cached_pass(view, &mut storage) {
        Ok(true) => return (0, 0),
        Ok(false) => {}
        Err(Failed) => return (24, 0),
    }
    for made in 1..=rounds {
        let said = refresh(view, &mut storage).and_then(|()| refreshed_pass(view, &mut storage));
        match said {
            Ok(true) => return (0, made),
            Ok(false) => {}
            Err(Failed) => return (24, made),
        }
    }
    (25, rounds)
}
