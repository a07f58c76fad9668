//! Lane detach: a node leaves the lanes of a list, one lane at a time, and is then retired.
//!
//! A view says in which lanes the node is still attached and which lanes the window shows. The
//! model keeps both as sets of lane numbers.

use crate::answers;
use crate::postings::{LARGEST_BYTE, STRIP_LIMIT};
use std::collections::BTreeSet;

/// How many lanes a mask has.
const LANES: u32 = 32;

/// A view of one node.
#[derive(Clone, Copy, Debug, PartialEq, Eq)]
pub struct View {
    /// How many lanes the node has, 1 to 32.
    pub height: u32,
    /// 1 if the guard is held, otherwise 0.
    pub guarded: u32,
    /// 1 if the node is retired, otherwise 0.
    pub retired: u32,
    /// The lanes in which the node is attached, bit by bit.
    pub attached: u32,
    /// The lanes that the window shows, bit by bit.
    pub window: u32,
}

/// The view after a call, its answer, and its value: yes 1 or no 0 of a pass, or the rounds made.
#[derive(Clone, Copy, Debug, PartialEq, Eq)]
pub struct Detached {
    /// The view after the call.
    pub view: View,
    /// 0 for accepted, otherwise one of the numbers in [`answers`].
    pub answer: u32,
    /// Yes 1 or no 0 of a pass, or the rounds that a detach made.
    pub value: u32,
}

/// Storage met an error byte.
struct Error;

/// The lanes of one node, and the storage beneath them that does what the strip says.
struct Lanes<'strip> {
    height: u32,
    attached: BTreeSet<u32>,
    window: BTreeSet<u32>,
    strip: std::slice::Iter<'strip, u8>,
}

impl Lanes<'_> {
    /// Each compare and each refresh reads one byte. Behind the end of the strip there are zeros.
    fn next_byte(&mut self) -> u8 {
        self.strip.next().copied().unwrap_or(0)
    }

    /// Byte 0 clears the lane and says yes if it was attached, else no. Byte 1 says no. Byte 2 is
    /// an error.
    fn compare(&mut self, lane: u32) -> Result<bool, Error> {
        match self.next_byte() {
            0 => Ok(self.attached.remove(&lane)),
            1 => Ok(false),
            _ => Err(Error),
        }
    }

    /// Byte 0 sets the window to what is attached. Byte 1 first clears the lowest attached lane, if
    /// there is one. Byte 2 is an error and changes nothing.
    fn refresh(&mut self) -> Result<(), Error> {
        match self.next_byte() {
            0 => {}
            1 => {
                self.attached.pop_first();
            }
            _ => return Err(Error),
        }
        self.window = self.attached.clone();
        Ok(())
    }

    /// From the top lane down. No at the first lane outside the window, and at the first lane that
    /// is not cleared. Yes if every lane was cleared.
    fn cached_pass(&mut self) -> Result<bool, Error> {
        for lane in (0..self.height).rev() {
            if !self.window.contains(&lane) || !self.compare(lane)? {
                return Ok(false);
            }
        }
        Ok(true)
    }

    /// From the top lane down. Lanes outside the window are skipped. Any lane that is tried makes
    /// the answer no, cleared or not.
    fn refreshed_pass(&mut self) -> Result<bool, Error> {
        let mut answer = true;
        for lane in (0..self.height).rev() {
            if self.window.contains(&lane) {
                answer = false;
                self.compare(lane)?;
            }
        }
        Ok(answer)
    }

    /// One round: a refresh, then a refreshed pass.
    fn round(&mut self) -> Result<bool, Error> {
        self.refresh()?;
        self.refreshed_pass()
    }

    /// The cached pass, then rounds until a yes. Gives the answer, and the rounds made: one for
    /// each refresh begun, a failed one included. No refresh begins once the lent rounds are used
    /// up.
    fn detach(&mut self, rounds: u32) -> (u32, u32) {
        let mut made = 0;
        let mut pass = self.cached_pass();
        loop {
            match pass {
                Err(Error) => return (answers::OFFSET, made),
                Ok(true) => return (answers::ACCEPTED, made),
                Ok(false) if made == rounds => return (answers::BUDGET, made),
                Ok(false) => {
                    made += 1;
                    pass = self.round();
                }
            }
        }
    }
}

/// The lanes whose bits are set.
fn lanes_of(mask: u32) -> BTreeSet<u32> {
    (0..LANES).filter(|lane| mask >> lane & 1 == 1).collect()
}

/// The mask with the bits of these lanes set.
fn mask_of(lanes: &BTreeSet<u32>) -> u32 {
    lanes.iter().map(|lane| 1 << lane).sum()
}

/// HEIGHT: 1 to 32.
fn good_height(view: View) -> Result<(), u32> {
    if (1..=LANES).contains(&view.height) {
        Ok(())
    } else {
        Err(answers::HEIGHT)
    }
}

/// VIEW: guarded, not retired, and no lane attached at or above the height. A flag that is neither
/// 0 nor 1 is bad.
fn good_view(view: View) -> Result<(), u32> {
    let within = lanes_of(view.attached)
        .iter()
        .all(|&lane| lane < view.height);
    if view.guarded == 1 && view.retired == 0 && within {
        Ok(())
    } else {
        Err(answers::VIEW)
    }
}

/// WINDOW: every attached lane is in the window.
fn good_window(view: View) -> Result<(), u32> {
    if lanes_of(view.attached).is_subset(&lanes_of(view.window)) {
        Ok(())
    } else {
        Err(answers::WINDOW)
    }
}

/// STRIP: not too long, and every byte is 0, 1 or 2.
fn good_strip(strip: &[u8]) -> Result<(), u32> {
    if strip.len() <= STRIP_LIMIT && strip.iter().all(|&byte| byte <= LARGEST_BYTE) {
        Ok(())
    } else {
        Err(answers::LANE_STRIP)
    }
}

/// A refusal at entry: the view as it was lent, and 0.
fn refused(view: View, answer: u32) -> Detached {
    Detached {
        view,
        answer,
        value: 0,
    }
}

fn lanes_in<'strip>(view: View, strip: &'strip [u8]) -> Lanes<'strip> {
    Lanes {
        height: view.height,
        attached: lanes_of(view.attached),
        window: lanes_of(view.window),
        strip: strip.iter(),
    }
}

/// The view after the steps. Bits of the window at or above the height were never looked at: they
/// stay until a refresh sets the whole window.
fn view_after(view: View, lanes: &Lanes, retired: u32) -> View {
    View {
        height: view.height,
        guarded: view.guarded,
        retired,
        attached: mask_of(&lanes.attached),
        window: mask_of(&lanes.window),
    }
}

/// A pass that answered yes or no is accepted. One that met an error has no such answer.
fn pass_told(view: View, lanes: &Lanes, pass: Result<bool, Error>) -> Detached {
    let (answer, value) = match pass {
        Ok(yes) => (answers::ACCEPTED, u32::from(yes)),
        Err(Error) => (answers::OFFSET, 0),
    };
    Detached {
        view: view_after(view, lanes, 0),
        answer,
        value,
    }
}

/// The cached pass alone. It judges HEIGHT, VIEW, STRIP. No rule reads the contents.
pub fn cached_detach(view: View, _contents: &[u32], strip: &[u8]) -> Detached {
    let checked = good_height(view)
        .and_then(|()| good_view(view))
        .and_then(|()| good_strip(strip));
    if let Err(answer) = checked {
        return refused(view, answer);
    }
    let mut lanes = lanes_in(view, strip);
    let pass = lanes.cached_pass();
    pass_told(view, &lanes, pass)
}

/// The refreshed pass alone. It judges HEIGHT, VIEW, WINDOW, STRIP.
pub fn refreshed_detach(view: View, _contents: &[u32], strip: &[u8]) -> Detached {
    let checked = good_height(view)
        .and_then(|()| good_view(view))
        .and_then(|()| good_window(view))
        .and_then(|()| good_strip(strip));
    if let Err(answer) = checked {
        return refused(view, answer);
    }
    let mut lanes = lanes_in(view, strip);
    let pass = lanes.refreshed_pass();
    pass_told(view, &lanes, pass)
}

/// The cached pass, then rounds until a yes, then the node is retired. It judges HEIGHT, VIEW,
/// STRIP.
pub fn detach_before_retire(view: View, _contents: &[u32], strip: &[u8], rounds: u32) -> Detached {
    let checked = good_height(view)
        .and_then(|()| good_view(view))
        .and_then(|()| good_strip(strip));
    if let Err(answer) = checked {
        return refused(view, answer);
    }
    let mut lanes = lanes_in(view, strip);
    let (answer, made) = lanes.detach(rounds);
    let retired = u32::from(answer == answers::ACCEPTED);
    Detached {
        view: view_after(view, &lanes, retired),
        answer,
        value: made,
    }
}
