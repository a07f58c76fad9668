//! Makes a call with two engines and compares all that they leave behind.

use crate::call::{Call, Outcome};
use crate::coverage::Coverage;
use crate::engine::Engine;
use model::Told;
use std::fmt;

/// Two outcomes that ought to be equal and are not, or one that breaks a rule.
#[derive(Clone, Debug)]
pub struct Difference {
    /// Where the case came from.
    pub origin: String,
    /// What is wrong.
    pub fault: String,
}

/// A suite ends well, or at the first difference.
pub type Compared = Result<(), Box<Difference>>;

impl fmt::Display for Difference {
    fn fmt(&self, out: &mut fmt::Formatter) -> fmt::Result {
        write!(out, "{}: {}", self.origin, self.fault)
    }
}

/// A difference found in a case.
pub fn differs<Value>(origin: &str, fault: String) -> Result<Value, Box<Difference>> {
    Err(Box::new(Difference {
        origin: origin.to_string(),
        fault,
    }))
}

/// Two engines side by side, and what they told so far.
pub struct Comparison<'engine> {
    left: &'engine dyn Engine,
    right: &'engine dyn Engine,
    coverage: Coverage,
}

/// The answers after which all that was lent is as before.
fn leaves_all_as_before(answer: u32) -> bool {
    matches!(answer, 1..=11 | 14 | 20..=23 | 30..=32)
}

impl<'engine> Comparison<'engine> {
    /// Two engines, of which the left one is held to be right.
    pub fn new(left: &'engine dyn Engine, right: &'engine dyn Engine) -> Comparison<'engine> {
        Comparison {
            left,
            right,
            coverage: Coverage::default(),
        }
    }

    /// How often each call told what.
    pub fn coverage(&self) -> &Coverage {
        &self.coverage
    }

    /// Makes the call with both engines.
    pub fn check(&mut self, origin: &str, call: &Call) -> Result<Told, Box<Difference>> {
        let left = self.left.make(call);
        let right = self.right.make(call);
        self.coverage.add(call.name(), left.told);
        if left != right {
            return differs(origin, unequal(call, &left, &right));
        }
        if leaves_all_as_before(right.told.answer) && right.after != *call {
            return differs(origin, format!("a refusal changed something\n{call:?}"));
        }
        Ok(right.told)
    }

    /// Makes all these calls.
    pub fn check_all(&mut self, origin: &str, calls: &[Call]) -> Compared {
        for call in calls {
            self.check(origin, call)?;
        }
        Ok(())
    }
}

fn unequal(call: &Call, left: &Outcome, right: &Outcome) -> String {
    format!(
        "{} differs\nlent:  {call:?}\nleft:  {left:?}\nright: {right:?}",
        call.name()
    )
}
