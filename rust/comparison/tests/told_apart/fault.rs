//! Engines that do what the model does, but for one fault in one call.

use comparison::call::{Buckets, Call, Counting, Holding, Lane, Order, Outcome};
use comparison::engine::{Engine, MODEL};
use model::{Head, Told};

/// A fault: it is shown what was lent, and makes the right outcome wrong.
pub enum Fault {
    Publish(fn(&Order, &mut Told, &mut Order)),
    PublishByValue(fn(&Order, &mut Told, &mut Order)),
    Prepare(fn(&Order, &mut Told, &mut Order)),
    Rollback(fn(&Order, &mut Told, &mut Order)),
    Removal(fn(&Order, &mut Told, &mut Order)),
    Count(fn(&Counting, &mut Told)),
    Held(fn(&Holding) -> bool),
    Poison(fn(&Head, &mut Head)),
    Cached(fn(&Lane, &mut Told, &mut Lane)),
    Refreshed(fn(&Lane, &mut Told, &mut Lane)),
    Detach(fn(&Lane, &mut Told, &mut Lane)),
    Sort(fn(&Buckets, &mut Told, &mut Buckets)),
    Bitmap(fn(&Buckets, &mut Told, &mut Buckets)),
    Stamp(fn(u64, u64) -> bool),
}

/// What is wrong, in words, and the fault.
pub type Wrong = (&'static str, Fault);

impl Engine for Fault {
    fn make(&self, call: &Call) -> Outcome {
        let Outcome {
            mut told,
            mut after,
        } = MODEL.make(call);
        self.put_in(call, &mut told, &mut after);
        Outcome { told, after }
    }
}

impl Fault {
    fn put_in(&self, call: &Call, told: &mut Told, after: &mut Call) {
        match (self, call, after) {
            (Fault::Publish(fault), Call::Publish(lent), Call::Publish(after))
            | (
                Fault::PublishByValue(fault),
                Call::PublishByValue(lent),
                Call::PublishByValue(after),
            )
            | (Fault::Prepare(fault), Call::Prepare(lent), Call::Prepare(after))
            | (Fault::Rollback(fault), Call::Rollback(lent), Call::Rollback(after))
            | (Fault::Removal(fault), Call::Removal(lent), Call::Removal(after)) => {
                fault(lent, told, after);
            }
            (Fault::Cached(fault), Call::Cached(lent), Call::Cached(after))
            | (Fault::Refreshed(fault), Call::Refreshed(lent), Call::Refreshed(after))
            | (Fault::Detach(fault), Call::Detach(lent), Call::Detach(after)) => {
                fault(lent, told, after);
            }
            (Fault::Sort(fault), Call::Sort(lent), Call::Sort(after))
            | (Fault::Bitmap(fault), Call::Bitmap(lent), Call::Bitmap(after)) => {
                fault(lent, told, after);
            }
            (Fault::Count(fault), Call::Count(lent), _) => fault(lent, told),
            (Fault::Held(fault), Call::Held(lent), _) => told.answer = u32::from(fault(lent)),
            (Fault::Poison(fault), Call::Poison(lent), Call::Poison(after)) => fault(lent, after),
            (Fault::Stamp(fault), Call::Stamp(stamp, snapshot), _) => {
                told.answer = u32::from(fault(*stamp, *snapshot));
            }
            _ => {}
        }
    }
}

/// The outcome of the model with something else lent.
pub fn instead(call: Call, told: &mut Told) -> Call {
    let outcome = MODEL.make(&call);
    *told = outcome.told;
    outcome.after
}
