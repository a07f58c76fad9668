//! The numbers an operator sees, and the refusal that carries one.

use crate::raw::{Detached, Told};
use std::error::Error;
use std::fmt;

/// An answer of any call.
///
/// One enum for all three families, for three reasons. The numbers of the
/// families do not meet, so a number in a log means one thing. A function that
/// uses calls of several families has one error type. An operator has one table.
/// It is exhaustive on purpose: a number that is new should stop the build of
/// whoever matches on all of them.
///
/// ```
/// use asdrifen::Answer;
///
/// let answer = Answer::from(11);
/// assert_eq!(answer, Answer::Full);
/// assert_eq!(answer.to_string(), "11 FULL");
/// assert_eq!(answer.what_to_do(), "use a larger table");
/// ```
#[derive(Clone, Copy, Debug, PartialEq, Eq, Hash)]
pub enum Answer {
    /// 0 ACCEPTED: all went well.
    Accepted,
    /// 1 TABLE: the table or its head is not well formed.
    Table,
    /// 2 POISONED: the poison flag was set at entry.
    Poisoned,
    /// 3 LIST: the change list or the guard list is ill formed or too long.
    List,
    /// 4 STRIP: the strip of a posting call is too long, or has a byte above 2.
    Strip,
    /// 5 ROOM: the record list is shorter than the change list.
    Room,
    /// 6 GUARD: a binding is not below the count, or a key is not held.
    Guard,
    /// 7 TWICE: two destinations are equal.
    Twice,
    /// 8 PRESENT: a destination stands in the table already.
    Present,
    /// 9 OVERLAP: a source is also a destination of the list.
    Overlap,
    /// 10 STORE: storage refused an insertion, and all was undone.
    Store,
    /// 11 FULL: there was no room for an insertion, and all was undone.
    Full,
    /// 12 UNDO: an undo removal failed. The index is poisoned.
    Undo,
    /// 13 SOURCE: a source removal failed. The index is poisoned.
    Source,
    /// 14 RECORD: a number of a rollback's record means no destination, or is a repeat.
    Record,
    /// 20 HEIGHT: the height is 0 or above 32.
    Height,
    /// 21 VIEW: the node is not guarded, or retired, or its view makes no sense.
    View,
    /// 22 WINDOW: an attached lane is not in the window.
    Window,
    /// 23 STRIP: the strip of a lane call is too long, or has a byte above 2.
    LaneStrip,
    /// 24 OFFSET: storage met an error during a detach.
    Offset,
    /// 25 BUDGET: the rounds lent to a detach are used up.
    Budget,
    /// 30 LIMITS: more numbers or buckets than the bucket calls take.
    Limits,
    /// 31 ROOM: the output or the scratch of a bucket call is too short.
    BucketRoom,
    /// 32 RANGE: an element is not below the bucket count.
    Range,
    /// A number that is none of these. No library built from the same tree gives
    /// one; it is here so that a wrong build ends in a refusal and not in a count.
    Unknown(u32),
}

/// The table's line of an answer: number, name, meaning, what to do.
type Line = (u32, &'static str, &'static str, &'static str);

impl Answer {
    /// Every answer that a call can give, by rising number.
    pub const ALL: [Answer; 24] = [
        Answer::Accepted,
        Answer::Table,
        Answer::Poisoned,
        Answer::List,
        Answer::Strip,
        Answer::Room,
        Answer::Guard,
        Answer::Twice,
        Answer::Present,
        Answer::Overlap,
        Answer::Store,
        Answer::Full,
        Answer::Undo,
        Answer::Source,
        Answer::Record,
        Answer::Height,
        Answer::View,
        Answer::Window,
        Answer::LaneStrip,
        Answer::Offset,
        Answer::Budget,
        Answer::Limits,
        Answer::BucketRoom,
        Answer::Range,
    ];

    // The one place where the texts stand.
    #[rustfmt::skip]
    fn line(self) -> Line {
        match self {
            Answer::Accepted => (0, "ACCEPTED", "all went well", "nothing"),
            Answer::Table => (1, "TABLE", "the table or its head is not well formed", "do not count from it; find who wrote it"),
            Answer::Poisoned => (2, "POISONED", "the index was poisoned before the call", "withhold the index's counts"),
            Answer::List => (3, "LIST", "the change list or the guard list is ill formed or too long", "mend the order"),
            Answer::Strip => (4, "STRIP", "the strip is too long or has a byte above 2", "mend the strip"),
            Answer::Room => (5, "ROOM", "the record list is shorter than the change list", "lend a longer record list"),
            Answer::Guard => (6, "GUARD", "a binding is not below the count, or a key is not held", "take the guard, or mend the binding or key"),
            Answer::Twice => (7, "TWICE", "two destinations are equal", "take one of the two changes out"),
            Answer::Present => (8, "PRESENT", "a destination stands in the table already", "take the change out; it is published already"),
            Answer::Overlap => (9, "OVERLAP", "a source is also a destination of the list", "split the order"),
            Answer::Store => (10, "STORE", "storage refused an insertion; all was undone", "try again"),
            Answer::Full => (11, "FULL", "there was no room for an insertion; all was undone", "use a larger table"),
            Answer::Undo => (12, "UNDO", "an undo removal failed; the index is now poisoned", "withhold the index's counts"),
            Answer::Source => (13, "SOURCE", "a source removal failed; the index is now poisoned", "withhold the index's counts"),
            Answer::Record => (14, "RECORD", "a number of the record means no destination, or is a repeat", "lend the record that prepare named"),
            Answer::Height => (20, "HEIGHT", "the height is 0 or above 32", "do not use this view; find who wrote it"),
            Answer::View => (21, "VIEW", "the node is not guarded, or is retired, or its view makes no sense", "take the guard; leave a retired node alone; else find who wrote the view"),
            Answer::Window => (22, "WINDOW", "an attached lane is not in the window", "refresh the window first"),
            Answer::LaneStrip => (23, "STRIP", "the strip is too long or has a byte above 2", "mend the strip"),
            Answer::Offset => (24, "OFFSET", "storage met an error; the node is not retired", "keep the view, and detach again from it"),
            Answer::Budget => (25, "BUDGET", "the rounds lent are used up; the node is not retired", "keep the view, and lend more rounds"),
            Answer::Limits => (30, "LIMITS", "more than 4,096 numbers or more than 65,536 buckets", "lock nothing; more is asked than these calls take"),
            Answer::BucketRoom => (31, "ROOM", "the output or the scratch is too short", "lend longer lists"),
            Answer::Range => (32, "RANGE", "an element is not below the bucket count", "lock nothing; find who made that element"),
            Answer::Unknown(number) => (number, "UNKNOWN", "the library gave a number that this wrapper does not know", "withhold the counts; build library and wrapper from one tree"),
        }
    }

    /// The number that an operator sees.
    pub fn number(self) -> u32 {
        self.line().0
    }

    /// The name in the operator's table. `STRIP` and `ROOM` are each the name of two numbers.
    pub fn name(self) -> &'static str {
        self.line().1
    }

    /// What the answer says, in a few words.
    pub fn meaning(self) -> &'static str {
        self.line().2
    }

    /// What the operator should do.
    pub fn what_to_do(self) -> &'static str {
        self.line().3
    }

    /// Whether the counts of the index must be withheld from now on.
    ///
    /// ```
    /// use asdrifen::Answer;
    ///
    /// assert!(Answer::Undo.withholds_counts());
    /// assert!(!Answer::Full.withholds_counts());
    /// ```
    pub fn withholds_counts(self) -> bool {
        matches!(
            self,
            Answer::Table | Answer::Poisoned | Answer::Undo | Answer::Source | Answer::Unknown(_)
        )
    }
}

impl From<u32> for Answer {
    fn from(number: u32) -> Answer {
        Answer::ALL
            .into_iter()
            .find(|answer| answer.number() == number)
            .unwrap_or(Answer::Unknown(number))
    }
}

impl fmt::Display for Answer {
    fn fmt(&self, out: &mut fmt::Formatter) -> fmt::Result {
        write!(out, "{} {}", self.number(), self.name())
    }
}

/// What a refusal names. Changes and places are counted from 0.
#[derive(Clone, Copy, Debug, PartialEq, Eq, Hash)]
pub enum Named {
    /// Nothing in particular.
    Nothing,
    /// A change of the list.
    Change(u32),
    /// Two changes of the list, the lower first.
    Changes(u32, u32),
    /// A place of the record.
    Place(u32),
    /// The rounds that a detach made.
    Rounds(u32),
    /// An element of the input, by its value.
    Element(u32),
}

impl fmt::Display for Named {
    fn fmt(&self, out: &mut fmt::Formatter) -> fmt::Result {
        match self {
            Named::Nothing => write!(out, "nothing named"),
            Named::Change(change) => write!(out, "change {change} (counted from 0)"),
            Named::Changes(low, high) => write!(out, "changes {low} and {high} (counted from 0)"),
            Named::Place(place) => write!(out, "record place {place} (counted from 0)"),
            Named::Rounds(1) => write!(out, "after 1 round"),
            Named::Rounds(rounds) => write!(out, "after {rounds} rounds"),
            Named::Element(element) => write!(out, "element {element}"),
        }
    }
}

/// A call was refused. Prints as one line that an operator can act on.
///
/// ```
/// use asdrifen::{Answer, Change, Index, Named, Posting};
///
/// let mut index = Index::new(1, 4)?;
/// let added = Change::added(Posting { binding: 0, key: 5, row: 1 });
/// let refused = index.publish(&[added], &[]).unwrap_err();
///
/// assert_eq!(refused.answer, Answer::Guard);
/// assert_eq!(refused.named, Named::Change(0));
/// assert_eq!(
///     refused.to_string(),
///     "6 GUARD, change 0 (counted from 0): a binding is not below the count, \
///      or a key is not held. What to do: take the guard, or mend the binding or key."
/// );
/// # Ok::<(), asdrifen::Refused>(())
/// ```
#[derive(Clone, Copy, Debug, PartialEq, Eq, Hash)]
#[non_exhaustive]
pub struct Refused {
    /// The answer, never [`Answer::Accepted`].
    pub answer: Answer,
    /// What the answer names.
    pub named: Named,
}

impl Refused {
    // Which kind of thing is named follows from the number alone, but for a count's 6.
    pub(crate) fn new(answer: Answer, named: u32, other: u32) -> Refused {
        let named = match answer {
            Answer::Guard
            | Answer::Present
            | Answer::Overlap
            | Answer::Store
            | Answer::Full
            | Answer::Undo
            | Answer::Source => Named::Change(named),
            Answer::Twice => Named::Changes(named, other),
            Answer::Record => Named::Place(named),
            Answer::Offset | Answer::Budget => Named::Rounds(named),
            Answer::Range => Named::Element(named),
            _ => Named::Nothing,
        };
        Refused { answer, named }
    }
}

impl fmt::Display for Refused {
    fn fmt(&self, out: &mut fmt::Formatter) -> fmt::Result {
        write!(out, "{}", self.answer)?;
        if self.named != Named::Nothing {
            write!(out, ", {}", self.named)?;
        }
        let (meaning, what_to_do) = (self.answer.meaning(), self.answer.what_to_do());
        write!(out, ": {meaning}. What to do: {what_to_do}.")
    }
}

impl Error for Refused {}

impl Told {
    /// The named number of an accepted posting or bucket call, or the refusal. For a count see [`Told::counted`].
    ///
    /// ```
    /// use asdrifen::{lent, Answer, Named};
    ///
    /// let mut output = [0; 3];
    /// let told = lent::canonical_buckets_sort(&[2, 9, 7], 5, &mut output);
    /// let refused = told.result().unwrap_err();
    /// assert_eq!(refused.answer, Answer::Range);
    /// assert_eq!(refused.named, Named::Element(9));
    /// ```
    pub fn result(self) -> Result<u32, Refused> {
        match Answer::from(self.answer) {
            Answer::Accepted => Ok(self.named),
            answer => Err(Refused::new(answer, self.named, self.other)),
        }
    }

    /// The postings that a count names, or the refusal. A count has no changes, so its refusals name none.
    pub fn counted(self) -> Result<u32, Refused> {
        let named = Named::Nothing;
        self.result()
            .map_err(|refused| Refused { named, ..refused })
    }
}

impl Detached {
    /// The value of an accepted lane call, or the refusal.
    pub fn result(self) -> Result<u32, Refused> {
        match Answer::from(self.answer) {
            Answer::Accepted => Ok(self.value),
            answer => Err(Refused::new(answer, self.value, 0)),
        }
    }
}
