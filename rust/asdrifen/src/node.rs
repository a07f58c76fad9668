//! The node that owns its view.

use crate::answers::Refused;
use crate::lent;
use crate::raw::{Detached, View};

/// A node of the index that is to be detached from its lanes.
///
/// It keeps the view that each call leaves, also beside a refusal: after 24
/// OFFSET and 25 BUDGET a detach goes on from there.
///
/// The calls take the contents that readers hold pinned, which no call writes,
/// and a strip, a byte to each step: 0 well, 1 another got in between, 2 an error.
/// The empty strip is storage that does not fail.
///
/// ```
/// use asdrifen::{Answer, Named, Node};
///
/// // Three lanes lead to the node; the last search found the two upper ones.
/// let mut node = Node::guarded(3, 0b111, 0b110);
///
/// let refused = node.detach_before_retire(&[], &[], 1).unwrap_err();
/// assert_eq!((refused.answer, refused.named), (Answer::Budget, Named::Rounds(1)));
/// assert_eq!(node.view().attached, 0);
/// assert!(!node.is_retired());
///
/// assert_eq!(node.detach_before_retire(&[], &[], 2)?, 1);
/// assert!(node.is_retired());
/// # Ok::<(), asdrifen::Refused>(())
/// ```
#[derive(Clone, Debug, PartialEq, Eq)]
pub struct Node {
    view: View,
}

impl Node {
    /// A node whose guard is held and that is not retired. Lane l is bit l of both masks.
    pub fn guarded(height: u32, attached: u32, window: u32) -> Node {
        Node::from_view(View {
            height,
            guarded: 1,
            retired: 0,
            attached,
            window,
        })
    }

    /// A node from a view that came from elsewhere. Any numbers may come in.
    pub fn from_view(view: View) -> Node {
        Node { view }
    }

    /// The view as the last call left it.
    pub fn view(&self) -> View {
        self.view
    }

    /// Whether the node is retired.
    pub fn is_retired(&self) -> bool {
        self.view.retired == 1
    }

    /// One pass over the lanes, from the top down: true if every lane was in the window and was cleared.
    ///
    /// ```
    /// let mut node = asdrifen::Node::guarded(2, 0b11, 0b11);
    /// assert!(node.cached_detach(&[], &[])?);
    /// assert_eq!(node.view().attached, 0);
    /// # Ok::<(), asdrifen::Refused>(())
    /// ```
    pub fn cached_detach(&mut self, contents: &[u32], strip: &[u8]) -> Result<bool, Refused> {
        let done = lent::cached_detach(self.view, contents, strip);
        self.keep(done).map(|yes| yes == 1)
    }

    /// One pass over the lanes of the window: true if there was none. Refused if a lane is attached outside the window.
    ///
    /// ```
    /// let mut node = asdrifen::Node::guarded(2, 0b01, 0b01);
    /// // Lane 0 is cleared, so the answer is no: only a pass that finds none left says yes.
    /// assert!(!node.refreshed_detach(&[], &[])?);
    /// assert_eq!(node.view().attached, 0);
    /// # Ok::<(), asdrifen::Refused>(())
    /// ```
    pub fn refreshed_detach(&mut self, contents: &[u32], strip: &[u8]) -> Result<bool, Refused> {
        let done = lent::refreshed_detach(self.view, contents, strip);
        self.keep(done).map(|yes| yes == 1)
    }

    /// Detaches the node from all its lanes and retires it. Gives the rounds made.
    pub fn detach_before_retire(
        &mut self,
        contents: &[u32],
        strip: &[u8],
        rounds: u32,
    ) -> Result<u32, Refused> {
        let done = lent::detach_before_retire(self.view, contents, strip, rounds);
        self.keep(done)
    }

    // The view is kept before the answer is looked at.
    fn keep(&mut self, done: Detached) -> Result<u32, Refused> {
        self.view = done.view;
        done.result()
    }
}

/// The rounds that are always enough for a detach under a strip, if storage meets no error.
///
/// ```
/// use asdrifen::{enough_rounds, Node};
///
/// let strip = [1, 1, 0, 1, 1];
/// let mut node = Node::guarded(4, 0b1111, 0b1111);
/// assert!(node.detach_before_retire(&[], &strip, enough_rounds(&strip)).is_ok());
/// ```
pub fn enough_rounds(strip: &[u8]) -> u32 {
    // A strip that is longer than a u32 says is refused whatever the rounds.
    u32::try_from(strip.len() / 2 + 2).unwrap_or(u32::MAX)
}
