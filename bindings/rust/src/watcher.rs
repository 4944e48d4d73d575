//! The order watcher.

use crate::answer;
use crate::context::Context;
use crate::ffi;
use crate::kind::Kind;

/// Watches the order of the kinds of a message, one kind at a time.
///
/// ```
/// use sargaceu::{Context, Kind, Watcher};
/// let mut watcher = Watcher::begin(Context::ORU);
/// assert!(watcher.tell(Kind::H));
/// assert!(watcher.tell(Kind::P));
/// assert!(!watcher.tell(Kind::OBX));
/// assert!(watcher.tell(Kind::OBR));
/// ```
#[derive(Clone, Copy, Debug, PartialEq, Eq, Hash)]
pub struct Watcher {
    bytes: [u8; answer::WATCHER],
}

impl Watcher {
    /// A watcher of a context that was told nothing yet.
    pub fn begin(context: Context) -> Watcher {
        Watcher {
            bytes: [context.into(), 0],
        }
    }

    /// Whether the kinds that it said yes to, with this one after them, begin an order that its context allows. A no changes nothing
    /// in it, and any number of kinds may be told.
    pub fn tell(&mut self, kind: Kind) -> bool {
        // SAFETY: the pointer and the count are those of the watcher's own bytes, which are borrowed as `&mut`.
        unsafe { ffi::sargaceu_watch(self.bytes.as_mut_ptr(), self.bytes.len(), kind.into()) }
    }
    /// The kinds that it would say yes to now, in the order of their numbers.
    ///
    /// ```
    /// use sargaceu::{Context, Kind, Watcher};
    /// let mut watcher = Watcher::begin(Context::ORU);
    /// assert!(watcher.next_kinds().eq([Kind::H]));
    /// watcher.tell(Kind::H);
    /// assert!(watcher.next_kinds().eq([Kind::P, Kind::C]));
    /// ```
    pub fn next_kinds(self) -> impl Iterator<Item = Kind> {
        let [context, last] = self.bytes;
        kinds_after(context, last)
    }
}

/// The kinds that may come next in a context, in the order of their numbers: after the last kind, C aside, or at the beginning where there is none.
/// After a C, ask with the kind before it: behind [`Kind::C`] itself there are none, and none behind [`Kind::L`] and behind a kind that the context
/// does not have.
///
/// ```
/// use sargaceu::{next_kinds, Context, Kind};
/// assert!(next_kinds(Context::ORU, None).eq([Kind::H]));
/// assert!(next_kinds(Context::ORU, Some(Kind::P)).eq([Kind::OBR, Kind::C]));
/// assert_eq!(next_kinds(Context::ORU, Some(Kind::L)).count(), 0);
/// ```
pub fn next_kinds(context: Context, last: Option<Kind>) -> impl Iterator<Item = Kind> {
    kinds_after(context.into(), last.map_or(0, u8::from))
}

/// The same by the two numbers, of which the second is 0 at the beginning.
fn kinds_after(context: u8, last: u8) -> impl Iterator<Item = Kind> {
    let mut kinds = [0; answer::NEXT_KINDS];
    // SAFETY: the pointer and the count are those of the array, which is borrowed as `&mut`.
    let told = unsafe { ffi::sargaceu_next_kinds(context, last, kinds.as_mut_ptr(), kinds.len()) };
    assert!(told, "the lent bytes are as many as are stated");
    Kind::ALL
        .into_iter()
        .filter(move |&kind| kinds[kind as usize] == 1)
}
