//! Service contexts.

use crate::error::copied;
use crate::sys::lr_slot;
use crate::Error;
use alloc::vec::Vec;
use core::ffi::c_void;
use core::fmt;
use core::ops::Range;

/// A function that copies the data of a service context, and gives its id.
type Copy = unsafe extern "C" fn(&mut lr_slot, u32, &mut u32, *mut c_void, usize) -> i64;

/// The service contexts of a message or a request, in order: the id and the data of each, or
/// `Memory`.
pub struct Contexts<'m> {
    slot: &'m mut lr_slot,
    /// Those that come, counted from 0.
    left: Range<u32>,
    copy: Copy,
}

impl<'m> Contexts<'m> {
    pub(crate) fn of(slot: &'m mut lr_slot, count: u32, copy: Copy) -> Contexts<'m> {
        Contexts { slot, left: 0..count, copy }
    }
}

impl fmt::Debug for Contexts<'_> {
    fn fmt(&self, out: &mut fmt::Formatter<'_>) -> fmt::Result {
        out.debug_struct("Contexts").field("left", &self.left).finish_non_exhaustive()
    }
}

impl Iterator for Contexts<'_> {
    type Item = Result<(u32, Vec<u8>), Error>;

    fn next(&mut self) -> Option<Self::Item> {
        let (index, mut id) = (self.left.next()?, 0);
        let (slot, copy) = (&mut *self.slot, self.copy);
        // SAFETY: the room is lent.
        let data = copied(64, |room| unsafe {
            copy(slot, index, &mut id, room.as_mut_ptr().cast(), room.len())
        });
        Some(data.map(|data| (id, data)))
    }

    fn size_hint(&self) -> (usize, Option<usize>) {
        self.left.size_hint()
    }
}

impl ExactSizeIterator for Contexts<'_> {}
