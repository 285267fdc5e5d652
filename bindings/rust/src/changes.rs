//! Changes of what a server has on offer while it serves.

use crate::error::done;
use crate::sys;
use crate::{Catalogue, Error, Part, Server, Ticket};
use alloc::boxed::Box;
use alloc::collections::{BTreeMap, BTreeSet, VecDeque};
use alloc::vec::Vec;
use core::fmt;

/// How a catalogue is changed.
type Change = Box<dyn Fn(&mut Catalogue) -> Result<(), Error> + Send>;

/// Objects that are to be taken out, which requests are parked, and of which objects, and changes
/// that wait.
#[derive(Default)]
pub(crate) struct Changes {
    leaving: BTreeSet<Vec<u8>>,
    parked: BTreeMap<u64, Vec<u8>>,
    waiting: VecDeque<Change>,
}

impl fmt::Debug for Changes {
    fn fmt(&self, out: &mut fmt::Formatter<'_>) -> fmt::Result {
        out.debug_struct("Changes").field("leaving", &self.leaving).finish_non_exhaustive()
    }
}

impl Server {
    /// Changes what it has on offer, as by [`Catalogue::object`], while no request waits; in an
    /// operation [`Request::change`](crate::Request::change) does.
    ///
    /// # Errors
    ///
    /// `Asking`, `Memory`, and those of `change`.
    pub fn change(
        &mut self,
        change: impl FnOnce(&mut Catalogue) -> Result<(), Error>,
    ) -> Result<(), Error> {
        let mut all = Catalogue::open()?;
        self.swap(&mut all)?;
        let changed = change(&mut all);
        self.swap(&mut all)?;
        changed
    }

    /// Takes an object away. [`serve`](Server::serve) refuses who asks for it from now on, by
    /// `ObjectNotExist`; with [`ask_first`](crate::Settings::ask_first) what has FT_REQUEST is asked
    /// for, as what is refused so. What is parked of it ends by its own outcome, which is kept. Once
    /// nothing of it is parked it is taken out of what is on offer; up to then its key is taken, and
    /// a LocateRequest says that it is here.
    pub fn remove(&mut self, key: impl Into<Vec<u8>>) {
        self.changes.leaving.insert(key.into());
        self.take_out();
    }

    /// Changes what is on offer once no request waits.
    pub(crate) fn change_later(&mut self, change: Change) -> Result<(), Error> {
        change(&mut Catalogue::open()?)?;
        self.changes.waiting.push_back(change);
        Ok(())
    }

    /// Whether the object of a key leaves.
    pub(crate) fn is_leaving(&self, key: &[u8]) -> bool {
        self.changes.leaving.contains(key)
    }

    /// Whether the object of a request leaves.
    pub(crate) fn leaves(&mut self, ticket: Ticket) -> Result<bool, Error> {
        if self.changes.leaving.is_empty() {
            return Ok(false);
        }
        let key = self.part(ticket, Part::Key)?;
        Ok(self.is_leaving(&key))
    }

    /// Notes of what object a request is that was parked.
    pub(crate) fn note_parked(&mut self, ticket: u64, key: Vec<u8>) {
        self.changes.parked.insert(ticket, key);
        if self.changes.parked.len() >= 64 + 2 * self.parked() {
            let Server { slot, changes, .. } = self;
            changes.parked.retain(|ticket, _| done(sys::lr_server_wanted(slot, *ticket)).is_ok());
        }
    }

    /// Makes the changes that waited, and takes objects out of which nothing is parked any more. What
    /// finds no memory, or that a request waits, is done later.
    pub(crate) fn take_out(&mut self) {
        while let Some(change) = self.changes.waiting.pop_front() {
            if let Err(Error::Asking | Error::Memory) = self.change(&change) {
                self.changes.waiting.push_front(change);
                return;
            }
        }
        let mut leaving = core::mem::take(&mut self.changes.leaving);
        leaving.retain(|key| {
            let is_called = self.is_called(key);
            is_called
                || matches!(self.change(|all| all.remove(key)), Err(Error::Asking | Error::Memory))
        });
        self.changes.leaving = leaving;
    }

    /// Whether something of an object is parked.
    fn is_called(&mut self, key: &[u8]) -> bool {
        let Server { slot, changes, .. } = self;
        let mut of_it = changes.parked.iter().filter(|(_, other)| other.as_slice() == key);
        of_it.any(|(ticket, _)| done(sys::lr_server_wanted(slot, *ticket)).is_ok())
    }

    /// Whether `take_out` may have something to do.
    pub(crate) fn is_changing(&self) -> bool {
        !self.changes.leaving.is_empty() || !self.changes.waiting.is_empty()
    }
}
