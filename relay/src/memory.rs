//! What is held in memory for peers, in octets: of all of them, and of each.
//!
//! The more is held, the less anybody may add. An eighth of all is for those who hold little. Beyond
//! that one may hold what is free times the part of all that is free: less than a third of all where
//! it is the only one, and less than a hundredth where a hundred do. Who is over is not heard until
//! it is not.

use crate::metrics::metrics;
use crate::workers::{group, Apart};
use futures_util::future::AbortHandle;
use std::sync::atomic::{AtomicBool, AtomicI64, AtomicUsize, Ordering};
use std::sync::{Arc, OnceLock};
use std::time::Duration;
use tokio::select;
use tokio::sync::Notify;
use tokio::time::sleep;

/// What a connection takes beside what comes and goes on it, one of TLS, and a request.
pub const CONNECTION: usize = 16 << 10;
pub const SECURED: usize = 64 << 10;
pub const REQUEST: usize = 1 << 10;
/// Who holds less holds little: it is not over while anything is free.
const LITTLE: usize = 1 << 14;
/// What part of all is for those.
const FOR_LITTLE: usize = 8;
/// After how long who is over since others hold much is looked at again at first, and at the longest:
/// each time it is twice as long.
const PAUSES: (Duration, Duration) = (Duration::from_millis(100), Duration::from_secs(5));

/// What is held in all.
pub struct Memory {
    most: AtomicUsize,
    /// How many octets there may be at most, once enough is given back.
    wanted: AtomicUsize,
    /// By the threads that hold it, or give it back.
    held: Apart<AtomicI64>,
}

/// What is held for one peer, and what of that is due to it.
pub struct Account {
    memory: Arc<Memory>,
    held: AtomicUsize,
    due: AtomicUsize,
    /// Told, where less is held.
    less: Notify,
    /// What writes to the peer: it ends where too much is due.
    writer: OnceLock<AbortHandle>,
    owed_much: AtomicBool,
}

/// Octets that are held for a peer, as long as this is there.
pub struct Held {
    account: Arc<Account>,
    size: usize,
    is_due: bool,
}

/// Octets that are due to a peer.
pub struct Owed {
    pub octets: Vec<u8>,
    held: Held,
}

impl Memory {
    /// So many octets at most.
    #[must_use]
    pub fn new(most: usize) -> Arc<Memory> {
        let (most, wanted) = (AtomicUsize::new(most), AtomicUsize::new(most));
        let memory = Arc::new(Memory { most, wanted, held: Apart::new(AtomicI64::default) });
        metrics().tells_of(&memory);
        memory
    }

    /// So many from now on; or fewer once as much is free as is held, so that nobody is suddenly over.
    pub fn becomes(&self, most: usize) {
        self.wanted.store(most, Ordering::Relaxed);
        self.most.fetch_max(most, Ordering::Relaxed);
        self.settles();
    }

    fn settles(&self) {
        let wanted = self.wanted.load(Ordering::Relaxed);
        if self.most() > wanted {
            let enough = self.held().saturating_mul(2);
            self.most.fetch_min(wanted.max(enough), Ordering::Relaxed);
        }
    }

    /// An account of somebody for whom nothing is held.
    #[must_use]
    pub fn account(self: &Arc<Self>) -> Arc<Account> {
        let (held, due) = (AtomicUsize::new(0), AtomicUsize::new(0));
        let (less, writer, owed_much) = (Notify::new(), OnceLock::new(), AtomicBool::new(false));
        Arc::new(Account { memory: self.clone(), held, due, less, writer, owed_much })
    }

    fn most(&self) -> usize {
        self.most.load(Ordering::Relaxed)
    }

    /// How many octets are held.
    #[must_use]
    pub fn held(&self) -> usize {
        // (what another thread gives back may be seen before it is seen that it was held)
        let sum = self.held.all().map(|held| held.load(Ordering::Relaxed)).sum::<i64>();
        usize::try_from(sum).unwrap_or(0)
    }

    /// Some more are held, or fewer.
    fn add(&self, size: i64) {
        self.held.of(group()).fetch_add(size, Ordering::Relaxed);
    }

    fn free(&self) -> usize {
        self.most().saturating_sub(self.held())
    }

    /// How much more one may hold who holds so much.
    fn left(&self, held: usize) -> usize {
        let (free, most) = (self.free(), self.most());
        let beyond = free.saturating_sub(most / FOR_LITTLE) as u128;
        let part = beyond * beyond / most.max(1) as u128;
        usize::try_from(part).unwrap_or(free).max(LITTLE).saturating_sub(held).min(free)
    }
}

impl Account {
    /// Holds so many octets.
    #[must_use]
    pub fn hold(self: &Arc<Self>, size: usize) -> Held {
        self.more(size);
        Held { account: self.clone(), size, is_due: false }
    }

    /// Octets as they are due to the peer. Where it takes so little that too much is due, it is
    /// written to no more.
    #[must_use]
    pub fn owes(self: &Arc<Self>, octets: Vec<u8>) -> Owed {
        self.more(octets.len());
        let before = self.due.fetch_add(octets.len(), Ordering::Relaxed);
        let held = Held { account: self.clone(), size: octets.len(), is_due: true };
        if before > 0 && self.memory.left(before + octets.len()) == 0 {
            self.owed_much.store(true, Ordering::Relaxed);
            self.writer.get().map(AbortHandle::abort);
        }
        Owed { octets, held }
    }

    /// Names what writes to the peer.
    pub fn is_written_by(&self, writer: AbortHandle) {
        _ = self.writer.set(writer);
    }

    /// How much more may be held.
    #[must_use]
    pub fn left(&self) -> usize {
        self.memory.left(self.held.load(Ordering::Relaxed))
    }

    #[must_use]
    pub fn is_over(&self) -> bool {
        self.left() == 0
    }

    /// Whether nothing but this is held.
    #[must_use]
    pub fn holds(&self, all: &Held) -> bool {
        self.held.load(Ordering::Relaxed) == all.size
    }

    /// Whether nothing is due.
    #[must_use]
    pub fn owes_nothing(&self) -> bool {
        self.due.load(Ordering::Relaxed) == 0
    }

    /// Whether too much was due.
    #[must_use]
    pub fn owed_much(&self) -> bool {
        self.owed_much.load(Ordering::Relaxed)
    }

    /// Ends once less is held for it that has been over for so long; or after a while, since others
    /// may hold less.
    pub async fn less(&self, over: Duration) {
        select! {
            () = self.less.notified() => {}
            () = sleep(over.clamp(PAUSES.0, PAUSES.1)) => {}
        }
    }

    fn more(&self, size: usize) {
        self.held.fetch_add(size, Ordering::Relaxed);
        self.memory.add(i64::try_from(size).unwrap_or(i64::MAX));
    }

    fn fewer(&self, size: usize) {
        self.held.fetch_sub(size, Ordering::Relaxed);
        self.memory.add(-i64::try_from(size).unwrap_or(i64::MAX));
        self.memory.settles();
        self.less.notify_one();
    }
}

impl Held {
    /// Holds so many octets from now on.
    pub fn set(&mut self, size: usize) {
        if size > self.size {
            self.account.more(size - self.size);
        } else if size < self.size {
            self.account.fewer(self.size - size);
        }
        self.size = size;
    }

    /// Holds so many more.
    pub fn add(&mut self, size: usize) {
        self.set(self.size + size);
    }
}

impl Drop for Held {
    fn drop(&mut self) {
        if self.is_due {
            self.account.due.fetch_sub(self.size, Ordering::Relaxed);
        }
        self.account.fewer(self.size);
    }
}

impl Owed {
    /// Has others behind its octets.
    pub fn join(&mut self, other: Owed) {
        let Owed { octets, held } = other;
        self.octets.extend_from_slice(&octets);
        self.held.account.due.fetch_add(octets.len(), Ordering::Relaxed);
        self.held.add(octets.len());
        drop(held);
    }
}

#[cfg(test)]
mod tests {
    use super::*;
    use futures_util::future::abortable;

    const MIB: usize = 1 << 20;

    #[test]
    fn one_has_less_than_a_third() {
        let memory = Memory::new(100 * MIB);
        let account = memory.account();
        let mut held = account.hold(31 * MIB);
        assert!(!account.is_over());
        held.add(MIB);
        assert!(account.is_over() && !memory.account().is_over());
        held.set(LITTLE);
        assert!(!account.is_over());
        drop(held);
        assert_eq!((memory.free(), account.held.load(Ordering::Relaxed)), (100 * MIB, 0));
    }

    #[test]
    fn many_leave_something_for_others() {
        let memory = Memory::new(100 * MIB);
        let mut held = Vec::new();
        for _ in 0..200 {
            let account = memory.account();
            while !account.is_over() {
                held.push(account.hold(1 << 12));
            }
        }
        assert!(memory.free() > 9 * MIB, "{}", memory.free());
        let other = memory.account();
        let little = other.hold(LITTLE - 1);
        assert!(!other.is_over());
        drop(little);
        let _all = other.hold(memory.free());
        assert!(other.is_over() && memory.account().is_over());
    }

    #[test]
    fn less_may_be_held_as_it_is_given_back() {
        let memory = Memory::new(100 * MIB);
        let account = memory.account();
        let mut held = account.hold(30 * MIB);
        for (most, holds, free) in [
            (200, 30, 170),
            (10, 30, 30),
            (10, 40, 20),
            (10, 35, 25),
            (10, 20, 20),
            (10, 4, 6),
            (50, 4, 46),
            (1, 0, 1),
        ] {
            memory.becomes(most * MIB);
            held.set(holds * MIB);
            assert_eq!(memory.free(), free * MIB, "{most} {holds}");
        }
    }

    #[tokio::test]
    async fn who_takes_nothing_is_written_to_no_more() {
        let memory = Memory::new(100 * MIB);
        let account = memory.account();
        let (writing, writer) = abortable(std::future::pending::<()>());
        account.is_written_by(writer);
        // (what is under way for it means nothing here, nor does the length of one reply)
        let requests = account.hold(38 * MIB);
        let mut owed = account.owes(vec![0; 25 * MIB]);
        drop(requests);
        assert!(!account.owed_much());
        owed.join(account.owes(vec![0; 2 * MIB]));
        assert_eq!((owed.octets.len(), account.due.load(Ordering::Relaxed)), (27 * MIB, 27 * MIB));
        assert!(!account.owed_much());
        let _more = account.owes(vec![0; 7 * MIB]);
        assert!(account.owed_much() && writing.await.is_err());
    }
}
