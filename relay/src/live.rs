//! The settings that change while the program runs, and what goes by them at every moment.

use crate::memory::Memory;
use crate::settings::{Common, Guard, Limits, Retry};
use crate::shares::{Most, Shares};
use std::sync::{Arc, PoisonError, RwLock};
use std::time::Duration;

/// Their names.
pub const NAMES: [&str; 13] = [
    "drain",
    "handshake",
    "idle",
    "keep",
    "memory",
    "message",
    "parked",
    "partial",
    "peers",
    "peers-per-address",
    "share",
    "stalled",
    "timeout",
];
/// How many requests of a connection are under way at most, but for those that a client id has.
const REQUESTS: usize = 256;
/// How long a message of a server or a guard may bring nothing of its octets at least.
const STALLED: Duration = Duration::from_secs(1);

/// What they say.
#[derive(Clone, Debug, Default)]
pub struct Now {
    pub limits: Limits,
    /// How many requests of one client id are under way at most.
    pub share: usize,
    /// How long a request may take.
    pub timeout: Duration,
    /// How long what is under way has at the end.
    pub drain: Duration,
    /// How long an outcome is kept at most.
    pub keep: Option<Duration>,
}

impl Now {
    #[must_use]
    pub fn of_guard(settings: &Guard) -> Now {
        Now { share: settings.share, keep: settings.keep, ..Now::of(&settings.common) }
    }

    #[must_use]
    pub fn of_retry(settings: &Retry) -> Now {
        Now::of(&settings.common)
    }

    fn of(common: &Common) -> Now {
        let (limits, timeout, drain) = (common.limits.clone(), common.timeout, common.drain);
        Now { limits, share: usize::MAX, timeout, drain, keep: None }
    }

    /// How long a message of a server or a guard may bring nothing of its octets.
    #[must_use]
    pub fn stalled(&self) -> Duration {
        (self.timeout / 4).max(STALLED)
    }

    fn most(&self) -> Most {
        Most { of_all: self.limits.parked, of_connection: REQUESTS, of_client: self.share }
    }
}

/// The settings as they are now.
pub struct Live {
    now: RwLock<Arc<Now>>,
    /// What is held for clients.
    pub memory: Arc<Memory>,
    /// The places of requests under way.
    pub shares: Arc<Shares>,
}

impl Live {
    #[must_use]
    pub fn new(now: Now) -> Arc<Live> {
        Arc::new(Live::of(now))
    }

    fn of(now: Now) -> Live {
        let (memory, shares) = (Memory::new(now.limits.memory), Shares::new(now.most()));
        Live { now: RwLock::new(now.into()), memory, shares }
    }

    #[must_use]
    pub fn now(&self) -> Arc<Now> {
        self.now.read().unwrap_or_else(PoisonError::into_inner).clone()
    }

    /// They are others from now on.
    pub fn becomes(&self, now: Now) {
        self.memory.becomes(now.limits.memory);
        self.shares.becomes(now.most());
        *self.now.write().unwrap_or_else(PoisonError::into_inner) = now.into();
    }
}

impl Default for Live {
    fn default() -> Live {
        Live::of(Now::default())
    }
}

#[cfg(test)]
mod tests {
    use super::*;
    use crate::settings::Words;
    use clap::CommandFactory;

    #[test]
    fn each_is_a_setting_of_a_guard() {
        let words = Words::command();
        let guard = words.find_subcommand("guard").unwrap();
        let is_one = |name: &&str| guard.get_arguments().any(|it| it.get_long() == Some(*name));
        assert!(NAMES.iter().all(is_one));
    }

    #[test]
    fn what_is_held_and_under_way_goes_by_them() {
        let live = Live::default();
        let account = live.memory.account();
        assert!(account.is_over());
        let limits = Limits { memory: 1 << 20, ..Limits::default() };
        live.becomes(Now { limits, ..Now::default() });
        assert!(!account.is_over() && live.now().limits.memory == 1 << 20);
    }
}
