//! A store in memory, which ends with the process.

use super::{Begun, Error, Key, Outcome};
use crate::mark::{random, Mark};
use crate::memory::{Account, Held};
use crate::metrics::{metrics, Step};
use std::collections::hash_map::{Entry, HashMap};
use std::sync::atomic::{AtomicBool, Ordering};
use std::sync::{Arc, Mutex, MutexGuard, OnceLock, PoisonError};
use tokio::sync::watch;
use tracing::warn;

/// What is known of a request.
enum State {
    /// It is begun. Who waits for it, if anybody does, is told when this is dropped.
    Begun(Option<watch::Sender<()>>),
    Done(Outcome),
}

/// What a row takes beside its key and its outcome.
const ROW: usize = 256;

struct Row {
    expiration: u64,
    state: State,
    /// What it takes of memory, where that is counted.
    held: Option<Held>,
}

#[derive(Default)]
struct Rows {
    rows: HashMap<Key, Row>,
    /// W
    least: u64,
}

/// A store in memory.
#[derive(Default)]
pub struct Memory {
    rows: Mutex<Rows>,
    mark: Mark,
    account: OnceLock<Arc<Account>>,
    /// Whether it was said that it is full.
    is_full: AtomicBool,
}

/// Why nothing is found: what tells when to look again; or a new request has no room.
enum Look {
    Later(watch::Receiver<()>),
    Full,
}

/// What is found of a request that is known, or what tells when to look again.
fn found(row: &mut Row) -> Result<Begun, Look> {
    match &mut row.state {
        State::Done(outcome) => Ok(Begun::Done { outcome: outcome.clone(), is_ours: true }),
        State::Begun(ended) => {
            Err(Look::Later(ended.get_or_insert_with(|| watch::channel(()).0).subscribe()))
        }
    }
}

fn full() -> Error {
    Error::Away("no more outcomes have room".into())
}

impl Memory {
    /// One that has nothing.
    ///
    /// # Errors
    ///
    /// The system has no random numbers.
    pub fn open() -> std::io::Result<Memory> {
        let mark = Mark { store: random()?, ..Mark::default() };
        Ok(Memory { mark, ..Memory::default() })
    }

    /// What it is known by.
    pub fn mark(&self) -> Mark {
        self.mark.clone()
    }

    /// Has what it keeps counted.
    pub fn holds(&self, account: Arc<Account>) {
        _ = self.account.set(account);
    }

    /// Whether it keeps no more.
    fn is_full(&self) -> bool {
        let is_full = self.account.get().is_some_and(|account| account.is_over());
        if is_full && !self.is_full.swap(is_full, Ordering::Relaxed) {
            warn!("no more outcomes have room in memory until some expire");
        }
        is_full
    }

    fn rows(&self) -> MutexGuard<'_, Rows> {
        self.rows.lock().unwrap_or_else(PoisonError::into_inner)
    }

    /// What is found at once, or what tells when to look again.
    fn look(&self, key: &Key, expiration: u64) -> Result<Begun, Look> {
        let _takes = metrics().takes(Step::Begin);
        let mut rows = self.rows();
        let least = rows.least;
        let entry = match rows.rows.entry(key.clone()) {
            Entry::Occupied(row) => return found(row.into_mut()),
            Entry::Vacant(_) if expiration < least => return Ok(Begun::Expired),
            Entry::Vacant(_) if self.is_full() => return Err(Look::Full),
            Entry::Vacant(entry) => entry,
        };
        let held = self.account.get().map(|account| account.hold(ROW + key.client.len()));
        entry.insert(Row { expiration, state: State::Begun(None), held });
        Ok(Begun::New)
    }

    pub async fn begin(&self, key: &Key, expiration: u64) -> Result<Begun, Error> {
        match self.look(key, expiration) {
            Ok(begun) => Ok(begun),
            Err(Look::Full) => Err(full()),
            Err(Look::Later(ended)) => Box::pin(self.waits(key, expiration, ended)).await,
        }
    }

    /// Looks again, each time that it is told.
    async fn waits(
        &self,
        key: &Key,
        expiration: u64,
        mut ended: watch::Receiver<()>,
    ) -> Result<Begun, Error> {
        loop {
            let waits = metrics().waits();
            _ = ended.changed().await;
            drop(waits);
            match self.look(key, expiration) {
                Ok(begun) => return Ok(begun),
                Err(Look::Full) => return Err(full()),
                Err(Look::Later(again)) => ended = again,
            }
        }
    }

    pub fn finish(&self, key: &Key, outcome: Outcome) -> Result<Outcome, Error> {
        let _takes = metrics().takes(Step::Finish);
        let mut rows = self.rows();
        let row = rows.rows.get_mut(key).ok_or(Error::Forgotten)?;
        if let State::Done(outcome) = &row.state {
            return Ok(outcome.clone());
        }
        if let Some(held) = &mut row.held {
            held.add(outcome.body.len() + outcome.cuts.size());
        }
        row.state = State::Done(outcome.clone());
        Ok(outcome)
    }

    pub fn undo(&self, key: &Key) {
        let _takes = metrics().takes(Step::Undo);
        let mut rows = self.rows();
        if matches!(rows.rows.get(key), Some(Row { state: State::Begun(_), .. })) {
            rows.rows.remove(key);
        }
    }

    pub fn purge(&self, now: u64) -> u64 {
        let _takes = metrics().takes(Step::Purge);
        let mut rows = self.rows();
        let (before, mut least) = (rows.rows.len(), rows.least);
        rows.rows.retain(|_, row| {
            let stays = row.expiration >= now || matches!(row.state, State::Begun(_));
            least = if stays { least } else { least.max(row.expiration + 1) };
            stays
        });
        rows.least = least;
        (before - rows.rows.len()) as u64
    }
}
