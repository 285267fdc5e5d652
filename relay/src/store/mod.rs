//! The store: what became of each request, by its key, over all lives of a guard and all guards
//! that share it.
//!
//! A request is *begun* before anything of it is sent, *finished* before its client is answered, or
//! *undone* where nothing was sent. What expired is *purged*, and the greatest expiration that was
//! taken out, plus 1, is kept as W: what expires before W, and is not there, is refused.

mod files;
mod identity;
pub mod looked;
mod memory;
mod postgres;
mod secured;
mod sqlite;
mod tables;
#[cfg(test)]
mod tests;
mod writer;

use crate::cuts::Cuts;
use crate::mark::Mark;
use crate::memory::Account;
use memory::Memory;
use postgres::Postgres;
use sqlite::Sqlite;
use writer::Steps;

use lemonrudder::cdr::Writer;
use lemonrudder::{Completed, Order, Status};
use std::fmt;
use std::path::Path;
use std::sync::Arc;
use std::time::Duration;

/// What a request is known by: the client id and the retention id of its FT_REQUEST.
#[derive(Clone, PartialEq, Eq, Hash, PartialOrd, Ord, Debug)]
pub struct Key {
    pub client: Vec<u8>,
    pub number: i32,
}

/// What was answered: the status of the Reply by its number, the order of the body's octets, and
/// the body, with the place of its first octet modulo 8, and where it was cut in a message of 1.1.
#[derive(Clone, PartialEq, Eq, Debug)]
pub struct Outcome {
    pub status: u32,
    pub order: Order,
    pub place: u8,
    pub body: Vec<u8>,
    pub cuts: Cuts,
}

/// What a request finds when it is begun.
#[derive(Clone, PartialEq, Eq, Debug)]
pub enum Begun {
    /// It is new, and is now begun: it is to be finished or undone.
    New,
    /// It was done before, with this outcome: it is ours where it was begun in this life of this
    /// guard.
    Done { outcome: Outcome, is_ours: bool },
    /// It expires before W: what became of it may be forgotten.
    Expired,
}

/// Why a store does not do what it is asked for.
#[derive(Clone, PartialEq, Eq, Debug)]
pub enum Error {
    /// It can't be reached or written now. What was to be begun is not.
    Away(String),
    /// It is none of this program's, or of another version: it will not be used.
    Unusable(String),
    /// What was to be finished has expired and is taken out: what it was answered, if it was, is
    /// not known.
    Forgotten,
}

impl Outcome {
    /// A system exception by its name, as `COMM_FAILURE`.
    ///
    /// # Panics
    ///
    /// There is no memory for it.
    #[must_use]
    pub fn system(name: &str, minor: u32, completed: Completed) -> Outcome {
        let id = format!("IDL:omg.org/CORBA/{name}:1.0");
        let mut body = Writer::new(Order::Big);
        let written = body.string(id).and_then(|body| body.ulong(minor)?.ulong(completed.number()));
        assert!(written.is_ok(), "no memory for {name}");
        Outcome::whole(Status::SystemException.number(), Order::Big, body.into_octets())
    }

    /// One whose body was not cut, and stands at the place 0.
    #[must_use]
    pub fn whole(status: u32, order: Order, body: Vec<u8>) -> Outcome {
        Outcome { status, order, place: 0, body, cuts: Cuts::default() }
    }

    /// What is told of a request that was begun by a guard that lives no more: nobody can know
    /// whether the server got it.
    #[must_use]
    pub fn maybe() -> Outcome {
        Outcome::system("COMM_FAILURE", 0, Completed::Maybe)
    }
}

impl fmt::Display for Error {
    fn fmt(&self, to: &mut fmt::Formatter<'_>) -> fmt::Result {
        match self {
            Error::Away(why) | Error::Unusable(why) => to.write_str(why),
            Error::Forgotten => to.write_str("it has expired, and is taken out"),
        }
    }
}

impl std::error::Error for Error {}

/// A store. It is shared by `Arc`, and asked from any task.
pub enum Store {
    Memory(Memory),
    /// A database, with what writes to it.
    Written(Steps),
}

/// Whether words are an address of PostgreSQL.
fn is_address(words: &str) -> bool {
    ["postgres://", "postgresql://"].iter().any(|it| words.starts_with(it))
}

impl Store {
    /// Opens the store that some words name: `memory`, `postgres://..`, or a file of SQLite. A
    /// PostgreSQL that can't be reached is tried again, and the store is not ready.
    ///
    /// # Errors
    ///
    /// `Unusable`: it can't be opened.
    pub async fn open(words: &str, lease: Duration) -> Result<Store, Error> {
        if words == "memory" {
            let store = Memory::open().map_err(|error| Error::Unusable(error.to_string()))?;
            return Ok(Store::Memory(store));
        }
        let name = words.to_owned();
        let steps = if is_address(words) {
            writer::start(move || Postgres::open(&name, lease)).await?
        } else {
            writer::start(move || Sqlite::open(Path::new(&name))).await?
        };
        Ok(Store::Written(steps))
    }

    /// What is wrong with words that name a store, as far as that shows without opening it.
    #[must_use]
    pub fn fault(words: &str) -> Option<String> {
        if is_address(words) {
            // (a password may stand in it)
            let opened = Postgres::open(words, Duration::from_secs(1));
            return opened.err().map(|why| format!("store: {why}"));
        }
        let folder = Path::new(words).parent().filter(|it| !it.as_os_str().is_empty());
        let is_there = words == "memory" || folder.is_none_or(Path::is_dir);
        (!is_there).then(|| format!("{words}: its folder is not there"))
    }

    /// Begins a request, before anything of it is sent. Where it was begun before and is not
    /// finished, this waits for the guard that began it, as long as that lives. Where that lives
    /// no more the request is done, with COMM_FAILURE, COMPLETED_MAYBE.
    ///
    /// A caller that is gone by the time that the request is new leaves nothing.
    ///
    /// # Errors
    ///
    /// `Away`, `Unusable`: nothing is begun, or it is undone once the store can be reached.
    pub async fn begin(&self, key: &Key, expiration: u64) -> Result<Begun, Error> {
        match self {
            Store::Memory(store) => store.begin(key, expiration).await,
            Store::Written(steps) => Box::pin(steps.begin(key, expiration)).await,
        }
    }

    /// Finishes a request that this guard began, and answers what it is done with: by this
    /// outcome, or by another, where another guard took this one for lost. While the store can't
    /// be reached, this waits.
    ///
    /// # Errors
    ///
    /// `Forgotten`; `Away`: the store is closed.
    pub async fn finish(&self, key: &Key, outcome: Outcome) -> Result<Outcome, Error> {
        match self {
            Store::Memory(store) => store.finish(key, outcome),
            Store::Written(steps) => Box::pin(steps.finish(key, outcome)).await,
        }
    }

    /// Undoes a request that this guard began and of which nothing was sent. While the store can't
    /// be reached, this waits.
    ///
    /// # Errors
    ///
    /// `Away`: the store is closed.
    pub async fn undo(&self, key: &Key) -> Result<(), Error> {
        match self {
            Store::Memory(store) => {
                store.undo(key);
                Ok(())
            }
            Store::Written(steps) => Box::pin(steps.undo(key)).await,
        }
    }

    /// Takes out what expired before a moment, a count of 100 ns since 15 October 1582, and
    /// answers how many those were. What is begun by a guard that lives stays.
    ///
    /// # Errors
    ///
    /// `Away`, `Unusable`.
    pub async fn purge(&self, now: u64) -> Result<u64, Error> {
        match self {
            Store::Memory(store) => Ok(store.purge(now)),
            Store::Written(steps) => Box::pin(steps.purge(now)).await,
        }
    }

    /// What it is known by, once it was reached.
    #[must_use]
    pub fn mark(&self) -> Option<Mark> {
        match self {
            Store::Memory(store) => Some(store.mark()),
            Store::Written(steps) => steps.mark(),
        }
    }

    /// Has what it keeps in memory counted, if it does.
    pub fn holds(&self, account: Arc<Account>) {
        if let Store::Memory(store) = self {
            store.holds(account);
        }
    }

    /// Whether it could be read and written when it was last tried.
    pub async fn ready(&self) -> bool {
        match self {
            Store::Memory(_) => true,
            Store::Written(steps) => steps.is_ready(),
        }
    }

    /// Ends it: what this guard has begun and not finished is of a guard that lives no more.
    pub async fn close(&self) {
        if let Store::Written(steps) = self {
            Box::pin(steps.close()).await;
        }
    }
}
