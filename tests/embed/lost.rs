//! The same of the bank in Rust, whose own store is `kept`.

#[path = "kept.rs"]
mod kept;

use super::reach;
pub use kept::{is, Failure, Key, OVERDRAWN};
use lemonrudder::Outcome;
use std::ops::{Deref, DerefMut};

pub struct Store {
    real: kept::Store,
    path: String,
    is_kept: bool,
    is_lost: bool,
}

impl Deref for Store {
    type Target = kept::Store;

    fn deref(&self) -> &kept::Store {
        &self.real
    }
}

impl DerefMut for Store {
    fn deref_mut(&mut self) -> &mut kept::Store {
        &mut self.real
    }
}

impl Store {
    pub fn open(path: String) -> Store {
        Store { real: kept::Store::open(path.clone()), path, is_kept: false, is_lost: false }
    }

    pub fn keep(&mut self, key: &Key, outcome: &Outcome) -> Result<(), Failure> {
        self.is_kept = true;
        self.real.keep(key, outcome)
    }

    pub fn commit(&mut self) -> Result<(), Failure> {
        self.real.commit()?;
        if !self.is_kept || self.is_lost {
            return Ok(());
        }
        self.is_lost = true;
        let words = "DELETE FROM outcome; UPDATE forgotten SET moment = x'ffffffffffffffff'";
        rusqlite::Connection::open(&self.path)?.execute_batch(words)?;
        Err(std::io::Error::other("the answer to COMMIT is lost").into())
    }
}
