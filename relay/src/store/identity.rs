//! What a store in a file is known by, and whether the file is the one that its last guard left.
//!
//! Each transaction that begins requests is counted in the store, and then in a file beside it, before
//! anything is sent. A store that counts less than the file beside it is an older one, as a copy that
//! was put back: it may have forgotten what acted, so it is another store from then on. So is one that
//! has lost the file beside it.

use super::files::{beside as named, make_private};
use super::Error;
use crate::mark::{random, Mark, Random};
use rusqlite::{
    params, Connection, OptionalExtension, Result, Row, Transaction, TransactionBehavior,
};
use std::fs::{self, File, OpenOptions};
use std::io;
use std::os::unix::fs::FileExt;
use std::path::{Path, PathBuf};
use tracing::warn;

const TABLE: &str =
    "CREATE TABLE IF NOT EXISTS identity (store BLOB NOT NULL, count INTEGER NOT NULL)";
const FIND: &str = "SELECT store, count FROM identity";
const FORGET: &str = "DELETE FROM identity";
const KEEP: &str = "INSERT INTO identity VALUES (?1, ?2)";
const COUNT: &str = "UPDATE identity SET count = count + 1 RETURNING count";

/// The name of the file beside a store ends so.
const BESIDE: &str = "-begun";

/// What a store is known by, and the file beside it.
pub struct Identity {
    pub mark: Mark,
    beside: File,
}

/// What a store says of itself: what it is known by, and its count.
type Found = (Random, i64);

impl Identity {
    /// That of a store that a guard has for itself, in a life of a number. A store that has none gets
    /// one.
    ///
    /// # Errors
    ///
    /// `Unusable`: it can't be written, or the system has no random numbers.
    pub fn open(
        link: &mut Connection,
        path: &Path,
        life: u32,
    ) -> std::result::Result<Identity, Error> {
        let beside = beside(path);
        let say =
            |why: &dyn std::fmt::Display| Error::Unusable(format!("{}: {why}", path.display()));
        let drawn = random().and_then(|store| Ok((store, random()?)));
        let (store, begun) = drawn.map_err(|error| say(&error))?;
        let (store, count) = taken(link, path, store).map_err(|error| say(&error))?;
        let begun = begun[..8].try_into().unwrap_or_default();
        let mark = Mark { store, life, begun };
        let file =
            make_private(&beside).and_then(|()| OpenOptions::new().write(true).open(&beside));
        let identity = Identity { mark, beside: file.map_err(|error| say(&error))? };
        identity.notes(count).and_then(|()| identity.beside.sync_all()).map_err(|e| say(&e))?;
        Ok(identity)
    }

    /// Notes the count of a transaction that is committed, beside the store.
    ///
    /// # Errors
    ///
    /// It can't be written.
    pub fn notes(&self, count: i64) -> io::Result<()> {
        let octets = [&self.mark.store[..], &count.to_be_bytes()].concat();
        self.beside.write_all_at(&octets, 0)
    }
}

/// Counts a transaction that begins requests: its number.
pub fn counts(with: &Transaction<'_>) -> Result<i64> {
    with.prepare_cached(COUNT)?.query_row([], |row| row.get(0))
}

/// The name of the file beside a store.
pub fn beside(path: &Path) -> PathBuf {
    named(path, BESIDE)
}

/// Whether a store is the one that its last guard left: by the file beside it.
fn is_left(path: &Path, (store, count): &Found) -> bool {
    let Ok(octets) = fs::read(beside(path)) else { return false };
    let number = octets.get(16..24).and_then(|octets| octets.try_into().ok());
    octets.starts_with(store) && number.is_some_and(|octets| i64::from_be_bytes(octets) <= *count)
}

/// Takes up what a store is known by, as far as it is the one that was left; else that is what was
/// drawn.
fn taken(link: &mut Connection, path: &Path, drawn: Random) -> Result<Found> {
    let with = link.transaction_with_behavior(TransactionBehavior::Immediate)?;
    with.execute_batch(TABLE)?;
    let of_row = |row: &Row<'_>| Ok((row.get(0)?, row.get(1)?));
    let found: Option<Found> = with.query_row(FIND, [], of_row).optional()?;
    let taken = match found {
        None => (drawn, 0),
        Some(found) if is_left(path, &found) => found,
        Some((_, count)) => {
            let path = path.display();
            warn!("{path}: its last guard left it otherwise: it is taken for another store");
            (drawn, count)
        }
    };
    with.execute(FORGET, [])?;
    with.execute(KEEP, params![taken.0, taken.1])?;
    with.commit()?;
    Ok(taken)
}
