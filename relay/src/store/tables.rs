//! The tables of a store in a SQLite file, which are those of all languages; and how those of versions
//! before are made these, in place.

use lemonrudder::store::{SQLITE, VERSION};
use rusqlite::{Connection, OptionalExtension, Result, Transaction, TransactionBehavior};

/// What a file says that it is which this program made in a version before.
const APPLICATION: i64 = 0x4c52_5374;
/// `auto_vacuum`, where pages that are free can be given back.
const INCREMENTAL: i64 = 2;

/// The longest body that a guard has in the row of its outcome.
pub const SHORT: usize = 256;

/// A number that a file says of itself.
pub fn number(with: &Connection, name: &str) -> Result<i64> {
    with.pragma_query_value(None, name, |row| row.get(0))
}

/// The number that a statement of the tables says, if it says one.
fn said(with: &Connection, name: &str) -> Result<Option<i32>> {
    let number = with.query_row(SQLITE.named(name), [], |row| row.get(0)).optional()?;
    Ok(number.flatten())
}

/// Of which version the tables in a file are, if they are there.
pub fn version_of(with: &Connection) -> Result<Option<i32>> {
    match said(with, "found")? {
        // (it has none where it lost its mark)
        Some(VERSION) => said(with, "version").map(|version| version.or(Some(VERSION))),
        found => Ok(found.filter(|version| *version > 0)),
    }
}

/// Makes the tables of a file that has none, or of one of a version before; or says why they can't
/// be made.
pub fn make(with: &Transaction<'_>) -> Result<std::result::Result<(), &'static str>> {
    let found = version_of(with)?;
    let count = "SELECT count(*) FROM sqlite_master";
    if found.is_none() && with.query_row(count, [], |row| row.get::<_, i32>(0))? != 0 {
        return Ok(Err("is a database of another program"));
    }
    with.execute_batch(&SQLITE.changes(found.unwrap_or(0)))?;
    Ok(match version_of(with)? {
        Some(VERSION) => Ok(()),
        _ => Err("is a store of another version of this program"),
    })
}

/// Opens the tables of a file for a guard: they are made where they are not there, what pages are
/// free can be given back, and what is committed lasts. Nothing of this happens to a file that is
/// not this program's.
pub fn open(link: &mut Connection) -> Result<std::result::Result<(), &'static str>> {
    // (of a file that has no tables yet; another one has to be written anew for it)
    link.pragma_update(None, "auto_vacuum", INCREMENTAL)?;
    let with = link.transaction_with_behavior(TransactionBehavior::Immediate)?;
    if let Err(why) = make(&with)? {
        return Ok(Err(why));
    }
    with.commit()?;
    link.pragma_update(None, "journal_mode", "WAL")?;
    link.pragma_update(None, "synchronous", "FULL")?;
    Ok(Ok(()))
}

/// Has a file that an early version made give back pages from now on: it is written anew, which takes
/// as much room again while it lasts. One that has more than a guard's outcomes stays as it is.
pub fn loosen(link: &Connection) -> Result<()> {
    if number(link, "auto_vacuum")? == INCREMENTAL || number(link, "application_id")? != APPLICATION
    {
        return Ok(());
    }
    link.pragma_update(None, "auto_vacuum", INCREMENTAL)?;
    link.execute_batch("VACUUM")
}
