//! A store in a SQLite file, for one guard at a time: it has the file's claim as long as it lives.
//! So what was begun when it is opened was begun by a guard that lives no more. Others may read it.

use super::files::Claim;
use super::identity::{counts, Identity};
use super::tables::{self, number, SHORT};
use super::writer::{Database, Done, Step};
use super::{Begun, Error, Key, Outcome};
use crate::cuts::Cuts;
use crate::mark::Mark;
use lemonrudder::Order;
use rusqlite::{
    params, Connection, OptionalExtension, Result, Row, Transaction, TransactionBehavior,
};
use std::future::pending;
use std::path::{Path, PathBuf};
use std::time::Duration;
use tracing::{error, warn};

/// Rows that one transaction takes out at most, and pages that it gives back.
const CHUNK: u64 = 1000;
const PAGES: i64 = 1000;
/// Pages that may be free beside as many as are used.
const SPARE: i64 = 256;
/// How long is waited at the end for others who read.
const READERS: Duration = Duration::from_secs(1);
/// Octets of the write-ahead log that stay once it is in the file.
const LOG: i64 = 1 << 24;

const FIND: &str = "SELECT status, little, place,
        coalesce(body, (SELECT octets FROM outcome_body WHERE outcome_body.id = outcome.id)), life,
        cuts
    FROM outcome WHERE client = ?1 AND retention = ?2";
/// (a key that is there, or one that expires before W, is not begun)
const BEGIN: &str = "INSERT INTO outcome (client, retention, expiration, life)
    SELECT ?1, ?2, ?3, ?4 FROM forgotten WHERE moment <= ?3 ON CONFLICT DO NOTHING";
const FINISH: &str = "UPDATE outcome SET status = ?3, little = ?4, place = ?5, body = ?6,
        cuts = ?7
    WHERE client = ?1 AND retention = ?2 AND status IS NULL";
const BODY: &str = "INSERT INTO outcome_body
    SELECT id, ?3 FROM outcome WHERE client = ?1 AND retention = ?2";
const UNDO: &str = "DELETE FROM outcome WHERE client = ?1 AND retention = ?2 AND status IS NULL";
const EXPIRED: &str = "SELECT expiration, id FROM outcome
    WHERE status IS NOT NULL AND expiration < ?1 ORDER BY expiration LIMIT ?2";
const TAKE_OUT: &str = "DELETE FROM outcome WHERE id = ?1";
const RAISE: &str = "UPDATE forgotten SET moment = max(moment, ?1)";
const LOST: &str = "UPDATE outcome SET status = ?1, little = ?2, place = ?3, body = ?4
    WHERE status IS NULL";
const LIVE: &str = "UPDATE forgotten SET life = life + 1 RETURNING life";

/// A store in a SQLite file.
pub struct Sqlite {
    link: Connection,
    path: PathBuf,
    /// The number of this guard's life.
    life: i64,
    _claim: Claim,
    identity: Identity,
}

/// What a row says, and in which life it was begun: no outcome where it is not done.
type Found = (Option<Outcome>, i64);

fn found_in(row: &Row<'_>) -> Result<Found> {
    let life = row.get(4)?;
    let Some(status) = row.get(0)? else { return Ok((None, life)) };
    let order = if row.get(1)? { Order::Little } else { Order::Big };
    let cuts = Cuts::read(row.get_ref(5)?.as_blob_or_null()?);
    Ok((Some(Outcome { status, order, place: row.get(2)?, body: row.get(3)?, cuts }), life))
}

fn order_of(outcome: &Outcome) -> bool {
    outcome.order == Order::Little
}

fn find(with: &Transaction<'_>, key: &Key) -> Result<Option<Found>> {
    let mut find = with.prepare_cached(FIND)?;
    find.query_row(params![key.client, key.number], found_in).optional()
}

fn execute(with: &Transaction<'_>, words: &str, values: impl rusqlite::Params) -> Result<usize> {
    with.prepare_cached(words)?.execute(values)
}

fn begin(with: &Transaction<'_>, life: i64, key: &Key, expiration: u64) -> Result<Done> {
    let values = params![key.client, key.number, expiration.to_be_bytes(), life];
    if execute(with, BEGIN, values)? == 1 {
        return Ok(Done::Begun(Begun::New));
    }
    Ok(match find(with, key)? {
        Some((Some(outcome), of)) => Done::Begun(Begun::Done { outcome, is_ours: of == life }),
        Some((None, _)) => Done::Waits,
        None => Done::Begun(Begun::Expired),
    })
}

fn finish(with: &Transaction<'_>, key: &Key, outcome: &Outcome) -> Result<Done> {
    let Outcome { status, place, body, cuts, .. } = outcome;
    let short = Some(body).filter(|body| body.len() <= SHORT);
    let cuts = cuts.octets();
    let values = params![key.client, key.number, status, order_of(outcome), place, short, cuts];
    if execute(with, FINISH, values)? == 1 {
        if short.is_none() {
            execute(with, BODY, params![key.client, key.number, body])?;
        }
        return Ok(Done::Finished(Ok(outcome.clone())));
    }
    let found = find(with, key)?.and_then(|(outcome, _)| outcome);
    Ok(Done::Finished(found.ok_or(Error::Forgotten)))
}

fn purge(with: &Transaction<'_>, now: u64, before: u64) -> Result<Done> {
    let of_row = |row: &Row<'_>| Ok((u64::from_be_bytes(row.get(0)?), row.get::<_, i64>(1)?));
    let mut expired = with.prepare_cached(EXPIRED)?;
    let rows = expired.query_map(params![now.to_be_bytes(), CHUNK], of_row)?;
    let rows = rows.collect::<Result<Vec<_>>>()?;
    for (_, id) in &rows {
        execute(with, TAKE_OUT, [id])?;
    }
    if let Some((last, _)) = rows.last() {
        execute(with, RAISE, params![(last + 1).to_be_bytes()])?;
    }
    let count = rows.len() as u64;
    let is_more = give_back(with)?;
    Ok(Done::Purged(before + count, count == CHUNK || is_more))
}

/// How many pages are free beyond as many as are used, and some.
fn spare(with: &Transaction<'_>) -> Result<i64> {
    Ok(2 * number(with, "freelist_count")? - number(with, "page_count")? - SPARE)
}

/// Gives pages that nothing needs back to the system, some at once: whether there are more. (What
/// goes is soon followed by as much that comes, so many stay.)
fn give_back(with: &Transaction<'_>) -> Result<bool> {
    let pages = spare(with)?;
    if pages <= 0 {
        return Ok(false);
    }
    with.pragma(None, "incremental_vacuum", pages.min(PAGES), |_| Ok(()))?;
    let left = spare(with)?;
    Ok(left > 0 && left < pages)
}

fn take(with: &Transaction<'_>, life: i64, step: &Step) -> Result<Done> {
    match step {
        Step::Begin(key, expiration) => begin(with, life, key, *expiration),
        Step::Finish(key, outcome) => finish(with, key, outcome),
        Step::Undo(key) => {
            execute(with, UNDO, params![key.client, key.number]).map(|_| Done::Undone)
        }
        Step::Purge(now, count) => purge(with, *now, *count),
        Step::Close => Ok(Done::Closed),
    }
}

/// Has what was begun in a file done, which is lost. Answers how many those were, and the number of
/// this guard's life.
fn begins_life(link: &mut Connection) -> Result<(usize, i64)> {
    let with = link.transaction_with_behavior(TransactionBehavior::Immediate)?;
    let maybe = Outcome::maybe();
    let values = params![maybe.status, order_of(&maybe), maybe.place, maybe.body];
    let lost = with.execute(LOST, values)?;
    let life = with.query_row(LIVE, [], |row| row.get(0))?;
    with.commit()?;
    Ok((lost, life))
}

impl Sqlite {
    /// Opens a file, or makes one.
    ///
    /// # Errors
    ///
    /// `Unusable`: it is no file of this program's, or of another version; another guard has it;
    /// it can't be written.
    pub fn open(path: &Path) -> std::result::Result<Sqlite, Error> {
        let say =
            |why: &dyn std::fmt::Display| Error::Unusable(format!("{}: {why}", path.display()));
        let claim = Claim::of(path).map_err(|why| say(&why))?;
        let mut link = Connection::open(path).map_err(|error| say(&error))?;
        let opened = tables::open(&mut link).map_err(|error| say(&error))?;
        opened.map_err(|why| say(&why))?;
        claim.closes_to_others().map_err(|error| say(&error))?;
        if let Err(error) = tables::loosen(&link) {
            warn!("{}: what is free in it is not given back: {error}", path.display());
        }
        let (lost, life) = begins_life(&mut link).map_err(|error| say(&error))?;
        if lost > 0 {
            warn!("{}: {lost} requests were under way when the guard was lost", path.display());
        }
        link.pragma_update(None, "journal_size_limit", LOG).map_err(|error| say(&error))?;
        let number = u32::try_from(life).unwrap_or(u32::MAX);
        let identity = Identity::open(&mut link, path, number)?;
        Ok(Sqlite { link, path: path.to_owned(), life, identity, _claim: claim })
    }

    /// Takes steps in one transaction: what comes of them, and its number, where it begins any.
    fn transact(&mut self, steps: &[&Step]) -> Result<(Vec<Done>, Option<i64>)> {
        let with = self.link.transaction_with_behavior(TransactionBehavior::Immediate)?;
        let mut order: Vec<usize> = (0..steps.len()).collect();
        // (what is to be undone was begun before what is to be begun)
        order.sort_by_key(|index| !matches!(steps[*index], Step::Undo(_)));
        let mut dones: Vec<(usize, Done)> = Vec::with_capacity(steps.len());
        for index in order {
            dones.push((index, take(&with, self.life, steps[index])?));
        }
        if steps.is_empty() {
            // (whether it can be written is to show)
            execute(&with, RAISE, params![0_u64.to_be_bytes()])?;
        }
        let begins = dones.iter().any(|(_, done)| matches!(done, Done::Begun(Begun::New)));
        let count = begins.then(|| counts(&with)).transpose()?;
        with.commit()?;
        dones.sort_by_key(|(index, _)| *index);
        Ok((dones.into_iter().map(|(_, done)| done).collect(), count))
    }
}

impl Database for Sqlite {
    async fn write(&mut self, steps: &[&Step]) -> std::result::Result<Vec<Done>, Error> {
        let path = self.path.display().to_string();
        let away = |error: &dyn std::fmt::Display| Error::Away(format!("{path}: {error}"));
        let (dones, count) = self.transact(steps).map_err(|error| away(&error))?;
        count.map_or(Ok(()), |count| self.identity.notes(count)).map_err(|error| away(&error))?;
        Ok(dones)
    }

    fn mark(&self) -> Option<Mark> {
        Some(self.identity.mark.clone())
    }

    async fn told(&mut self) {
        pending().await
    }

    fn is_told(&mut self) -> bool {
        false
    }

    /// Has the file have all: what others read meanwhile stays beside it until they are done.
    fn close(self) {
        let path = self.path.display();
        _ = self.link.busy_timeout(READERS);
        let moved = self.link.query_row("PRAGMA wal_checkpoint(TRUNCATE)", [], |row| row.get(0));
        match (moved, self.link.close()) {
            (Ok(0), Ok(())) => {}
            (Ok(_), Ok(())) => warn!("{path}: others read it, and {path}-wal stays until they end"),
            (Err(error), _) | (_, Err((_, error))) => error!("{path}: it is not closed: {error}"),
        }
    }
}

#[cfg(test)]
impl Sqlite {
    /// Has the file take so many pages at most.
    pub fn limit(&mut self, pages: u32) {
        self.link.pragma_update(None, "max_page_count", pages).unwrap();
    }
}
