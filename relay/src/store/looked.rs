//! What is done with a store in a SQLite file while its guard runs, or does not: it is shown, checked
//! and copied.

use super::files;
use super::tables::{self, number};
use lemonrudder::store::VERSION;
use rusqlite::{Connection, OpenFlags, Result, Row};
use std::fs::{self, File};
use std::path::Path;

/// What a done outcome has, and what a moment is.
const FAULTS: [(&str, &str); 4] = [
    (
        "SELECT count(*) FROM outcome WHERE length(expiration) <> 8
            OR status IS NOT NULL AND (status NOT BETWEEN 0 AND 5 OR little NOT IN (0, 1)
                OR place NOT BETWEEN 0 AND 7 OR little IS NULL OR place IS NULL)",
        "outcomes are none that a guard writes",
    ),
    (
        "SELECT count(*) FROM outcome_body
            WHERE id NOT IN (SELECT id FROM outcome WHERE status IS NOT NULL)",
        "bodies are of no outcome",
    ),
    (
        "SELECT count(*) FROM outcome WHERE status IS NOT NULL AND body IS NULL
            AND id NOT IN (SELECT id FROM outcome_body)",
        "outcomes have no body",
    ),
    (
        "SELECT abs(count(*) - 1) FROM forgotten WHERE length(moment) = 8",
        "marks are missing or too many",
    ),
];
const COUNTS: &str = "SELECT count(status), count(*) - count(status), min(expiration),
    max(expiration) FROM outcome";
const OCTETS: &str = "SELECT coalesce(sum(length(body)), 0)
    + (SELECT coalesce(sum(length(octets)), 0) FROM outcome_body) FROM outcome";
const LEAST: &str = "SELECT moment FROM forgotten";
const BEGUN: &str = "SELECT client, retention, expiration FROM outcome WHERE status IS NULL
    ORDER BY expiration";
const DAY: &str = "SELECT strftime('%Y-%m-%dT%H:%M:%SZ', ?1, 'unixepoch')";

/// Opens a store that is there, of any version of this program; nothing is changed in it.
fn opened(file: &Path) -> std::result::Result<Connection, String> {
    let say = |why: &dyn std::fmt::Display| format!("{}: {why}", file.display());
    // (who reads a file of SQLite's writes beside it)
    let flags = OpenFlags::SQLITE_OPEN_READ_WRITE | OpenFlags::SQLITE_OPEN_NO_MUTEX;
    let link = Connection::open_with_flags(file, flags).map_err(|error| say(&error))?;
    match tables::version_of(&link).map_err(|error| say(&error))? {
        Some(_) => Ok(link),
        None => Err(say(&"is no store of this program")),
    }
}

/// Opens a store of this version.
fn opened_now(file: &Path) -> std::result::Result<Connection, String> {
    let link = opened(file)?;
    match tables::version_of(&link) {
        Ok(Some(VERSION)) => Ok(link),
        _ => Err(format!("{}: is a store of another version of this program", file.display())),
    }
}

/// A moment as a day and a time of UTC, or as its count of 100 ns where it has none.
fn shown(with: &Connection, moment: Option<[u8; 8]>) -> Result<String> {
    let Some(octets) = moment else { return Ok("none".into()) };
    let count = u64::from_be_bytes(octets);
    let seconds = i64::try_from(count / 10_000_000).unwrap_or(i64::MAX) - EPOCH;
    let day: Option<String> = with.query_row(DAY, [seconds], |row| row.get(0))?;
    Ok(day.unwrap_or(count.to_string()))
}

/// The seconds from 15 October 1582 to 1 January 1970.
const EPOCH: i64 = 12_219_292_800;

/// What is shown of a store.
fn lines_of(with: &Connection) -> Result<Vec<String>> {
    type Counts = (i64, i64, Option<[u8; 8]>, Option<[u8; 8]>);
    let counts = |row: &Row<'_>| Ok((row.get(0)?, row.get(1)?, row.get(2)?, row.get(3)?));
    let (done, begun, first, last): Counts = with.query_row(COUNTS, [], counts)?;
    let octets: i64 = with.query_row(OCTETS, [], |row| row.get(0))?;
    let least: [u8; 8] = with.query_row(LEAST, [], |row| row.get(0))?;
    let mut lines = vec![
        format!("version {VERSION}"),
        format!("outcomes {done}"),
        format!("octets-of-bodies {octets}"),
        format!("first-expires {}", shown(with, first)?),
        format!("last-expires {}", shown(with, last)?),
        format!("forgotten-before {}", shown(with, Some(least).filter(|it| *it != [0; 8]))?),
        format!("pages {}", number(with, "page_count")?),
        format!("free-pages {}", number(with, "freelist_count")?),
        format!("begun {begun}"),
    ];
    let mut rows = with.prepare(BEGUN)?;
    let of_row =
        |row: &Row<'_>| Ok((row.get::<_, Vec<u8>>(0)?, row.get::<_, i32>(1)?, row.get(2)?));
    for row in rows.query_map([], of_row)? {
        let (client, number, expiration) = row?;
        let client = crate::wire::shown(&client);
        lines.push(format!("begun {client} {number} expires {}", shown(with, expiration)?));
    }
    Ok(lines)
}

/// What a store has, a line for each thing, and for each request that is under way.
///
/// # Errors
///
/// It can't be read.
pub fn show(file: &Path) -> std::result::Result<Vec<String>, String> {
    let mut link = opened_now(file)?;
    let read = link.transaction().and_then(|with| lines_of(&with));
    read.map_err(|error| format!("{}: {error}", file.display()))
}

/// What is wrong in a store of this version.
fn faults_in(with: &Connection) -> Result<Vec<String>> {
    let mut faults = Vec::new();
    with.pragma_query(None, "integrity_check", |row| {
        faults.push(row.get::<_, String>(0)?);
        Ok(())
    })?;
    faults.retain(|said| said != "ok");
    for (words, why) in FAULTS {
        let count: i64 = with.query_row(words, [], |row| row.get(0))?;
        faults.extend((count > 0).then(|| format!("{count} {why}")));
    }
    Ok(faults)
}

/// What is wrong in a store, each in a line.
#[must_use]
pub fn check(file: &Path) -> Vec<String> {
    let found = opened_now(file).and_then(|mut link| {
        let found = link.transaction().and_then(|with| faults_in(&with));
        found.map_err(|error| format!("{}: {error}", file.display()))
    });
    match found {
        Ok(faults) => faults.iter().map(|why| format!("{}: {why}", file.display())).collect(),
        Err(why) => vec![why],
    }
}

/// Makes a copy of a store as it is at a moment, which nobody else reads, and which is there once it
/// is whole and on the disk.
///
/// # Errors
///
/// Says why it can't; then there is none.
pub fn copy(file: &Path, to: &Path) -> std::result::Result<(), String> {
    let say = |why: &dyn std::fmt::Display| format!("{}: {why}", to.display());
    let link = opened(file)?;
    if to.exists() {
        return Err(say(&"is there already"));
    }
    let part = files::beside(to, "-part");
    _ = fs::remove_file(&part);
    let made = files::make_private(&part).map_err(|error| say(&error)).and_then(|()| {
        let name = part.to_str().ok_or_else(|| say(&"its name is no text"))?;
        link.execute("VACUUM INTO ?1", [name]).map_err(|error| say(&error))?;
        kept(&part, to).map_err(|error| say(&error))
    });
    if made.is_err() {
        _ = fs::remove_file(&part);
    }
    made
}

/// Gives a whole file its name, once all of it is on the disk; and then that is.
fn kept(part: &Path, to: &Path) -> std::io::Result<()> {
    File::open(part)?.sync_all()?;
    fs::rename(part, to)?;
    let folder = to.parent().filter(|it| !it.as_os_str().is_empty());
    File::open(folder.unwrap_or(Path::new(".")))?.sync_all()
}
