//! The SQLite file: accounts, the outcomes of requests by their keys, and the mark W, the greatest
//! expiration that was taken out, plus 1. A request that expires before W is refused, whatever
//! clocks say. In memory it is the same, and at its end a file, which the next one takes over.

use lemonrudder::store::{SQLITE, VERSION};
use lemonrudder::{cdr::Writer, Error, FtRequest, Moment, Order, Outcome, Status};
use rusqlite::{params, Connection, DatabaseName, OptionalExtension};
use std::{fs, path::Path, time::Duration};

pub const OVERDRAWN: &str = "IDL:Bank/Overdrawn:1.0";
const ACCOUNTS: &str = "
    CREATE TABLE IF NOT EXISTS account (name TEXT PRIMARY KEY, balance INTEGER NOT NULL)
        WITHOUT ROWID;
    COMMIT;";

/// Why a transaction has to be undone, in a line.
pub struct Failure(String);

impl From<rusqlite::Error> for Failure {
    fn from(error: rusqlite::Error) -> Failure {
        Failure(error.to_string())
    }
}

impl From<std::io::Error> for Failure {
    fn from(error: std::io::Error) -> Failure {
        Failure(error.to_string())
    }
}

impl From<Error> for Failure {
    fn from(error: Error) -> Failure {
        Failure(error.to_string())
    }
}

/// What names a request on each of its ways, and up to when it counts.
pub struct Key {
    client: Vec<u8>,
    retention: i32,
    expiration: u64,
}

impl Key {
    pub fn of(said: &FtRequest<'_>) -> Key {
        let FtRequest { client_id, retention_id, expiration } = said;
        Key { client: client_id.to_vec(), retention: *retention_id, expiration: expiration.0 }
    }
}

/// A file, which is opened again where it failed.
pub struct Store {
    path: String,
    file: Option<Connection>,
    /// W, in a transaction.
    least: u64,
    said: String,
}

/// A moment as it is stored, so that it compares as octets do.
fn octets(moment: u64) -> [u8; 8] {
    moment.to_be_bytes()
}

/// Where a store in memory is handed over.
fn handed(path: &str) -> Option<&str> {
    path.strip_prefix("memory:")
}

/// Makes the tables where they are missing, and those of an earlier version these.
fn make_tables(file: &Connection) -> Result<(), Failure> {
    let number = |name| file.query_row(SQLITE.named(name), [], |row| row.get::<_, Option<i32>>(0));
    file.execute_batch("PRAGMA journal_mode = WAL; PRAGMA synchronous = FULL; BEGIN IMMEDIATE")?;
    let Some(found) = number("found")? else {
        return Err(Failure("its table outcome is of another program".into()));
    };
    file.execute_batch(&SQLITE.changes(found))?;
    let version = number("version")?.unwrap_or(0);
    if version != VERSION {
        return Err(Failure(format!("it has outcomes of version {version}, and not {VERSION}")));
    }
    Ok(file.execute_batch(ACCOUNTS)?)
}

fn open(path: &str) -> Result<Connection, Failure> {
    let last = handed(path).filter(|it| Path::new(it).exists());
    let mut file = match handed(path) {
        Some(_) => Connection::open_in_memory()?,
        None => Connection::open(path)?,
    };
    if let Some(last) = last {
        // (which says why it is none, if it is)
        Connection::open(last)?.query_row("SELECT count(*) FROM sqlite_master", [], |_| Ok(()))?;
        file.restore(DatabaseName::Main, last, None::<fn(_)>)?;
    }
    file.busy_timeout(Duration::from_secs(5))?;
    make_tables(&file)?;
    if let Some(last) = last {
        fs::remove_file(last)?;
    }
    Ok(file)
}

impl Store {
    pub fn open(path: String) -> Store {
        let mut store = Store { path, file: None, least: 0, said: String::new() };
        if let Err(failure) = store.opened() {
            store.undo(&failure);
        }
        store
    }

    fn opened(&mut self) -> Result<&Connection, Failure> {
        let file = match self.file.take() {
            Some(file) => file,
            None => open(&self.path)?,
        };
        Ok(self.file.insert(file))
    }

    pub fn begin(&mut self) -> Result<(), Failure> {
        let file = self.opened()?;
        file.execute_batch("BEGIN IMMEDIATE")?;
        let least = file.query_row(SQLITE.named("least"), [], |row| row.get(0))?;
        self.least = u64::from_be_bytes(least);
        Ok(())
    }

    pub fn commit(&mut self) -> Result<(), Failure> {
        self.opened()?.execute_batch("COMMIT")?;
        self.said.clear();
        Ok(())
    }

    /// Undoes a transaction, and says why, once for each reason. What can't be undone is closed.
    pub fn undo(&mut self, failure: &Failure) {
        if self.said != failure.0 {
            eprintln!("durable-bank: {}", failure.0);
            self.said.clone_from(&failure.0);
        }
        self.file = self
            .file
            .take()
            .filter(|file| file.is_autocommit() || file.execute_batch("ROLLBACK").is_ok());
    }

    /// Hands over what is in memory, by a file that is there as a whole or not at all.
    pub fn hand_over(&self) {
        let (Some(path), Some(file)) = (handed(&self.path), &self.file) else { return };
        let new = format!("{path}.new");
        let write = || -> Result<(), Failure> {
            _ = fs::remove_file(&new);
            file.execute("VACUUM INTO ?", [&new])?;
            Ok(fs::rename(&new, path)?)
        };
        if let Err(failure) = write() {
            eprintln!("durable-bank: {path}: nothing is handed over: {}", failure.0);
        }
    }

    pub fn find(&mut self, key: &Key) -> Result<Option<Outcome>, Failure> {
        let mut statement = self.opened()?.prepare_cached(SQLITE.named("find"))?;
        let mut rows = statement.query(params![key.client, key.retention])?;
        let row = rows.next()?.ok_or_else(|| Failure("it has no mark".into()))?;
        let Some(status) = row.get(1)? else { return Ok(None) };
        let order = if row.get(2)? { Order::Little } else { Order::Big };
        let status =
            Status::from_number(status).ok_or_else(|| Failure(format!("status {status}")))?;
        Ok(Some(Outcome { status, order, body: row.get(3)? }))
    }

    pub fn keep(&mut self, key: &Key, outcome: &Outcome) -> Result<(), Failure> {
        let is_little = outcome.order == Order::Little;
        let (expiration, status) = (octets(key.expiration), outcome.status as u32);
        let values =
            params![key.client, key.retention, expiration, status, is_little, outcome.body];
        match self.opened()?.prepare_cached(SQLITE.named("keep"))?.execute(values)? {
            1 => Ok(()),
            _ => Err(Failure("it expires before W".into())),
        }
    }

    /// Whether it may be that an outcome of it was taken out.
    pub fn is_forgotten(&self, key: &Key) -> bool {
        key.expiration < self.least
    }

    /// Changes the balance of an account: the outcome is the balance, or Overdrawn with it.
    pub fn change(&mut self, account: &str, amount: i64) -> Result<Outcome, Failure> {
        let file = self.opened()?;
        let mut statement = file.prepare_cached("SELECT balance FROM account WHERE name = ?")?;
        let balance = statement.query_row([account], |row| row.get(0)).optional()?.unwrap_or(0i64);
        let mut body = Writer::new(Order::Big);
        let Some(after) = balance.checked_add(amount).filter(|it| *it >= 0) else {
            body.string(OVERDRAWN)?.longlong(balance)?;
            return Ok(outcome(Status::UserException, body));
        };
        if amount != 0 {
            let mut statement = file.prepare_cached("REPLACE INTO account VALUES (?, ?)")?;
            statement.execute(params![account, after])?;
            super::reach("changed");
        }
        body.longlong(after)?;
        Ok(outcome(Status::NoException, body))
    }

    /// Takes outcomes out that expired, and moves W.
    pub fn purge(&mut self) {
        if self.file.is_none() {
            return;
        }
        if let Err(failure) = self.take_out(Moment::now().0) {
            self.undo(&failure);
        }
    }

    fn take_out(&mut self, moment: u64) -> Result<(), Failure> {
        self.begin()?;
        let file = self.opened()?;
        let moment = octets(moment);
        let greatest: Option<[u8; 8]> =
            file.query_row(SQLITE.named("greatest"), [moment], |row| row.get(0))?;
        if let Some(greatest) = greatest.map(u64::from_be_bytes) {
            file.execute(SQLITE.named("raise"), [octets(greatest.saturating_add(1))])?;
            file.execute(SQLITE.named("take out"), [moment])?;
        }
        self.commit()
    }
}

fn outcome(status: Status, body: Writer) -> Outcome {
    Outcome { status, order: body.order(), body: body.into_octets() }
}

/// The outcome of `_is_a` and `_non_existent`.
pub fn is(is_so: bool) -> Result<Outcome, Failure> {
    let mut body = Writer::new(Order::Big);
    body.boolean(is_so)?;
    Ok(outcome(Status::NoException, body))
}
