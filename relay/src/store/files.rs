//! The files of a store: nobody else reads them, and one guard at a time has them.
//!
//! The guard's claim is a lock on a file of its own beside the store, so that others can read the
//! store while it runs. The system ends it with the process, however that ends.

use rusqlite::{Connection, ErrorCode};
use std::ffi::OsString;
use std::fs::{self, OpenOptions, Permissions};
use std::io::{self, ErrorKind};
use std::os::unix::fs::{OpenOptionsExt, PermissionsExt};
use std::path::{Path, PathBuf};
use std::time::Duration;

/// Who may read and write.
const MODE: u32 = 0o600;
/// How long a guard that ends has for that.
const PATIENCE: Duration = Duration::from_secs(2);

/// A guard's claim on a file, as long as it is kept.
pub struct Claim {
    file: PathBuf,
    _lock: Connection,
}

/// A file whose name has something more at its end.
pub fn beside(file: &Path, more: &str) -> PathBuf {
    let mut name = OsString::from(file);
    name.push(more);
    name.into()
}

/// The one name of a file, whatever links lead to it.
fn real(file: &Path) -> io::Result<PathBuf> {
    file.canonicalize().or_else(|error| {
        let folder = file.parent().filter(|it| !it.as_os_str().is_empty());
        let name = file.file_name().ok_or(error)?;
        Ok(folder.unwrap_or(Path::new(".")).canonicalize()?.join(name))
    })
}

/// Makes a file, where it is not there, that nobody but the owner reads and writes.
pub fn make_private(file: &Path) -> io::Result<()> {
    match OpenOptions::new().write(true).create_new(true).mode(MODE).open(file) {
        Err(error) if error.kind() == ErrorKind::AlreadyExists => Ok(()),
        made => made.map(drop),
    }
}

/// Has nobody but the owner read and write a file, if it is there.
fn close_to_others(file: &Path) -> io::Result<()> {
    // (by its name: who opens and closes a file of SQLite's gives up all locks of the process on it)
    match fs::metadata(file) {
        Ok(known) if known.permissions().mode() & 0o777 == MODE => Ok(()),
        Ok(_) => fs::set_permissions(file, Permissions::from_mode(MODE)),
        Err(error) if error.kind() == ErrorKind::NotFound => Ok(()),
        Err(error) => Err(error),
    }
}

/// Takes a lock that one process has at a time.
fn lock(file: &Path) -> rusqlite::Result<Connection> {
    let link = Connection::open(file)?;
    link.busy_timeout(PATIENCE)?;
    // (nothing is ever written: no journal stands beside it)
    link.execute_batch("PRAGMA journal_mode = MEMORY; BEGIN EXCLUSIVE")?;
    Ok(link)
}

impl Claim {
    /// Claims a file for this guard, and makes it where it is not there.
    ///
    /// # Errors
    ///
    /// Says why it can't: another guard has it, or it can't be made.
    pub fn of(file: &Path) -> Result<Claim, String> {
        let file = real(file).map_err(|error| error.to_string())?;
        let place = beside(&file, "-guard");
        make_private(&place).map_err(|error| error.to_string())?;
        let locked = lock(&place).map_err(|error| match error.sqlite_error_code() {
            Some(ErrorCode::DatabaseBusy) => "is locked: another guard has it".to_owned(),
            _ => format!("its lock {}: {error}", place.display()),
        })?;
        make_private(&file).map_err(|error| error.to_string())?;
        Ok(Claim { file, _lock: locked })
    }

    /// Has nobody but the owner read and write the file, and what SQLite has beside it.
    pub fn closes_to_others(&self) -> io::Result<()> {
        let all = ["", "-wal", "-shm"].map(|more| beside(&self.file, more));
        all.iter().try_for_each(|file| close_to_others(file))
    }
}
