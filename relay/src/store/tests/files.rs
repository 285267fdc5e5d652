//! Tests of stores in files: what stands in them, who reads them, and what is done with them.

use super::{file, key, outcome, over_file};
use crate::store::sqlite::Sqlite;
use crate::store::writer::{Database, Done, Step};
use crate::store::{files, looked, tables, Begun, Outcome};
use lemonrudder::Order;
use std::fs::Permissions;
use std::os::unix::fs::PermissionsExt;
use std::path::{Path, PathBuf};

/// A file as version 2 made it: what is done, what is begun, and what has no octets.
const SECOND: &str = "
    CREATE TABLE outcome (
        client BLOB NOT NULL, number INTEGER NOT NULL, expiration BLOB NOT NULL,
        life INTEGER NOT NULL, status INTEGER, body_order INTEGER, place INTEGER, body BLOB,
        PRIMARY KEY (client, number)
    ) WITHOUT ROWID;
    CREATE INDEX outcome_by_expiration ON outcome (expiration) WHERE status IS NOT NULL;
    CREATE TABLE mark (least BLOB NOT NULL, life INTEGER NOT NULL);
    INSERT INTO mark VALUES (x'000000000000000b', 3);
    PRAGMA application_id = 1280463732;
    PRAGMA user_version = 2;
    INSERT INTO outcome VALUES (x'61', 1, x'0000000000000064', 3, 3, 1, 4, x'6f6e65');
    INSERT INTO outcome VALUES (x'61', 2, x'0000000000000064', 3, NULL, NULL, NULL, NULL);
    INSERT INTO outcome VALUES (x'61', 3, x'0000000000000064', 3, 0, 0, 0, x'');
";

/// .. as version 3 did, with what it was known by.
const THIRD: &str = "
    CREATE TABLE outcome (
        id INTEGER PRIMARY KEY, client BLOB NOT NULL, number INTEGER NOT NULL, expiration BLOB NOT NULL,
        life INTEGER NOT NULL, status INTEGER, body_order INTEGER, place INTEGER, body BLOB,
        UNIQUE (client, number)
    );
    CREATE INDEX outcome_by_expiration ON outcome (expiration) WHERE status IS NOT NULL;
    CREATE TABLE bodies (id INTEGER PRIMARY KEY, octets BLOB NOT NULL);
    CREATE TABLE mark (least BLOB NOT NULL, life INTEGER NOT NULL);
    INSERT INTO mark VALUES (x'000000000000000b', 3);
    PRAGMA application_id = 1280463732;
    PRAGMA user_version = 3;
    INSERT INTO outcome VALUES (7, x'61', 1, x'0000000000000064', 3, 3, 1, 4, x'6f6e65');
    INSERT INTO outcome VALUES (9, x'61', 2, x'0000000000000064', 3, NULL, NULL, NULL, NULL);
    INSERT INTO outcome VALUES (11, x'61', 3, x'0000000000000064', 3, 0, 0, 0, x'');
    INSERT INTO outcome VALUES (13, x'61', 4, x'0000000000000064', 3, 3, 0, 0, NULL);
    CREATE TABLE identity (store BLOB NOT NULL, count INTEGER NOT NULL);
    INSERT INTO identity VALUES (x'000102030405060708090a0b0c0d0e0f', 5);
";

/// .. and as servers of version 1 did, beside their accounts.
const FIRST: &str = "
    CREATE TABLE outcome (client BLOB NOT NULL, retention INTEGER NOT NULL, expiration BLOB NOT NULL,
        status INTEGER NOT NULL, little INTEGER NOT NULL, body BLOB NOT NULL,
        PRIMARY KEY (client, retention)) WITHOUT ROWID;
    CREATE INDEX outcome_by_expiration ON outcome (expiration);
    CREATE TABLE forgotten (version INTEGER NOT NULL, moment BLOB NOT NULL);
    CREATE TABLE account (name TEXT PRIMARY KEY, balance INTEGER NOT NULL) WITHOUT ROWID;
    INSERT INTO forgotten VALUES (1, x'000000000000000b');
    INSERT INTO outcome VALUES (x'61', 5, x'0000000000000064', 2, 0, x'6f6b');
    INSERT INTO account VALUES ('a', 7);
";

/// Who may read and write a file.
fn mode_of(file: &Path) -> u32 {
    std::fs::metadata(file).unwrap().permissions().mode() & 0o777
}

/// A file that others made.
fn made(name: &str, words: &str) -> (PathBuf, rusqlite::Connection) {
    let file = file(name);
    _ = std::fs::remove_file(files::beside(&file, "-begun"));
    let link = rusqlite::Connection::open(&file).unwrap();
    link.pragma_update(None, "journal_mode", "WAL").unwrap();
    link.execute_batch(words).unwrap();
    (file, link)
}

#[tokio::test]
async fn a_file_of_a_version_before_is_made_one_of_this() {
    let long = vec![b'x'; 300];
    let second = "INSERT INTO outcome VALUES (x'61', 4, x'0000000000000064', 3, 3, 0, 0, ?1)";
    let third = "INSERT INTO bodies VALUES (13, ?1)";
    for (name, words, row) in [("second", SECOND, second), ("third", THIRD, third)] {
        let (file, before) = made(name, words);
        before.execute(row, [&long]).unwrap();
        before.close().unwrap();
        std::fs::set_permissions(&file, Permissions::from_mode(0o644)).unwrap();
        for _ in 0..2 {
            let mut taker = over_file(&file).await;
            let begun = taker.store.begin(&key("a", "3"), 100).await;
            assert_eq!(begun, Ok(Begun::Done { outcome: outcome(""), is_ours: false }));
            let begun = taker.store.begin(&key("a", "4"), 100).await;
            let kept = Outcome::whole(3, Order::Big, long.clone());
            assert_eq!(begun, Ok(Begun::Done { outcome: kept, is_ours: false }));
            let steps = "
                begin a 1 100   | one of another
                begin a 2 100   | maybe of another
                begin b 1 10    | expired           # W is 11
                begin b 1 11    | new
                undo b 1        |
            ";
            taker.table(steps).await;
            for more in ["", "-wal", "-shm", "-guard"] {
                assert_eq!(mode_of(&files::beside(&file, more)), 0o600, "{more}");
            }
            assert_eq!(looked::check(&file), Vec::<String>::new());
            taker.store.close().await;
        }
        assert!(looked::show(&file).unwrap().contains(&"version 4".to_owned()));
        let now = rusqlite::Connection::open(&file).unwrap();
        // (a program of a version before refuses it by that)
        let numbers = ["auto_vacuum", "user_version"].map(|name| tables::number(&now, name));
        assert_eq!(numbers, [Ok(2), Ok(4)]);
    }
}

#[tokio::test]
async fn what_version_3_was_known_by_stays() {
    let (file, before) = made("third-known", THIRD);
    before.close().unwrap();
    let store: [u8; 16] = std::array::from_fn(|index| u8::try_from(index).unwrap());
    let beside = [&store[..], &5_i64.to_be_bytes()].concat();
    std::fs::write(files::beside(&file, "-begun"), beside).unwrap();
    let sqlite = Sqlite::open(&file).unwrap();
    let mark = sqlite.mark().unwrap();
    // (its last life was 3)
    assert_eq!((mark.store, mark.life), (store, 4));
}

#[tokio::test]
async fn a_guard_goes_on_with_what_servers_kept() {
    let (file, before) = made("first", FIRST);
    before.close().unwrap();
    let mut taker = over_file(&file).await;
    let kept = Outcome::whole(2, Order::Big, b"ok".to_vec());
    let begun = taker.store.begin(&key("a", "5"), 100).await;
    assert_eq!(begun, Ok(Begun::Done { outcome: kept, is_ours: false }));
    taker.table("begin b 1 10 | expired\nbegin b 1 11 | new\nfinish b 1 one | one").await;
    taker.store.close().await;
    assert_eq!(looked::check(&file), Vec::<String>::new());
    let now = rusqlite::Connection::open(&file).unwrap();
    let balance = now.query_row("SELECT balance FROM account", [], |row| row.get::<_, i64>(0));
    assert_eq!(balance, Ok(7));
}

/// A file of version 3 had no place for cuts.
#[tokio::test]
async fn a_file_gets_a_place_for_cuts() {
    let (file, before) = made("uncut", THIRD);
    before.close().unwrap();
    for life in ["new\nfinish c 2 cut | cut", "cut of another"] {
        let mut taker = over_file(&file).await;
        taker.table(&format!("begin a 1 100 | one of another\nbegin c 2 100 | {life}")).await;
        taker.store.close().await;
    }
}

#[tokio::test]
async fn closing_writes_all_to_the_file() {
    let (file, copy) = (file("closing"), file("closing-copy"));
    let mut taker = over_file(&file).await;
    for number in 0..20 {
        taker.table(&format!("begin a {number} 100 | new\nfinish a {number} one | one")).await;
    }
    taker.store.close().await;
    assert!(!files::beside(&file, "-wal").exists());
    std::fs::copy(&file, &copy).unwrap();
    let mut taker = over_file(&copy).await;
    for number in 0..20 {
        taker.table(&format!("begin a {number} 100 | one of another")).await;
    }
}

#[tokio::test]
async fn who_reads_it_at_its_end_keeps_none_of_it() {
    let file = file("reader");
    let mut taker = over_file(&file).await;
    taker.table("begin a 1 100 | new\nfinish a 1 one | one").await;
    let reader = rusqlite::Connection::open(&file).unwrap();
    reader.execute_batch("BEGIN; SELECT * FROM forgotten").unwrap();
    taker.store.close().await;
    drop(reader);
    assert!(!files::beside(&file, "-wal").exists());
    over_file(&file).await.table("begin a 1 100 | one of another").await;
}

/// Steps that are taken at once.
async fn takes(sqlite: &mut Sqlite, steps: &[Step]) -> Vec<Done> {
    sqlite.write(&steps.iter().collect::<Vec<_>>()).await.unwrap()
}

#[tokio::test]
async fn outcomes_share_pages_and_what_expired_gives_them_back() {
    const COUNT: usize = 4000;
    const OCTETS: usize = 1000;
    let file = file("pages");
    let size = || usize::try_from(std::fs::metadata(&file).unwrap().len()).unwrap();
    let body = Outcome { body: vec![7; OCTETS], ..outcome("long") };
    let mut sqlite = Sqlite::open(&file).unwrap();
    for begin in (0..COUNT).step_by(500) {
        let keys = (begin..begin + 500).map(|number| key("retry.0123456789", &number.to_string()));
        let steps =
            keys.flat_map(|key| [Step::Begin(key.clone(), 100), Step::Finish(key, body.clone())]);
        takes(&mut sqlite, &steps.collect::<Vec<_>>()).await;
    }
    sqlite.close();
    assert!(size() < COUNT * OCTETS * 3 / 2, "{}", size());
    let mut sqlite = Sqlite::open(&file).unwrap();
    let mut count = 0;
    while let [Done::Purged(all, true)] = takes(&mut sqlite, &[Step::Purge(101, count)]).await[..] {
        assert!(all >= count);
        count = all;
    }
    assert_eq!(count, COUNT as u64);
    sqlite.close();
    // (a mebibyte may stay, beside the pages of empty tables)
    assert!(size() < (1 << 20) + (1 << 17), "{}", size());
}

#[tokio::test]
async fn a_store_is_looked_into_while_its_guard_runs() {
    let (file, to) = (file("looked"), file("looked-copy"));
    let mut taker = over_file(&file).await;
    // (a count of 100 ns since 15 October 1582: 1 January 1970, and a second more)
    let steps = "
        begin a 1 122192928010000000 | new
        finish a 1 one               | one
        begin a 2 122192928000000000 | new
    ";
    taker.table(steps).await;
    let shown = looked::show(&file).unwrap();
    for line in [
        "version 4",
        "outcomes 1",
        "octets-of-bodies 3",
        "first-expires 1970-01-01T00:00:00Z",
        "last-expires 1970-01-01T00:00:01Z",
        "forgotten-before none",
        "begun 1",
        "begun a 2 expires 1970-01-01T00:00:00Z",
    ] {
        assert!(shown.contains(&line.to_owned()), "{line}: {shown:?}");
    }
    assert_eq!(looked::check(&file), Vec::<String>::new());
    assert_eq!(looked::copy(&file, &to), Ok(()));
    assert_eq!(mode_of(&to), 0o600);
    assert!(looked::copy(&file, &to).unwrap_err().ends_with("is there already"));
    // (its guard goes on, and the copy is of before)
    taker.table("finish a 2 two | two\nbegin a 3 122192928010000000 | new").await;
    let steps = "
        begin a 1 122192928010000000 | one of another
        begin a 2 122192928000000000 | maybe of another
        begin a 3 122192928010000000 | new
    ";
    over_file(&to).await.table(steps).await;
}

#[tokio::test]
async fn what_is_wrong_in_a_store_is_said() {
    let file = file("wrong");
    let mut taker = over_file(&file).await;
    taker.table("begin a 1 100 | new\nfinish a 1 one | one").await;
    let spoils = rusqlite::Connection::open(&file).unwrap();
    for (words, why) in [
        ("INSERT INTO outcome_body VALUES (77, x'00')", "1 bodies are of no outcome"),
        ("UPDATE outcome SET body = NULL", "1 outcomes have no body"),
        ("UPDATE outcome SET place = 8", "1 outcomes are none that a guard writes"),
        ("DELETE FROM forgotten", "1 marks are missing or too many"),
    ] {
        spoils.execute_batch(words).unwrap();
        let found = looked::check(&file);
        assert!(found.contains(&format!("{}: {why}", file.display())), "{words}: {found:?}");
    }
    for file in [PathBuf::from("/nowhere/there"), super::file("none")] {
        assert_eq!((looked::check(&file).len(), looked::show(&file).is_err()), (1, true));
        assert!(looked::copy(&file, &file).is_err() && !file.exists());
    }
}

#[tokio::test]
async fn bodies_of_each_length_are_kept() {
    let file = file("lengths");
    let kept =
        [0, 1, 255, 256, 257, 70_000].map(|size| Outcome { body: vec![7; size], ..outcome("") });
    for is_again in [false, true] {
        let taker = over_file(&file).await;
        for (number, outcome) in kept.iter().enumerate() {
            let key = key("a", &number.to_string());
            let wanted = Begun::Done { outcome: outcome.clone(), is_ours: false };
            let begun = if is_again { wanted } else { Begun::New };
            assert_eq!(taker.store.begin(&key, 100).await, Ok(begun));
            assert_eq!(taker.store.finish(&key, outcome.clone()).await, Ok(outcome.clone()));
        }
        assert_eq!(looked::check(&file), Vec::<String>::new());
        taker.store.close().await;
    }
}
