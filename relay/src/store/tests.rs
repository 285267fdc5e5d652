//! Tests of the stores: one table of steps over all of them, and what each has alone.

use super::memory::Memory;
use super::sqlite::Sqlite;
use super::writer::{self, Database, Done, Step};
use super::{Begun, Error, Key, Outcome, Store};
use crate::cuts::Cuts;
use crate::mark::Mark;
use futures_util::future::select_all;
use lemonrudder::store::SQLITE;
use lemonrudder::Order;
use std::collections::VecDeque;
use std::path::{Path, PathBuf};
use std::sync::atomic::{AtomicUsize, Ordering};
use std::sync::{Arc, Mutex};
use std::time::Duration;
use tokio::sync::Semaphore;
use tokio::task::{spawn, yield_now, JoinHandle};

mod files;
mod identity;
mod postgres;

/// A lease that no test outlives.
const LONG: Duration = Duration::from_secs(3600);

/// Where a body was cut, twice.
const CUTS: &[u8] = b"\0\0\0\x02\0\0\0\x04";

/// Steps, and what comes of each. `waits` is a begin that is not answered, `awaited` the first
/// answer of one of those. Behind `#` is said why.
const STEPS: &str = "
    begin a 1 100     | new
    finish a 1 one    | one
    begin a 1 100     | one
    begin a 1 7       | one        # (whatever it says of its expiration)
    begin a 2 100     | new
    begin a 2 100     | waits
    begin a 2 100     | waits
    undo a 2          |            # one of those who wait is the first now
    awaited           | new
    finish a 2 two    | two
    awaited           | two
    finish a 2 three  | two        # what the row says counts
    undo a 2          |            # what is done is not undone
    begin a 2 100     | two
    begin b 1 50      | new
    finish b 1 fifty  | fifty
    begin b 2 60      | new
    purge 50          | 0          # what expires at that moment has not expired
    purge 51          | 1
    begin b 1 50      | expired
    begin b 3 50      | expired    # W is 51
    begin b 3 51      | new
    undo b 3          |
    purge 99          | 0
    begin b 3 51      | new        # what is begun stays, and raises no W
    begin b 2 60      | waits
    purge 101         | 2
    begin a 1 100     | expired
    begin a 2 100     | expired
    finish b 2 late   | late       # it was begun before
    awaited           | late
    begin b 2 60      | late       # though it expires before W
    begin b 4 100     | expired
    begin b 4 101     | new
    finish c 1 x      | forgotten
    undo c 1          |
    begin a 1 18446744073709551615  | new     # W keeps out what is expired alone
    finish a 1 last   | last
    purge 18446744073709551615      | 1       # (b 2)
    begin a 1 1       | last
    begin e 1 200     | new
    finish e 1 cut    | cut        # .. with where it was cut
    begin e 1 200     | cut
    begin d 1 9223372036854775808   | new
    begin d -1 9223372036854775807  | new
    begin d -1 1      | waits
";

/// A file of a test's own, which is not there.
fn file(name: &str) -> PathBuf {
    let name = format!("lemonrudder-{}-{name}.sqlite", std::process::id());
    let file = std::env::temp_dir().join(name);
    for more in ["", "-wal", "-shm", "-journal", "-guard"] {
        _ = std::fs::remove_file(format!("{}{more}", file.display()));
    }
    file
}

fn key(client: &str, number: &str) -> Key {
    Key { client: client.into(), number: number.parse().unwrap() }
}

fn outcome(text: &str) -> Outcome {
    let order = if text.len() % 2 == 0 { Order::Big } else { Order::Little };
    let (status, place) =
        (u32::try_from(text.len()).unwrap(), if order == Order::Big { 0 } else { 4 });
    let cuts = if text.starts_with("cut") { Cuts::read(Some(CUTS)) } else { Cuts::default() };
    Outcome { place, cuts, ..Outcome::whole(status, order, text.into()) }
}

/// An outcome as the table says it.
fn said(is: &Outcome) -> String {
    if *is == Outcome::maybe() {
        return "maybe".into();
    }
    let text = String::from_utf8(is.body.clone()).unwrap();
    assert_eq!(*is, outcome(&text));
    text
}

fn of_error(error: &Error) -> String {
    match error {
        Error::Forgotten => "forgotten".into(),
        Error::Away(why) | Error::Unusable(why) => {
            assert!(!why.contains('\n'), "{why}");
            "away".into()
        }
    }
}

fn of_begun(begun: Result<Begun, Error>) -> String {
    match begun {
        Ok(Begun::New) => "new".into(),
        Ok(Begun::Expired) => "expired".into(),
        Ok(Begun::Done { outcome, is_ours: true }) => said(&outcome),
        Ok(Begun::Done { outcome, is_ours: false }) => format!("{} of another", said(&outcome)),
        Err(error) => of_error(&error),
    }
}

/// What takes the steps of a table.
struct Taker {
    store: Arc<Store>,
    waiting: Vec<JoinHandle<String>>,
}

impl Taker {
    fn new(store: Store) -> Taker {
        Taker { store: Arc::new(store), waiting: Vec::new() }
    }

    /// Begins in a task of its own.
    fn begins(&self, key: Key, expiration: u64) -> JoinHandle<String> {
        let store = self.store.clone();
        spawn(async move { of_begun(store.begin(&key, expiration).await) })
    }

    /// Waits until the store has looked at all that it was asked.
    async fn settle(&self) {
        yield_now().await;
        let nobody = Key { client: b"nobody".to_vec(), number: 0 };
        _ = self.store.undo(&nobody).await;
        for _ in 0..10 {
            yield_now().await;
        }
    }

    async fn take(&mut self, step: &str) -> String {
        match step.split_whitespace().collect::<Vec<_>>()[..] {
            ["begin", client, number, expiration] => {
                let begins = self.begins(key(client, number), expiration.parse().unwrap());
                self.settle().await;
                if begins.is_finished() {
                    return begins.await.unwrap();
                }
                self.waiting.push(begins);
                "waits".into()
            }
            ["finish", client, number, text] => {
                match self.store.finish(&key(client, number), outcome(text)).await {
                    Ok(outcome) => said(&outcome),
                    Err(error) => of_error(&error),
                }
            }
            ["undo", client, number] => {
                let undone = self.store.undo(&key(client, number)).await;
                undone.err().map_or(String::new(), |error| of_error(&error))
            }
            ["purge", moment] => match self.store.purge(moment.parse().unwrap()).await {
                Ok(count) => count.to_string(),
                Err(error) => of_error(&error),
            },
            ["awaited"] => {
                let (said, _, others) = select_all(self.waiting.drain(..)).await;
                self.waiting = others;
                said.unwrap()
            }
            _ => panic!("{step} is no step"),
        }
    }

    /// Takes the steps of a table.
    async fn table(&mut self, steps: &str) {
        for line in steps.lines().filter(|line| !line.trim().is_empty()) {
            let line = line.split('#').next().unwrap();
            let (step, want) = line.split_once('|').unwrap();
            assert_eq!(self.take(step).await, want.trim(), "{line}");
        }
    }
}

#[test]
fn a_system_exception_is_as_the_standard_writes_it() {
    let mut want = vec![0, 0, 0, 35];
    want.extend(b"IDL:omg.org/CORBA/COMM_FAILURE:1.0\0\0");
    want.extend([0, 0, 0, 0, 0, 0, 0, 2]);
    assert_eq!(Outcome::maybe(), Outcome::whole(2, Order::Big, want));
}

#[tokio::test]
async fn memory_takes_the_steps() {
    Taker::new(Store::Memory(Memory::default())).table(STEPS).await;
}

async fn over_file(file: &Path) -> Taker {
    Taker::new(Store::open(file.to_str().unwrap(), LONG).await.unwrap())
}

#[tokio::test]
async fn sqlite_takes_the_steps() {
    over_file(&file("steps")).await.table(STEPS).await;
}

#[tokio::test]
async fn a_file_outlives_its_guard() {
    let file = file("again");
    let mut first = over_file(&file).await;
    let steps = "
        begin a 1 100   | new
        finish a 1 one  | one
        begin a 2 100   | new
        begin a 3 10    | new
        finish a 3 ten  | ten
        purge 20        | 1
    ";
    first.table(steps).await;
    first.store.close().await;
    drop(first);
    let steps = "
        begin a 1 100   | one of another
        begin a 2 100   | maybe of another  # its guard lives no more
        finish a 2 two  | maybe
        begin a 4 10    | expired
        begin a 4 11    | new
        finish a 4 four | four
        begin a 4 11    | four
    ";
    over_file(&file).await.table(steps).await;
}

#[tokio::test]
async fn a_file_that_is_no_store_is_said_in_a_line() {
    let other = |words: &str, name: &str| {
        let file = file(name);
        rusqlite::Connection::open(&file).unwrap().execute_batch(words).unwrap();
        file
    };
    let text = file("text");
    std::fs::write(&text, "some text that is no database, and long enough".repeat(9)).unwrap();
    let taken = file("taken");
    let _first = over_file(&taken).await;
    for (file, why) in [
        (PathBuf::from("/nowhere/there"), "No such file"),
        (text, "file is not a database"),
        (other("CREATE TABLE some (one)", "other"), "of another program"),
        (other("CREATE TABLE outcome (one)", "namesake"), "of another program"),
        (
            other(&format!("{}; UPDATE forgotten SET version = 9", SQLITE.changes(0)), "version"),
            "another version",
        ),
        (taken, "locked"),
    ] {
        let opened = Store::open(file.to_str().unwrap(), LONG).await.err();
        let error = opened.unwrap_or_else(|| panic!("{file:?} is opened")).to_string();
        assert!(error.contains(why) && error.contains(file.to_str().unwrap()), "{error}");
        assert!(!error.contains('\n'), "{error}");
    }
}

/// What a database does with a write: it fails before, or behind it.
#[derive(Clone, Copy, PartialEq)]
enum Deed {
    Fails,
    IsLost,
}

/// What tests see and say of a database.
#[derive(Clone)]
struct Hand {
    deeds: Arc<Mutex<VecDeque<Deed>>>,
    /// How many steps each write had.
    batches: Arc<Mutex<Vec<usize>>>,
    /// Each write takes one.
    permits: Arc<Semaphore>,
    written: Arc<AtomicUsize>,
}

/// A SQLite file that fails where the hand says so.
struct Flaky {
    sqlite: Sqlite,
    hand: Hand,
}

impl Database for Flaky {
    async fn write(&mut self, steps: &[&Step]) -> Result<Vec<Done>, Error> {
        self.hand.permits.acquire().await.unwrap().forget();
        self.hand.batches.lock().unwrap().push(steps.len());
        let deed = self.hand.deeds.lock().unwrap().pop_front();
        if deed == Some(Deed::Fails) {
            return Err(Error::Away("it fails".into()));
        }
        let dones = self.sqlite.write(steps).await?;
        self.hand.written.fetch_add(1, Ordering::SeqCst);
        if deed == Some(Deed::IsLost) {
            return Err(Error::Away("the answer is lost".into()));
        }
        Ok(dones)
    }

    async fn told(&mut self) {
        self.sqlite.told().await;
    }

    fn mark(&self) -> Option<Mark> {
        self.sqlite.mark()
    }

    fn is_told(&mut self) -> bool {
        false
    }

    fn close(self) {
        self.sqlite.close();
    }
}

async fn flaky(name: &str, permits: usize) -> (Taker, Hand) {
    let hand = Hand {
        deeds: Arc::default(),
        batches: Arc::default(),
        permits: Arc::new(Semaphore::new(permits)),
        written: Arc::default(),
    };
    let (file, of_it) = (file(name), hand.clone());
    let steps = writer::start(move || Ok(Flaky { sqlite: Sqlite::open(&file)?, hand: of_it }));
    (Taker::new(Store::Written(steps.await.unwrap())), hand)
}

/// A count of permits that no test takes.
const ENOUGH: usize = 1 << 20;

#[tokio::test]
async fn what_a_database_fails_at_is_declined_or_held() {
    for (name, deed) in [("fails", Deed::Fails), ("lost", Deed::IsLost)] {
        let (mut taker, hand) = flaky(name, ENOUGH).await;
        taker.table("begin a 1 100 | new").await;
        hand.deeds.lock().unwrap().push_back(deed);
        assert_eq!(of_begun(taker.store.begin(&key("a", "2"), 100).await), "away", "{name}");
        assert!(!taker.store.ready().await);
        // (it is not begun, or is undone)
        taker.settle().await;
        assert!(taker.store.ready().await);
        taker.table("begin a 2 100 | new").await;
        for step in ["finish a 1 one | one", "finish a 2 two | two"] {
            hand.deeds.lock().unwrap().extend([deed, Deed::Fails]);
            taker.table(step).await;
        }
        taker.table("begin a 3 100 | new").await;
        hand.deeds.lock().unwrap().extend([deed, Deed::Fails]);
        let steps = "
            undo a 3        |
            begin a 3 100   | new
            begin a 3 100   | waits
        ";
        taker.table(steps).await;
    }
}

#[tokio::test]
async fn who_waits_and_fails_undoes_nothing_of_the_first() {
    for (name, deed) in [("waits-fails", Deed::Fails), ("waits-lost", Deed::IsLost)] {
        let (mut taker, hand) = flaky(name, ENOUGH).await;
        taker.table("begin a 1 100 | new").await;
        hand.deeds.lock().unwrap().push_back(deed);
        assert_eq!(of_begun(taker.store.begin(&key("a", "1"), 100).await), "away", "{name}");
        let steps = "
            begin a 1 100   | waits
            finish a 1 one  | one
            awaited         | one
        ";
        taker.settle().await;
        taker.table(steps).await;
    }
}

#[tokio::test]
async fn who_comes_while_one_is_written_is_in_the_next() {
    let (taker, hand) = flaky("group", 1).await;
    // the first write is that which shows whether it can be written; the next waits for a permit
    let mut begins = vec![taker.begins(key("a", "0"), 100)];
    while hand.written.load(Ordering::SeqCst) == 0 {
        yield_now().await;
    }
    begins.extend((1..65).map(|number| taker.begins(key("a", &number.to_string()), 100)));
    for _ in 0..100 {
        yield_now().await;
    }
    hand.permits.add_permits(ENOUGH);
    for begin in begins {
        assert_eq!(begin.await.unwrap(), "new");
    }
    let batches = hand.batches.lock().unwrap().clone();
    assert_eq!(batches[0], 0);
    assert_eq!(batches[1..].iter().sum::<usize>(), 65);
    assert!(batches.len() <= 3, "{batches:?}");
}

#[tokio::test]
async fn who_is_gone_leaves_nothing() {
    let (mut taker, hand) = flaky("gone", 1).await;
    let begins = taker.begins(key("a", "1"), 100);
    for _ in 0..10 {
        yield_now().await;
    }
    begins.abort();
    _ = begins.await;
    hand.permits.add_permits(ENOUGH);
    taker.settle().await;
    taker.table("begin a 1 100 | new").await;
}

#[tokio::test]
async fn a_full_disk_declines() {
    let mut sqlite = Sqlite::open(&file("full")).unwrap();
    let long = Outcome { body: vec![7; 1 << 20], ..outcome("long") };
    let steps =
        |name: &str| [Step::Begin(key(name, "1"), 100), Step::Finish(key(name, "1"), long.clone())];
    sqlite.limit(8);
    let steps = steps("a");
    let steps: Vec<&Step> = steps.iter().collect();
    let error = sqlite.write(&steps).await.unwrap_err();
    assert!(
        matches!(&error, Error::Away(why) if why.contains("full") && !why.contains('\n')),
        "{error}"
    );
    sqlite.limit(1 << 20);
    let dones = sqlite.write(&steps).await.unwrap();
    assert!(matches!(dones[..], [Done::Begun(Begun::New), Done::Finished(Ok(_))]), "{dones:?}");
}

#[tokio::test]
async fn a_store_that_is_closed_declines() {
    let mut taker = over_file(&file("closed")).await;
    taker.store.close().await;
    taker.table("begin a 1 100 | away").await;
}
