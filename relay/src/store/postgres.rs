//! A store in PostgreSQL, that several guards share.
//!
//! A guard's life is a row with the moment until which it lives, by the clock of the database,
//! which it renews. What is begun carries the number of that row. Each transaction of a guard has
//! an advisory lock with others, and one that takes out expired rows has it alone, so that W is
//! never read while it is raised.

use super::secured::Secured;
use super::writer::{Database, Done, Step};
use super::{Begun, Error, Key, Outcome};
use crate::cuts::Cuts;
use crate::mark::{random, Mark, Random};
use futures_util::future::{poll_fn, try_join_all};
use lemonrudder::store::{POSTGRES, VERSION};
use lemonrudder::Order;
use std::cell::Cell;
use std::sync::Arc;
use std::time::Duration;
use tokio::sync::watch;
use tokio::time::{sleep, timeout, timeout_at, Instant};
use tokio_postgres::config::{SslMode, TargetSessionAttrs};
use tokio_postgres::types::ToSql;
use tokio_postgres::{AsyncMessage, Client, Config, Connection, NoTls, Row, Socket, Statement};

type Failure = tokio_postgres::Error;
/// The version of tables, and what their store is known by.
type Known = (Option<i32>, Mark);
/// What a statement is given that has a request done.
type Values<'a> = [&'a (dyn ToSql + Sync); 8];

/// How long it takes at most to connect.
const PATIENCE: Duration = Duration::from_secs(3);
/// Rows that one transaction takes out at most.
const CHUNK: i64 = 1000;

/// Of a session: a guard that is stopped amid a transaction holds up nobody for long, and what is
/// committed lasts.
const SESSION: &str = "
    SET client_min_messages = warning;
    SET idle_in_transaction_session_timeout = '2s';
    SELECT set_config('synchronous_commit', 'on', false)
        WHERE current_setting('synchronous_commit') IN ('off', 'local');
    SELECT set_config('default_transaction_isolation', 'read committed', false);
";
/// A guard has the tables in a schema of its own, but where its address names another one.
const SCHEMA: &str = "
    SELECT pg_advisory_xact_lock(1280463732, 2);
    CREATE SCHEMA IF NOT EXISTS lemonrudder;
";
const PATH: &str = "SET search_path = lemonrudder";
/// .. with a row for each life of a guard, and what the store is known by, as it was drawn here.
const GUARDS: &str = "
    CREATE TABLE IF NOT EXISTS guard (
        id bigint GENERATED ALWAYS AS IDENTITY PRIMARY KEY, until timestamptz NOT NULL);
    CREATE TABLE IF NOT EXISTS identity (store bytea NOT NULL);
    INSERT INTO identity SELECT '\\x{drawn}' WHERE NOT EXISTS (SELECT 1 FROM identity);
";
const HAS_GUARDS: &str =
    "SELECT to_regclass('guard') IS NOT NULL AND to_regclass('identity') IS NOT NULL";
/// .. and as it is another one in another cluster, once a standby has taken over, after a recovery to an
/// earlier moment, and where the table was made anew from a dump.
const MARK: &str = "SELECT substring(sha256(convert_to(concat_ws(' ', encode(store, 'hex'),
        (SELECT system_identifier FROM pg_control_system()),
        left(pg_walfile_name(pg_current_wal_lsn()), 8),
        'identity'::regclass::oid), 'UTF8')) FOR 16) FROM identity";
const LISTEN: &str = "LISTEN lemonrudder";
const NOTIFY: &str = "NOTIFY lemonrudder";
/// Another connection of this guard's ends, with what it had under way.
const FENCE: &str = "SELECT pg_terminate_backend(pid) FROM pg_stat_activity
    WHERE pid = $1 AND backend_start = $2::text::timestamptz";
const WHO: &str = "SELECT pg_backend_pid(), backend_start::text FROM pg_stat_activity
    WHERE pid = pg_backend_pid()";

/// How a transaction begins: with others, and alone.
const SHARE: &str = "BEGIN; SELECT pg_advisory_xact_lock_shared(1280463732, 1)";
const LOCK: &str = "BEGIN; SELECT pg_advisory_xact_lock(1280463732, 1)";

/// The statements of a session, in the order of `Statements`.
const STATEMENTS: [&str; 11] = [
    "INSERT INTO guard (id, until) OVERRIDING SYSTEM VALUE
        VALUES ($1, clock_timestamp() + make_interval(secs => $2))
        ON CONFLICT (id) DO UPDATE SET until = excluded.until",
    "INSERT INTO outcome (client, retention, expiration, life)
        SELECT $1::bytea, $2::integer, $3::bytea, $4::bigint
        WHERE $3 >= (SELECT moment FROM forgotten)
        ON CONFLICT DO NOTHING",
    "SELECT status, little, place, body, client IS NOT NULL, $3 < moment, life, cuts
        FROM forgotten LEFT JOIN outcome ON client = $1 AND retention = $2",
    "UPDATE outcome SET status = $4, little = $5, place = $6, body = $7, cuts = $8
        WHERE client = $1 AND retention = $2 AND life <> $3 AND status IS NULL
        AND NOT EXISTS (SELECT 1 FROM guard
                        WHERE id = outcome.life AND until >= clock_timestamp())
        RETURNING waited",
    "UPDATE outcome SET waited = true
        WHERE client = $1 AND retention = $2 AND status IS NULL",
    "UPDATE outcome SET status = $4, little = $5, place = $6, body = $7, cuts = $8
        WHERE client = $1 AND retention = $2 AND life = $3 AND status IS NULL RETURNING waited",
    "DELETE FROM outcome
        WHERE client = $1 AND retention = $2 AND life = $3 AND status IS NULL RETURNING waited",
    "DELETE FROM outcome USING (
            SELECT client AS c, retention AS n FROM outcome
            LEFT JOIN guard ON id = life
            WHERE expiration < $1
            AND (status IS NOT NULL OR until IS NULL OR until < clock_timestamp())
            ORDER BY expiration LIMIT $2) AS expired
        WHERE client = c AND retention = n RETURNING expiration",
    "UPDATE forgotten SET moment = greatest(moment, $1)",
    "DELETE FROM guard WHERE until < clock_timestamp() - interval '1 day'",
    "DELETE FROM guard WHERE id = $1",
];

/// The statements of a session.
struct Statements {
    renew: Statement,
    begin: Statement,
    find: Statement,
    lose: Statement,
    wait: Statement,
    finish: Statement,
    undo: Statement,
    take_out: Statement,
    raise: Statement,
    clean: Statement,
    leave: Statement,
}

/// A session: its client, its statements, and what other sessions know it by.
struct Link {
    client: Client,
    says: Statements,
    who: (i32, String),
    guard: i64,
    lease: Duration,
}

/// A store in PostgreSQL.
pub struct Postgres {
    config: Config,
    lease: Duration,
    /// The number of this guard's life, once it has one.
    guard: Option<i64>,
    link: Option<Link>,
    /// What it is known by, as of the last session.
    mark: Option<Mark>,
    /// The session before, which may have something under way.
    before: Option<(i32, String)>,
    renewed: Instant,
    /// What other guards tell, and when what they do was last looked at.
    tells: Arc<watch::Sender<()>>,
    news: watch::Receiver<()>,
    looked: Instant,
}

/// What went wrong, in a line.
fn line(error: &Failure) -> String {
    match error.as_db_error() {
        Some(of_database) => of_database.message().replace('\n', " "),
        None => error.to_string().replace('\n', " "),
    }
}

fn away(error: &Failure) -> Error {
    Error::Away(format!("PostgreSQL: {}", line(error)))
}

/// Takes what a session says, until it ends.
async fn drive<T>(mut connection: Connection<Socket, T>, tells: Arc<watch::Sender<()>>)
where
    T: tokio::io::AsyncRead + tokio::io::AsyncWrite + Unpin,
{
    while let Some(Ok(message)) = poll_fn(|context| connection.poll_message(context)).await {
        if let AsyncMessage::Notification(_) = message {
            tells.send_replace(());
        }
    }
    // (that it has ended shows where it is used next)
    tells.send_replace(());
}

async fn statements(client: &Client) -> Result<Statements, Failure> {
    let all = try_join_all(STATEMENTS.iter().map(|text| client.prepare(text))).await?;
    let mut all = all.into_iter();
    let mut next = || all.next().expect("there are as many as are named");
    Ok(Statements {
        renew: next(),
        begin: next(),
        find: next(),
        lose: next(),
        wait: next(),
        finish: next(),
        undo: next(),
        take_out: next(),
        raise: next(),
        clean: next(),
        leave: next(),
    })
}

/// A number that a statement of the tables says, if it says one.
async fn said(client: &Client, name: &str) -> Result<Option<i32>, Failure> {
    client.query_one(POSTGRES.named(name), &[]).await?.try_get(0)
}

/// Makes the tables where there are none, or of those of a version before, in a transaction, and
/// answers their version; none, where they are another program's.
async fn make_tables(client: &Client) -> Result<Option<i32>, Failure> {
    client.batch_execute("BEGIN").await?;
    client.batch_execute(POSTGRES.named("lock")).await?;
    let found = said(client, "found").await?;
    let version = match found {
        Some(found) => {
            client.batch_execute(&POSTGRES.changes(found)).await?;
            said(client, "version").await?
        }
        None => None,
    };
    client.batch_execute("COMMIT").await?;
    Ok(version)
}

/// Has the tables be there, and answers their version, and what the store is known by: as it was
/// made, or as it is drawn.
async fn prepare(client: &Client, has_path: bool, drawn: Random) -> Result<Known, Failure> {
    client.batch_execute(SESSION).await?;
    if !has_path {
        let known = client.query_one("SELECT to_regnamespace('lemonrudder') IS NOT NULL", &[]);
        if !known.await?.get::<_, bool>(0) {
            client.batch_execute(SCHEMA).await?;
        }
        client.batch_execute(PATH).await?;
    }
    let version = make_tables(client).await?;
    if version != Some(VERSION) {
        return Ok((version, Mark::default()));
    }
    if !client.query_one(HAS_GUARDS, &[]).await?.get::<_, bool>(0) {
        let drawn: String = drawn.iter().map(|octet| format!("{octet:02x}")).collect();
        let guards = GUARDS.replace("{drawn}", &drawn);
        client
            .batch_execute(&format!("BEGIN; {}; {guards} COMMIT", POSTGRES.named("lock")))
            .await?;
    }
    let row = client.query_one(MARK, &[]).await?;
    let store = row.try_get::<_, Vec<u8>>(0)?.try_into().unwrap_or_default();
    Ok((version, Mark { store, ..Mark::default() }))
}

/// Ends a session of this guard's that may have something under way, and waits until it has ended.
async fn fence(client: &Client, who: &(i32, String)) -> Result<(), Failure> {
    while !client.query(FENCE, &[&who.0, &who.1]).await?.is_empty() {
        sleep(Duration::from_millis(10)).await;
    }
    Ok(())
}

fn seconds(time: Duration) -> f64 {
    time.as_secs_f64()
}

fn values_of(outcome: &Outcome) -> (i32, i32, i32) {
    let status = i32::try_from(outcome.status).unwrap_or(i32::MAX);
    (status, (outcome.order == Order::Little).into(), outcome.place.into())
}

/// What a row says: nothing where it is begun.
fn outcome_of(row: &Row) -> Result<Option<Outcome>, Failure> {
    let Some(status) = row.try_get::<_, Option<i32>>(0)? else { return Ok(None) };
    let order = if row.try_get::<_, i32>(1)? == 1 { Order::Little } else { Order::Big };
    let status = u32::try_from(status).unwrap_or(u32::MAX);
    let place = u8::try_from(row.try_get::<_, i32>(2)?).unwrap_or(0);
    let cuts = Cuts::read(row.try_get(7)?);
    Ok(Some(Outcome { status, order, place, body: row.try_get(3)?, cuts }))
}

/// A transaction of a session.
struct Transaction<'a> {
    link: &'a Link,
    /// Whether another guard waits for what it changes.
    is_waited_for: Cell<bool>,
}

impl Transaction<'_> {
    /// Whether a statement changed its row; who waits for that is to be told.
    fn changed(&self, rows: &[Row]) -> Result<bool, Failure> {
        if let Some(row) = rows.first() {
            self.is_waited_for.set(self.is_waited_for.get() || row.try_get(0)?);
        }
        Ok(!rows.is_empty())
    }

    async fn begin(&self, key: &Key, expiration: u64) -> Result<Done, Failure> {
        let Link { client, says, guard, .. } = self.link;
        let (id, number, moment) = (&key.client, &key.number, &expiration.to_be_bytes()[..]);
        if client.execute(&says.begin, &[id, number, &moment, guard]).await? == 1 {
            return Ok(Done::Begun(Begun::New));
        }
        let row = client.query_one(&says.find, &[id, number, &moment]).await?;
        if let Some(outcome) = outcome_of(&row)? {
            let is_ours = row.try_get::<_, i64>(6)? == *guard;
            return Ok(Done::Begun(Begun::Done { outcome, is_ours }));
        }
        let (is_there, is_late): (bool, bool) = (row.try_get(4)?, row.try_get(5)?);
        if !is_there {
            return Ok(if is_late { Done::Begun(Begun::Expired) } else { Done::Again });
        }
        let maybe = Outcome::maybe();
        let (status, little, place) = values_of(&maybe);
        let cuts = maybe.cuts.octets();
        let values: Values<'_> = [id, number, guard, &status, &little, &place, &maybe.body, &cuts];
        if self.changed(&client.query(&says.lose, &values).await?)? {
            return Ok(Done::Begun(Begun::Done { outcome: maybe, is_ours: false }));
        }
        let waits = client.execute(&says.wait, &[id, number]).await? == 1;
        Ok(if waits { Done::Waits } else { Done::Again })
    }

    async fn finish(&self, key: &Key, outcome: &Outcome) -> Result<Done, Failure> {
        let Link { client, says, guard, .. } = self.link;
        let (id, number, (status, little, place)) = (&key.client, &key.number, values_of(outcome));
        let cuts = outcome.cuts.octets();
        let values: Values<'_> =
            [id, number, guard, &status, &little, &place, &outcome.body, &cuts];
        if self.changed(&client.query(&says.finish, &values).await?)? {
            return Ok(Done::Finished(Ok(outcome.clone())));
        }
        let none = &[0_u8; 8][..];
        let found = outcome_of(&client.query_one(&says.find, &[id, number, &none]).await?)?;
        Ok(Done::Finished(found.ok_or(Error::Forgotten)))
    }

    async fn undo(&self, key: &Key) -> Result<Done, Failure> {
        let Link { client, says, guard, .. } = self.link;
        let undone = client.query(&says.undo, &[&key.client, &key.number, guard]).await?;
        self.changed(&undone).map(|_| Done::Undone)
    }

    async fn purge(&self, now: u64, before: u64) -> Result<Done, Failure> {
        let Link { client, says, .. } = self.link;
        let now = &now.to_be_bytes()[..];
        let gone = client.query(&says.take_out, &[&now, &CHUNK]).await?;
        let moments = gone.iter().map(|row| row.try_get::<_, Vec<u8>>(0));
        let moments = moments.collect::<Result<Vec<_>, _>>()?;
        if let Some(last) = moments.iter().max() {
            let last = last.as_slice().try_into().map_or(0, u64::from_be_bytes);
            let next = &(last + 1).to_be_bytes()[..];
            client.execute(&says.raise, &[&next]).await?;
        }
        client.execute(&says.clean, &[]).await?;
        let count = gone.len() as u64;
        Ok(Done::Purged(before + count, i64::try_from(count) == Ok(CHUNK)))
    }

    async fn take(&self, step: &Step) -> Result<Done, Failure> {
        match step {
            Step::Begin(key, expiration) => self.begin(key, *expiration).await,
            Step::Finish(key, outcome) => self.finish(key, outcome).await,
            Step::Undo(key) => self.undo(key).await,
            Step::Purge(now, count) => self.purge(*now, *count).await,
            Step::Close => {
                let Link { client, says, guard, .. } = self.link;
                client.execute(&says.leave, &[guard]).await.map(|_| Done::Closed)
            }
        }
    }
}

/// The place of a step in its transaction. Guards take rows in one order, so that they seldom wait
/// for each other in a circle; and what is to be undone was begun before what is to be begun.
fn place(step: &Step) -> (u8, Option<&Key>) {
    match step {
        Step::Undo(key) => (0, Some(key)),
        Step::Begin(key, _) => (1, Some(key)),
        Step::Finish(key, _) => (2, Some(key)),
        Step::Purge(..) => (3, None),
        Step::Close => (4, None),
    }
}

impl Link {
    /// Takes steps in one transaction. Once it has its lock the statements are sent without waiting
    /// for those before.
    async fn transact(&self, steps: &[&Step], renews: bool) -> Result<Vec<Done>, Failure> {
        let Link { client, says, guard, lease, .. } = self;
        let purges = steps.iter().any(|step| matches!(step, Step::Purge(..)));
        client.batch_execute(if purges { LOCK } else { SHARE }).await?;
        if renews {
            client.execute(&says.renew, &[guard, &seconds(*lease)]).await?;
        }
        let mut order: Vec<usize> = (0..steps.len()).collect();
        order.sort_by_key(|index| place(steps[*index]));
        let with = Transaction { link: self, is_waited_for: Cell::new(false) };
        let taken = try_join_all(order.iter().map(|index| with.take(steps[*index]))).await?;
        if with.is_waited_for.get() {
            client.batch_execute(NOTIFY).await?;
        }
        client.batch_execute("COMMIT").await?;
        let mut dones: Vec<(usize, Done)> = order.into_iter().zip(taken).collect();
        dones.sort_by_key(|(index, _)| *index);
        Ok(dones.into_iter().map(|(_, done)| done).collect())
    }
}

impl Postgres {
    /// What speaks to a database by its address. It is connected where it is first written.
    ///
    /// # Errors
    ///
    /// `Unusable`: that is no address.
    pub fn open(address: &str, lease: Duration) -> Result<Postgres, Error> {
        let config: Result<Config, Failure> = address.parse();
        let mut config = config.map_err(|error| Error::Unusable(line(&error)))?;
        config.application_name("lemonrudder");
        config.target_session_attrs(TargetSessionAttrs::ReadWrite);
        config.connect_timeout(PATIENCE);
        let (tells, news) = watch::channel(());
        let (tells, now) = (Arc::new(tells), Instant::now());
        let (guard, link, mark, before, renewed, looked) = (None, None, None, None, now, now);
        Ok(Postgres { config, lease, guard, link, mark, before, renewed, tells, news, looked })
    }

    /// A session: over TLS, where the address says so.
    async fn session(&self) -> Result<Client, Error> {
        if self.config.get_ssl_mode() != SslMode::Require {
            let (client, connection) =
                self.config.connect(NoTls).await.map_err(|error| away(&error))?;
            tokio::spawn(drive(connection, self.tells.clone()));
            return Ok(client);
        }
        let secured = Secured::new().map_err(|error| Error::Unusable(error.to_string()))?;
        let (client, connection) =
            self.config.connect(secured).await.map_err(|error| away(&error))?;
        tokio::spawn(drive(connection, self.tells.clone()));
        Ok(client)
    }

    /// Connects, takes up this guard's life, and ends what the session before had under way.
    async fn connect(&mut self) -> Result<Link, Error> {
        let client = self.session().await?;
        let drawn = random().map_err(|error| Error::Away(error.to_string()))?;
        let has_path = self.config.get_options().is_some_and(|it| it.contains("search_path"));
        let prepared = prepare(&client, has_path, drawn).await;
        let (version, mark) = prepared.map_err(|error| away(&error))?;
        if version != Some(VERSION) {
            let of = version
                .map_or("another program".into(), |it| format!("version {it}, not {VERSION}"));
            let why = format!("PostgreSQL: its tables are of {of}");
            return Err(Error::Unusable(why));
        }
        self.mark = Some(mark);
        self.live(client).await.map_err(|error| away(&error))
    }

    async fn live(&mut self, client: Client) -> Result<Link, Failure> {
        if let Some(before) = &self.before {
            fence(&client, before).await?;
        }
        let says = statements(&client).await?;
        client.batch_execute(LISTEN).await?;
        let who = client.query_one(WHO, &[]).await?;
        let who = (who.try_get(0)?, who.try_get(1)?);
        let lease = seconds(self.lease);
        let guard = match self.guard {
            Some(guard) => guard,
            None => {
                let words = "INSERT INTO guard (until)
                    VALUES (clock_timestamp() + make_interval(secs => $1)) RETURNING id";
                client.query_one(words, &[&lease]).await?.try_get(0)?
            }
        };
        client.execute(&says.renew, &[&guard, &lease]).await?;
        (self.guard, self.renewed) = (Some(guard), Instant::now());
        Ok(Link { client, says, who, guard, lease: self.lease })
    }

    /// Takes steps in one transaction, over a new session where there is none.
    async fn transact(&mut self, steps: &[&Step]) -> Result<Vec<Done>, Error> {
        let link = match self.link.take().filter(|link| !link.client.is_closed()) {
            Some(link) => link,
            None => {
                let connected = timeout(PATIENCE * 2, self.connect()).await;
                connected.map_err(|_| Error::Away("PostgreSQL: it is silent".into()))??
            }
        };
        self.before = Some(link.who.clone());
        let begun = Instant::now();
        let renews = self.renewed.elapsed() >= self.lease / 4;
        let taken = timeout(PATIENCE * 2 + self.lease, link.transact(steps, renews)).await;
        let taken = taken.map_err(|_| Error::Away("PostgreSQL: it is silent".into()))?;
        // (a session that fails is left, with what it had under way)
        let dones = taken.map_err(|error| away(&error))?;
        if renews {
            self.renewed = begun;
        }
        self.link = Some(link);
        Ok(dones)
    }
}

impl Database for Postgres {
    fn mark(&self) -> Option<Mark> {
        self.mark.clone()
    }

    async fn write(&mut self, steps: &[&Step]) -> Result<Vec<Done>, Error> {
        self.transact(steps).await
    }

    /// Waits until another guard tells that something is done, or a part of the lease is over: then
    /// this one's is to be renewed, and another's may be.
    async fn told(&mut self) {
        _ = timeout_at(self.looked + self.lease / 4, self.news.changed()).await;
        self.looked = Instant::now();
    }

    fn is_told(&mut self) -> bool {
        let is_told = self.news.has_changed().unwrap_or(false);
        let looks = is_told || self.looked.elapsed() >= self.lease / 4;
        if looks {
            self.news.borrow_and_update();
            self.looked = Instant::now();
        }
        looks
    }

    fn close(self) {}
}
