//! Tests over PostgreSQL, which they start themselves. Where it is missing they can't pass: who
//! runs them leaves them out by their name.

use super::*;
use crate::tls::tests::pair;
use std::env;
use std::io::{BufRead, BufReader, Write};
use std::net::TcpListener;
use std::process::{Child, ChildStdin, ChildStdout, Command, Stdio};
use std::sync::atomic::{AtomicU32, Ordering};
use std::sync::{PoisonError, Weak};
use tokio_postgres::{Client, NoTls};

/// What tells a process which database it is a guard of.
const OF_PROCESS: &str = "LEMONRUDDER_TEST_STORE";

/// A PostgreSQL of its own, in a folder of its own.
struct Server {
    bin: PathBuf,
    folder: PathBuf,
    port: u16,
}

/// The folder of PostgreSQL's programs.
fn programs() -> PathBuf {
    let versions = std::fs::read_dir("/usr/lib/postgresql").expect("postgresql is missing");
    let bins = versions.map(|version| version.unwrap().path().join("bin"));
    bins.filter(|bin| bin.join("initdb").exists()).max().expect("postgresql is missing")
}

impl Server {
    fn new(name: &str) -> Server {
        let listener = TcpListener::bind("127.0.0.1:0").unwrap();
        let port = listener.local_addr().unwrap().port();
        // (one that is shared may begin while an earlier one still ends)
        static BEGUN: AtomicU32 = AtomicU32::new(0);
        let number = BEGUN.fetch_add(1, Ordering::Relaxed);
        let name = format!("lemonrudder-{}-{name}-{number}.postgres", std::process::id());
        let server = Server { bin: programs(), folder: env::temp_dir().join(name), port };
        _ = std::fs::remove_dir_all(&server.folder);
        std::fs::create_dir(&server.folder).unwrap();
        if is_root() {
            // (it does not run as root)
            let mut words = Command::new("chown");
            assert!(words.arg("postgres").arg(&server.folder).status().unwrap().success());
        }
        server.run("initdb", &["-A", "trust", "-U", "postgres", "-N"]);
        drop(listener);
        server.start();
        server
    }

    fn run(&self, program: &str, words: &[&str]) {
        let program = self.bin.join(program);
        let mut command = Command::new(&program);
        if is_root() {
            command = Command::new("runuser");
            command.args(["-u", "postgres", "--"]).arg(&program);
        }
        command.arg("-D").arg(self.folder.join("data")).args(words).current_dir("/");
        let ran = command.stdin(Stdio::null()).output().unwrap();
        assert!(ran.status.success(), "{program:?} {words:?}: {ran:?}");
    }

    fn start(&self) {
        let port = self.port;
        let options =
            format!("-p {port} -c listen_addresses=127.0.0.1 -c unix_socket_directories=");
        let log = self.folder.join("log");
        let words = ["-l", log.to_str().unwrap(), "-o", &options, "-w", "start"];
        self.run("pg_ctl", &words);
    }

    /// Ends it, as a crash does.
    fn stop(&self) {
        self.run("pg_ctl", &["-m", "immediate", "-w", "stop"]);
    }
}

impl Drop for Server {
    fn drop(&mut self) {
        if self.folder.join("data/postmaster.pid").exists() {
            self.stop();
        }
        _ = std::fs::remove_dir_all(&self.folder);
    }
}

/// A database of a server that tests share as long as one of them runs.
struct Database {
    server: Arc<Server>,
    name: &'static str,
}

impl Database {
    async fn new(name: &'static str) -> Database {
        static SHARED: Mutex<Weak<Server>> = Mutex::new(Weak::new());
        let server = {
            let mut shared = SHARED.lock().unwrap_or_else(PoisonError::into_inner);
            let server = shared.upgrade().unwrap_or_else(|| Arc::new(Server::new("shared")));
            *shared = Arc::downgrade(&server);
            server
        };
        let whole = Database { server: server.clone(), name: "postgres" };
        whole.say(&format!("CREATE DATABASE {name}")).await;
        Database { server, name }
    }

    fn address(&self) -> String {
        format!("postgres://postgres@127.0.0.1:{}/{}", self.server.port, self.name)
    }

    async fn guard(&self, lease: Duration) -> Taker {
        let taker = Taker::new(Store::open(&self.address(), lease).await.unwrap());
        while !taker.store.ready().await {
            tokio::time::sleep(Duration::from_millis(10)).await;
        }
        taker
    }

    async fn session(&self) -> Client {
        let (client, connection) = tokio_postgres::connect(&self.address(), NoTls).await.unwrap();
        spawn(connection);
        client
    }

    /// Runs a statement in a session of its own, and answers how many rows it gave or changed.
    async fn say(&self, words: &str) -> u64 {
        self.session().await.execute(words, &[]).await.unwrap()
    }
}

fn is_root() -> bool {
    let said = Command::new("id").arg("-u").output().unwrap();
    said.stdout == b"0\n"
}

/// A guard in a process of its own, that takes the steps that it is told.
struct Process {
    child: Child,
    to: ChildStdin,
    from: BufReader<ChildStdout>,
}

impl Process {
    fn new(address: &str, authorities: &Path) -> Process {
        let name = "store::tests::postgres::postgres_process";
        let mut command = Command::new(env::current_exe().unwrap());
        command.args(["--exact", name, "--ignored", "--nocapture", "--quiet"]);
        command.env(OF_PROCESS, address).env("SSL_CERT_FILE", authorities);
        command.stdin(Stdio::piped()).stdout(Stdio::piped());
        let mut child = command.spawn().unwrap();
        let (to, from) = (child.stdin.take().unwrap(), child.stdout.take().unwrap());
        Process { child, to, from: BufReader::new(from) }
    }

    /// What comes of a step.
    fn take(&mut self, step: &str) -> String {
        writeln!(self.to, "{step}").unwrap();
        let said = (&mut self.from).lines().map(Result::unwrap);
        let mut said = said.filter_map(|line| Some(line.strip_prefix("=> ")?.to_owned()));
        said.next().unwrap()
    }

    fn signal(&self, name: &str) {
        let mut words = Command::new("kill");
        words.arg(format!("-{name}")).arg(self.child.id().to_string());
        assert!(words.status().unwrap().success());
    }
}

impl Drop for Process {
    fn drop(&mut self) {
        _ = self.child.kill();
        _ = self.child.wait();
    }
}

/// No test: the process of a guard.
#[tokio::test]
#[ignore = "it is run by others"]
async fn postgres_process() {
    let Ok(address) = env::var(OF_PROCESS) else { return };
    let store = Store::open(&address, Duration::from_secs(1)).await.unwrap();
    let mut taker = Taker::new(store);
    println!();
    for line in std::io::stdin().lines() {
        println!("=> {}", taker.take(&line.unwrap()).await);
    }
}

#[tokio::test]
async fn postgres_takes_the_steps() {
    let server = Database::new("steps").await;
    server.guard(LONG).await.table(STEPS).await;
}

#[tokio::test]
async fn postgres_has_two_guards() {
    let server = Database::new("two").await;
    let (mut one, mut other) = (server.guard(LONG).await, server.guard(LONG).await);
    one.table("begin a 1 100 | new").await;
    one.table("begin a 2 100 | new").await;
    one.table("begin a 3 100 | new").await;
    // the lease is long: it is told
    let steps = "
        begin a 1 100 | waits
        begin a 2 100 | waits
        begin a 3 100 | waits
    ";
    other.table(steps).await;
    one.table("finish a 1 one | one").await;
    other.table("awaited | one of another").await;
    one.table("undo a 2 |").await;
    other.table("awaited | new").await;
    // the other waits for one's third, and now one for the other's second
    one.table("begin a 2 100 | waits").await;
    other.table("finish a 2 two | two").await;
    one.table("awaited | two of another").await;
    // what one purges is expired for the other
    one.table("purge 101 | 2").await;
    other.table("begin a 1 100 | expired").await;
    // one's lease is over, by the clock of the database: the other takes it for lost, at once
    // where it is asked, and one goes by that
    server.say("UPDATE lemonrudder.guard SET until = clock_timestamp() WHERE id = 1").await;
    other.table("begin a 3 100 | maybe of another").await;
    let steps = "
        finish a 3 three | maybe
        undo a 3         |
        begin a 3 100    | maybe
    ";
    one.table(steps).await;
    // who ends gives its lease back
    one.table("begin a 4 101 | new").await;
    one.store.close().await;
    other.table("begin a 4 101 | maybe of another").await;
}

#[tokio::test]
async fn postgres_guard_is_stopped_past_its_lease() {
    let server = Database::new("stopped").await;
    let mut process = Process::new(&server.address(), Path::new(""));
    // (it declines until it is connected)
    while process.take("begin a 1 100") != "new" {}
    for step in ["begin a 2 100", "begin a 3 100", "begin a 4 100"] {
        assert_eq!(process.take(step), "new");
    }
    assert_eq!(process.take("finish a 3 three"), "three");
    process.signal("STOP");
    let guard = server.guard(Duration::from_secs(1)).await;
    let wait = |number: &str| guard.begins(key("a", number), 100);
    let (first, third) = (wait("1"), wait("3"));
    let of_another = |text: &str| format!("{text} of another");
    assert_eq!(first.await.unwrap(), of_another("maybe"));
    assert_eq!(third.await.unwrap(), of_another("three"));
    process.signal("CONT");
    assert_eq!(process.take("finish a 1 one"), "maybe");
    assert_eq!(process.take("begin a 1 100"), "maybe");
    // what nobody asked for meanwhile goes on
    assert_eq!(process.take("finish a 2 two"), "two");
    assert_eq!(wait("2").await.unwrap(), of_another("two"));
    // and one that is killed is lost
    let last = wait("4");
    process.child.kill().unwrap();
    assert_eq!(last.await.unwrap(), of_another("maybe"));
}

#[tokio::test]
async fn postgres_goes_and_comes() {
    // (one of its own, since it is stopped)
    let server = Database { server: Arc::new(Server::new("goes")), name: "postgres" };
    let mut guard = server.guard(LONG).await;
    guard.table("begin a 1 100 | new").await;
    guard.table("begin a 2 100 | new").await;
    server.server.stop();
    let (store, of_it) = (guard.store.clone(), key("a", "1"));
    let finish = spawn(async move { store.finish(&of_it, outcome("one")).await });
    while guard.store.ready().await {
        yield_now().await;
    }
    assert_eq!(of_begun(guard.store.begin(&key("a", "3"), 100).await), "away");
    guard.table("purge 7 | away").await;
    assert!(!finish.is_finished());
    server.server.start();
    assert_eq!(finish.await.unwrap(), Ok(outcome("one")));
    assert!(guard.store.ready().await);
    let steps = "
        begin a 1 100   | one
        finish a 2 two  | two
        begin a 3 100   | new
    ";
    guard.table(steps).await;
    // the session is ended
    server
        .say(
            "SELECT pg_terminate_backend(pid) FROM pg_stat_activity
        WHERE application_name = 'lemonrudder'",
        )
        .await;
    guard.table("finish a 3 three | three").await;
}

#[tokio::test]
async fn postgres_of_another_version_is_not_used() {
    let server = Database::new("version").await;
    drop(server.guard(LONG).await);
    server.say("UPDATE lemonrudder.forgotten SET version = 9").await;
    let store = Store::open(&server.address(), LONG).await.unwrap();
    let error = store.begin(&key("a", "1"), 100).await.unwrap_err();
    assert_eq!(error, Error::Unusable("PostgreSQL: its tables are of version 9, not 4".into()));
    assert!(!store.ready().await);
    let error = Store::open("postgres://a b:c", LONG).await.err().unwrap();
    assert!(matches!(error, Error::Unusable(_)), "{error}");
}

/// Tables as guards of version 2 made them: what is done, and what is begun in a life that is over.
const SECOND: &str = "
    CREATE SCHEMA lemonrudder;
    CREATE TABLE lemonrudder.guard (
        id bigint GENERATED ALWAYS AS IDENTITY PRIMARY KEY, until timestamptz NOT NULL);
    CREATE TABLE lemonrudder.outcome (
        client bytea NOT NULL, number integer NOT NULL, expiration bytea NOT NULL,
        guard bigint NOT NULL, waited boolean NOT NULL DEFAULT false,
        status bigint, little boolean, place smallint, body bytea, PRIMARY KEY (client, number));
    CREATE INDEX outcome_by_expiration ON lemonrudder.outcome (expiration);
    CREATE TABLE lemonrudder.mark (version integer NOT NULL, least bytea NOT NULL);
    INSERT INTO lemonrudder.mark VALUES (2, '\\x000000000000000b');
    CREATE TABLE lemonrudder.identity (store bytea NOT NULL);
    INSERT INTO lemonrudder.identity VALUES ('\\x000102030405060708090a0b0c0d0e0f');
    INSERT INTO lemonrudder.outcome VALUES ('a', 1, '\\x0000000000000064', 7, false, 3, true, 4, 'one');
    INSERT INTO lemonrudder.outcome VALUES ('a', 2, '\\x0000000000000064', 7);
";

/// .. and as servers of version 1 did.
const FIRST: &str = "
    CREATE TABLE outcome (client bytea NOT NULL, retention integer NOT NULL, expiration bytea NOT NULL,
        status integer NOT NULL, little integer NOT NULL, body bytea NOT NULL, PRIMARY KEY (client, retention));
    CREATE INDEX outcome_by_expiration ON outcome (expiration);
    CREATE TABLE forgotten (version integer NOT NULL, moment bytea NOT NULL);
    INSERT INTO forgotten VALUES (1, '\\x000000000000000b');
    INSERT INTO outcome VALUES ('a', 1, '\\x0000000000000064', 3, 1, 'one');
";

#[tokio::test]
async fn postgres_of_a_version_before_is_made_one_of_this() {
    let server = Database::new("before").await;
    server.session().await.batch_execute(SECOND).await.unwrap();
    let steps = "
        begin a 1 100   | one of another
        begin a 2 100   | maybe of another
        begin b 1 10    | expired           # W is 11
        begin b 1 11    | new
        undo b 1        |
    ";
    // (it had no place for cuts)
    for life in ["new\nfinish c 2 cut | cut", "cut of another"] {
        let mut guard = server.guard(LONG).await;
        guard.table(steps).await;
        guard.table(&format!("begin c 2 100 | {life}")).await;
        guard.store.close().await;
    }
    let drawn =
        "SELECT 1 FROM lemonrudder.identity WHERE store = '\\x000102030405060708090a0b0c0d0e0f'";
    assert_eq!(server.say(drawn).await, 1);
}

#[tokio::test]
async fn postgres_of_servers_is_gone_on_with() {
    let server = Database::new("servers").await;
    server.session().await.batch_execute(FIRST).await.unwrap();
    let address = format!("{}?options=-csearch_path%3Dpublic", server.address());
    let mut guard = Taker::new(Store::open(&address, LONG).await.unwrap());
    while !guard.store.ready().await {
        tokio::time::sleep(Duration::from_millis(10)).await;
    }
    let kept = Outcome::whole(3, Order::Little, b"one".to_vec());
    let begun = guard.store.begin(&key("a", "1"), 100).await;
    assert_eq!(begun, Ok(Begun::Done { outcome: kept, is_ours: false }));
    guard.table("begin b 1 10 | expired\nbegin b 1 11 | new\nfinish b 1 one | one").await;
    assert_eq!(server.say("SELECT 1 FROM public.outcome WHERE life > 0").await, 1);
}

#[tokio::test]
async fn postgres_reads_w_under_a_lock() {
    let server = Database::new("lock").await;
    let mut guard = server.guard(LONG).await;
    let mut client = server.session().await;
    // another guard is amid a purge that has raised W
    let purge = client.transaction().await.unwrap();
    purge.execute("SELECT pg_advisory_xact_lock(1280463732, 1)", &[]).await.unwrap();
    let words = "UPDATE lemonrudder.forgotten SET moment = '\\x0000000000000065'";
    purge.execute(words, &[]).await.unwrap();
    let begins = guard.begins(key("a", "1"), 100);
    while server.say("SELECT 1 FROM pg_locks WHERE NOT granted AND locktype = 'advisory'").await
        == 0
    {
        yield_now().await;
    }
    assert!(!begins.is_finished());
    purge.commit().await.unwrap();
    assert_eq!(begins.await.unwrap(), "expired");
    guard.table("begin a 1 101 | new").await;
}

#[tokio::test]
async fn postgres_over_tls() {
    let server = Arc::new(Server::new("tls"));
    let (root, other) = (pair("root", "", None), pair("other", "", None));
    let (certificate, key) = pair("postgres", "localhost", Some(&root));
    let written = |name: &str, text: Vec<u8>| {
        let file = server.folder.join("data").join(name);
        std::fs::write(&file, text).unwrap();
        file
    };
    let root = written("root.crt", root.0.to_pem().unwrap());
    let other = written("other.crt", other.0.to_pem().unwrap());
    let key = written("server.key", key.private_key_to_pem_pkcs8().unwrap());
    let certificate = written("server.crt", certificate.to_pem().unwrap());
    for file in [&key, &certificate] {
        let mode = std::os::unix::fs::PermissionsExt::from_mode(0o600);
        std::fs::set_permissions(file, mode).unwrap();
        if is_root() {
            assert!(Command::new("chown").arg("postgres").arg(file).status().unwrap().success());
        }
    }
    let whole = Database { server: server.clone(), name: "postgres" };
    whole.say("ALTER SYSTEM SET ssl = on").await;
    server.stop();
    server.start();
    let address =
        |host: &str| format!("postgres://postgres@{host}:{}/postgres?sslmode=require", server.port);
    let mut process = Process::new(&address("localhost"), &root);
    while process.take("begin a 1 100") != "new" {}
    let count = "SELECT 1 FROM pg_stat_ssl JOIN pg_stat_activity USING (pid)
        WHERE ssl AND application_name = 'lemonrudder'";
    assert_eq!(whole.say(count).await, 1);
    // of another host, and of an authority that is not trusted
    for (host, authorities) in [("127.0.0.1", &root), ("localhost", &other)] {
        let mut process = Process::new(&address(host), authorities);
        for _ in 0..3 {
            assert_eq!(process.take("purge 1"), "away");
        }
    }
}
