//! Counters, as Prometheus reads them, and whether this relay is ready, by HTTP.

use crate::memory::Memory;
use crate::wire::locked;
use crate::workers::{group, Apart};
use prometheus::core::Collector;
use prometheus::local::LocalHistogram;
use prometheus::{
    Gauge, Histogram, HistogramOpts, HistogramVec, IntCounter, IntCounterVec, IntGauge, Opts,
    Registry, TextEncoder,
};
use std::future::Future;
use std::io;
use std::pin::Pin;
use std::sync::{Arc, Mutex, OnceLock, Weak};
use std::time::{Duration, Instant};
use tokio::io::{AsyncReadExt, AsyncWriteExt};
use tokio::net::{TcpListener, TcpStream};
use tokio::sync::Semaphore;
use tokio::time::{sleep, timeout};

/// The longest head of a request, and how long who sends one may take.
const HEAD: usize = 8192;
const PATIENCE: Duration = Duration::from_secs(5);
/// How many are answered at once.
const AT_ONCE: usize = 16;
/// The first bucket of times, in seconds.
const SHORTEST: f64 = 0.0001;

/// What is counted.
pub struct Metrics {
    registry: Registry,
    /// Requests that came: with a key, and without one.
    pub keyed: IntCounter,
    pub free: IntCounter,
    /// Requests that were sent to a server.
    pub performed: IntCounter,
    /// Requests that were answered by an outcome that was kept; and those of them whose first was
    /// begun in another life of a guard.
    pub repeats: IntCounter,
    pub after_restart: IntCounter,
    /// Transmissions to a guard of requests that were sent before.
    pub sent_again: IntCounter,
    /// Requests of which nothing is kept, by why.
    pub refused: IntCounterVec,
    /// Requests of which was told that nobody knows.
    pub maybe: IntCounter,
    /// Replies for which nobody waits any more.
    pub late: IntCounter,
    /// Connections of clients, and those that ended, by why; and the same to servers or guards.
    pub connections: IntGauge,
    pub ended: IntCounterVec,
    pub lines: IntGauge,
    /// Octets that are held for peers.
    memory: IntGauge,
    pub lines_ended: IntCounterVec,
    /// Connections to servers or guards on which nothing came any more.
    pub lines_silent: IntCounter,
    /// How long a transaction of the store took, and how many steps it had.
    pub writes: Histogram,
    pub batches: Histogram,
    steps: Steps,
    waiting: IntGauge,
    parked: IntGauge,
    oldest: Gauge,
    since: Apart<Mutex<Since>>,
    /// What knows how many octets are held.
    held: Mutex<Weak<Memory>>,
}

/// Since when something is under way that began on some threads, and which places are free.
#[derive(Default)]
struct Since {
    places: Vec<Option<Instant>>,
    free: Vec<usize>,
}

/// The times of steps of the store that ended on some threads, by the steps, until they are given.
struct Steps(Apart<Mutex<[LocalHistogram; NAMES.len()]>>);

/// What steps are called.
const NAMES: [&str; 5] = ["begin", "finish", "undo", "purge", "close"];

/// A step of the store.
#[derive(Clone, Copy, Debug, PartialEq, Eq)]
pub enum Step {
    Begin,
    Finish,
    Undo,
    Purge,
    Close,
}

/// A request that is under way, as long as this is there: its group, and its place there.
pub struct Parked(usize, usize);

/// A request that waits for its first transmission, as long as this is there.
pub struct Waits(());

/// A step of the store that is being taken, as long as this is there.
pub struct Takes(Step, Instant);

/// What is counted of this process.
pub fn metrics() -> &'static Metrics {
    static METRICS: OnceLock<Metrics> = OnceLock::new();
    METRICS.get_or_init(Metrics::new)
}

/// Has a registry give something.
fn taken<C: Collector + Clone + 'static>(registry: &Registry, made: prometheus::Result<C>) -> C {
    let made = made.expect("a name of the letters that are allowed");
    registry.register(Box::new(made.clone())).expect("a name that no other has");
    made
}

fn name_of(name: &str) -> String {
    format!("lemonrudder_{name}")
}

/// Counts of what differs in one word.
fn counts(registry: &Registry, name: &str, help: &str, word: &str) -> IntCounterVec {
    taken(registry, IntCounterVec::new(Opts::new(name_of(name), help), &[word]))
}

fn count(registry: &Registry, name: &str, help: &str) -> IntCounter {
    taken(registry, IntCounter::new(name_of(name), help))
}

fn gauge(registry: &Registry, name: &str, help: &str) -> IntGauge {
    taken(registry, IntGauge::new(name_of(name), help))
}

fn options_of(name: &str, help: &str, start: f64) -> HistogramOpts {
    let buckets = prometheus::exponential_buckets(start, 2.0, 14).expect("buckets that grow");
    HistogramOpts::new(name_of(name), help).buckets(buckets)
}

fn histogram(registry: &Registry, name: &str, help: &str, start: f64) -> Histogram {
    taken(registry, Histogram::with_opts(options_of(name, help, start)))
}

impl Steps {
    fn of(registry: &Registry) -> Steps {
        let options = options_of("store_step_seconds", "Time of a step of the store", SHORTEST);
        let all = taken(registry, HistogramVec::new(options, &["step"]));
        let local = |step| all.with_label_values(&[step]).local();
        Steps(Apart::new(|| NAMES.map(local).into()))
    }

    /// A step has taken so many seconds.
    fn took(&self, step: Step, seconds: f64) {
        locked(self.0.of(group()))[step as usize].observe(seconds);
    }

    /// Has the registry have all.
    fn give(&self) {
        self.0.all().for_each(|times| locked(times).iter().for_each(LocalHistogram::flush));
    }
}

impl Metrics {
    fn new() -> Metrics {
        let registry = Registry::new();
        let it = &registry;
        let oldest = ("oldest_parked_seconds", "For how long the oldest request is under way");
        let requests = counts(it, "requests_total", "Requests that came", "keyed");
        let of_lines = "Connections to servers or guards";
        let ended = format!("{of_lines} that ended");
        let silent = format!("{of_lines} on which nothing came any more");
        let others = "Those of them whose first was begun in another life of a guard";
        Metrics {
            keyed: requests.with_label_values(&["yes"]),
            free: requests.with_label_values(&["no"]),
            performed: count(it, "performed_total", "Requests that were sent to a server"),
            repeats: count(it, "repeats_total", "Requests answered by an outcome that was kept"),
            after_restart: count(it, "repeats_after_restart_total", others),
            sent_again: count(it, "sent_again_total", "Transmissions that are not the first"),
            refused: counts(it, "refused_total", "Requests of which nothing is kept", "reason"),
            maybe: count(it, "maybe_total", "Requests told that nobody knows"),
            late: count(it, "late_total", "Replies for which nobody waits any more"),
            connections: gauge(it, "connections", "Connections of clients"),
            ended: counts(it, "connections_ended_total", "Connections that ended", "why"),
            memory: gauge(it, "memory_octets", "Octets that are held for clients"),
            lines: gauge(it, "server_connections", of_lines),
            lines_ended: counts(it, "server_connections_ended_total", &ended, "why"),
            lines_silent: count(it, "server_connections_silent_total", &silent),
            steps: Steps::of(it),
            waiting: gauge(it, "waiting", "Requests that wait for their first transmission"),
            writes: histogram(it, "store_write_seconds", "Time of a transaction", SHORTEST),
            batches: histogram(it, "store_write_steps", "Steps of a transaction", 1.0),
            parked: gauge(it, "parked", "Requests under way"),
            oldest: taken(it, Gauge::new(name_of(oldest.0), oldest.1)),
            since: Apart::new(Mutex::default),
            held: Mutex::default(),
            registry,
        }
    }

    /// From now on what is held there is told.
    pub fn tells_of(&self, memory: &Arc<Memory>) {
        *locked(&self.held) = Arc::downgrade(memory);
    }

    /// Counts a request as under way, until what is answered is dropped.
    #[must_use]
    pub fn park(&self) -> Parked {
        let (group, now) = (group(), Instant::now());
        let Since { places, free } = &mut *locked(self.since.of(group));
        let place = free.pop().unwrap_or(places.len());
        if place == places.len() {
            places.push(None);
        }
        places[place] = Some(now);
        Parked(group, place)
    }

    /// Counts a request as one that waits for its first transmission, until what is answered is
    /// dropped.
    #[must_use]
    pub fn waits(&self) -> Waits {
        self.waiting.inc();
        Waits(())
    }

    /// Takes the time of a step, until what is answered is dropped.
    #[must_use]
    pub fn takes(&self, step: Step) -> Takes {
        Takes(step, Instant::now())
    }

    /// Since when what is under way is.
    fn all_since(&self) -> Vec<Instant> {
        let of = |since: &Mutex<Since>| {
            locked(since).places.iter().flatten().copied().collect::<Vec<_>>()
        };
        self.since.all().flat_map(of).collect()
    }

    /// All of it, as Prometheus reads it.
    pub fn text(&self) -> String {
        let since = self.all_since();
        self.parked.set(i64::try_from(since.len()).unwrap_or(0));
        let oldest = since.iter().min().map_or(Duration::ZERO, Instant::elapsed);
        self.oldest.set(oldest.as_secs_f64());
        self.steps.give();
        let held = locked(&self.held).upgrade().map_or(0, |memory| memory.held());
        self.memory.set(i64::try_from(held).unwrap_or(i64::MAX));
        TextEncoder::new().encode_to_string(&self.registry.gather()).unwrap_or_default()
    }
}

impl Drop for Parked {
    fn drop(&mut self) {
        let Parked(group, place) = *self;
        let Since { places, free } = &mut *locked(metrics().since.of(group));
        places[place] = None;
        free.push(place);
    }
}

impl Drop for Waits {
    fn drop(&mut self) {
        metrics().waiting.dec();
    }
}

impl Drop for Takes {
    fn drop(&mut self) {
        metrics().steps.took(self.0, self.1.elapsed().as_secs_f64());
    }
}

/// What keeps a relay from being ready, if anything does.
pub type Trouble = Pin<Box<dyn Future<Output = Option<String>> + Send>>;

/// What says it, each time that it is asked.
pub trait Ready: Fn() -> Trouble + Send + Sync + 'static {}

impl<F: Fn() -> Trouble + Send + Sync + 'static> Ready for F {}

/// Answers `/metrics` and `/ready` at an address, `HOST:PORT`, from now on.
///
/// # Errors
///
/// Says why it can't.
pub async fn listen(address: &str, ready: impl Ready) -> Result<(), String> {
    let listener = TcpListener::bind(address).await;
    let listener = listener.map_err(|error| format!("{address}: {error}"))?;
    tokio::spawn(serve(listener, ready));
    Ok(())
}

async fn serve(listener: TcpListener, ready: impl Ready) {
    let (ready, places) = (Arc::new(ready), Arc::new(Semaphore::new(AT_ONCE)));
    while let Ok(place) = places.clone().acquire_owned().await {
        let Ok((mut socket, _)) = listener.accept().await else {
            sleep(PATIENCE).await;
            continue;
        };
        let ready = ready.clone();
        tokio::spawn(async move {
            _ = timeout(PATIENCE, answer(&mut socket, &*ready)).await;
            drop(place);
        });
    }
}

/// The response to the first line of a request: its status, and its text.
async fn response(line: &str, ready: &impl Ready) -> (&'static str, String) {
    let mut words = line.split(' ');
    let path = match words.next() {
        Some("GET" | "HEAD") => words.next().unwrap_or_default(),
        _ => return ("405 Method Not Allowed", String::new()),
    };
    match path {
        "/metrics" => ("200 OK", metrics().text()),
        "/ready" => match ready().await {
            None => ("200 OK", "ready\n".into()),
            Some(why) => ("503 Service Unavailable", format!("{why}\n")),
        },
        _ => ("404 Not Found", String::new()),
    }
}

/// Answers one request (HTTP/1.0, RFC 1945), and says goodbye.
async fn answer(socket: &mut TcpStream, ready: &impl Ready) -> io::Result<()> {
    let mut head = Vec::new();
    let mut room = [0; 1024];
    while !head.windows(4).any(|four| four == b"\r\n\r\n") {
        let size = socket.read(&mut room).await?;
        if size == 0 || head.len() > HEAD {
            return Ok(());
        }
        head.extend_from_slice(&room[..size]);
    }
    let line = head.split(|octet| *octet == b'\r').next().unwrap_or(&[]);
    let line = String::from_utf8_lossy(line);
    let (status, text) = response(&line, ready).await;
    let length = text.len();
    let body = if line.starts_with("HEAD ") { "" } else { text.as_str() };
    let said = format!(
        "HTTP/1.0 {status}\r\nContent-Type: text/plain; version=0.0.4\r\n\
         Content-Length: {length}\r\nConnection: close\r\n\r\n{body}"
    );
    socket.write_all(said.as_bytes()).await?;
    socket.shutdown().await
}

#[cfg(test)]
mod tests {
    use super::*;
    use std::sync::atomic::{AtomicBool, Ordering};

    async fn asked(address: std::net::SocketAddr, words: &str) -> String {
        let mut socket = TcpStream::connect(address).await.unwrap();
        socket.write_all(words.as_bytes()).await.unwrap();
        let mut said = String::new();
        socket.read_to_string(&mut said).await.unwrap();
        said
    }

    #[tokio::test]
    async fn counters_and_readiness_are_told() {
        let listener = TcpListener::bind("127.0.0.1:0").await.unwrap();
        let address = listener.local_addr().unwrap();
        let away = Arc::new(AtomicBool::new(false));
        let is_away = away.clone();
        tokio::spawn(serve(listener, move || {
            let trouble = is_away.load(Ordering::SeqCst).then(|| "the store is away".to_owned());
            Box::pin(async move { trouble }) as Trouble
        }));
        metrics().ended.with_label_values(&["its socket failed"]).inc_by(3);
        let parked = metrics().park();
        let said = asked(address, "GET /metrics HTTP/1.1\r\nHost: here\r\n\r\n").await;
        assert!(said.starts_with("HTTP/1.0 200 OK\r\n"), "{said}");
        let line = "\nlemonrudder_connections_ended_total{why=\"its socket failed\"} 3\n";
        assert!(said.contains(line) && said.contains("\nlemonrudder_parked 1\n"), "{said}");
        let body = said.split_once("\r\n\r\n").unwrap().1;
        assert!(said.contains(&format!("\r\nContent-Length: {}\r\n", body.len())), "{said}");
        drop(parked);
        let said = asked(address, "HEAD /metrics HTTP/1.0\r\n\r\n").await;
        assert!(said.ends_with("\r\n\r\n"), "{said}");
        assert!(metrics().text().contains("\nlemonrudder_parked 0\n"));
        for (line, is_away, status) in [
            ("GET /ready HTTP/1.0", false, "200 OK"),
            ("GET /ready HTTP/1.0", true, "503 Service Unavailable"),
            ("GET / HTTP/1.0", true, "404 Not Found"),
            ("POST /ready HTTP/1.0", true, "405 Method Not Allowed"),
        ] {
            away.store(is_away, Ordering::SeqCst);
            let said = asked(address, &format!("{line}\r\n\r\n")).await;
            assert!(said.starts_with(&format!("HTTP/1.0 {status}\r\n")), "{said}");
            assert_eq!(said.ends_with("the store is away\n"), status.starts_with("503"));
        }
    }
}
