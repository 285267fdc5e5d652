//! Connections to a server, or to a guard: requests that are outstanding on them, and their replies.
//!
//! Each request gets an id of its own on its connection. Requests with the same code sets share
//! connections, since those belong to a connection (CORBA 3.3 Part 2, 7.10.2.5).

use crate::alerts;
use crate::compose::{self, Body, Contexts, Head};
use crate::forward::{self, Answer};
use crate::frames::Frames;
use crate::health::{Sign, Watch, SILENT};
use crate::joined::Joined;
use crate::line::{self, End, Line, Pending, State};
use crate::live::{Live, Now};
use crate::metrics::metrics;
use crate::points::point;
use crate::reasons;
use crate::sets::{self, CodeSets, Shares};
use crate::tls::Connector;
use crate::wire::{self, locked, Reading, Stream};
use crate::workers::{busy, here};
use lemonrudder::{Completed, Cuts, Limits, Message, MessageType, Order};
use std::collections::BTreeMap;
use std::convert::Infallible;
use std::io;
use std::net::{IpAddr, SocketAddr};
use std::pin::pin;
use std::sync::atomic::{AtomicU32, Ordering};
use std::sync::{Arc, Mutex};
use std::time::{Duration, Instant};
use tokio::io::AsyncReadExt;
use tokio::select;
use tokio::task::JoinHandle;
use tokio::time::{sleep, sleep_until, timeout};
use tracing::{info, warn};

/// What is read at once.
const BATCH: usize = 1 << 16;
/// A peer has to take what is due to it within this time.
pub const UNWRITTEN: Duration = Duration::from_secs(60);
/// The pause after the first attempt to connect that failed, and the longest.
const PAUSES: (Duration, Duration) = (Duration::from_millis(50), Duration::from_secs(2));
/// How long who asks whether a server is there waits at most.
const SHORTLY: Duration = Duration::from_secs(2);
/// How often it is looked whether a connection is alive, at most and at least.
const SHORTEST: Duration = Duration::from_millis(10);
const TICK: Duration = Duration::from_secs(1);
/// For how many code sets there are connections to a server, and how many of them one address may
/// have requests of; and the same of a guard.
pub const CLASSES: usize = 64;
const OF_ADDRESS: (usize, usize) = (CLASSES / 2, CLASSES / 4);
/// Why a connection ends on which nothing waits, or that answers nothing.
const OTHERS: &str = "others had to be opened";
const DOUBTED: &str = "nothing came on another any more";

/// Why a request has no reply.
#[derive(Clone, Copy, Debug, PartialEq, Eq)]
pub enum Loss {
    /// Nothing of it was sent.
    Unsent,
    /// The peer said CloseConnection before it replied: it has not performed it (9.4.7).
    Closed,
    /// The connection was lost: nobody knows.
    Lost,
    /// The same, since the guard gave no sign on it.
    Silent,
    /// It would be longer than a message may be; nothing of it was sent.
    Long,
    /// Too many code sets are under way; nothing of it was sent.
    Sets,
    /// The peer refused this program's certificate, and has heard nothing of it.
    Refused,
}

/// A reply as it came.
#[derive(Clone, Debug, PartialEq, Eq)]
pub struct Reply {
    /// Its status, by its number.
    pub status: u32,
    pub order: Order,
    pub contexts: Contexts,
    pub body: Body,
}

impl Reply {
    /// What stands for a reply that is too long.
    fn long() -> Reply {
        let Answer { status, order, contexts, body } =
            Answer::system("IMP_LIMIT", 0, Completed::Yes);
        Reply { status, order, contexts, body }
    }
}

/// Connections for requests of the same code sets.
#[derive(Default)]
struct Class {
    lines: Mutex<Vec<Arc<Line>>>,
    opening: tokio::sync::Mutex<Opening>,
    /// On how many connections one after another the guard gave no sign.
    silences: AtomicU32,
}

/// What is known of the last attempts to connect.
#[derive(Default)]
struct Opening {
    failed: Option<Instant>,
    pause: Duration,
}

/// Where servers are: their addresses, each read anew for each connection.
pub trait Places: Send + Sync {
    /// The addresses, each `HOST:PORT`, in the order in which they are tried.
    fn addresses(&self) -> Vec<String>;
}

impl Places for Vec<String> {
    fn addresses(&self) -> Vec<String> {
        self.clone()
    }
}

/// How connections are opened, and how many.
#[derive(Clone, Default)]
pub struct Terms {
    pub tls: Option<Connector>,
    /// How many connections there are at most, of each class.
    pub most: usize,
    /// For how long a connection may be without requests, and a message may bring nothing.
    pub live: Arc<Live>,
    /// How long what is sent may be unconfirmed by the peer's system.
    pub unconfirmed: Duration,
    /// Whether it is a guard, which is asked for signs.
    pub is_guard: bool,
    /// Where this program listens itself.
    pub own: Vec<SocketAddr>,
}

/// Connections to one server, or to what stands for it.
pub struct Pool {
    places: Box<dyn Places>,
    terms: Terms,
    classes: Mutex<BTreeMap<Option<CodeSets>, Arc<Class>>>,
    shares: Arc<Shares>,
}

impl Pool {
    #[must_use]
    pub fn new(places: Box<dyn Places>, terms: Terms) -> Arc<Pool> {
        let (of_server, of_guard) = OF_ADDRESS;
        let shares = Shares::new(if terms.is_guard { of_guard } else { of_server });
        Arc::new(Pool { places, terms, classes: Mutex::default(), shares })
    }

    /// Whether a connection is there, or is within a short time.
    pub async fn is_there(self: &Arc<Self>) -> bool {
        let is_open =
            self.class(None).is_ok_and(|class| least(locked(&class.lines).iter()).is_some());
        is_open || matches!(timeout(SHORTLY, self.line(None)).await, Ok(Ok(_)))
    }

    /// A connection of its own, to an address.
    ///
    /// # Errors
    ///
    /// As of [`wire::connect`].
    pub async fn connects(&self, address: &str) -> io::Result<Stream> {
        wire::connect(address, &self.terms).await
    }

    /// Hands a request of who is at an address to a connection.
    ///
    /// # Errors
    ///
    /// `Unsent`, where there is no connection, `Long` and `Sets`.
    pub async fn send(
        self: &Arc<Self>,
        head: &Head,
        body: &Arc<Body>,
        from: IpAddr,
    ) -> Result<Pending, Loss> {
        let sets = sets::said_in(&head.contexts);
        let held = match sets.map(|sets| self.shares.hold(from, sets)) {
            Some(None) => return Err(Loss::Sets),
            held => held.flatten(),
        };
        loop {
            let line = self.line(self.kind_of(sets)).await?;
            if let Some(pending) = line.sends(head, body)? {
                return Ok(pending.holding(held));
            }
        }
    }

    /// What the connections have in common of requests with these code sets. A guard takes them from
    /// each request that has them.
    fn kind_of(&self, sets: Option<CodeSets>) -> Option<CodeSets> {
        if self.terms.is_guard {
            sets.map(|_| CodeSets::default())
        } else {
            sets
        }
    }

    /// A connection for requests with these code sets: the one with the fewest outstanding, or a
    /// new one.
    async fn line(self: &Arc<Self>, sets: Option<CodeSets>) -> Result<Arc<Line>, Loss> {
        let class = self.class(sets)?;
        let Some((line, is_busy)) = class.best(self.terms.most) else {
            return Box::pin(self.first(&class)).await;
        };
        if is_busy {
            let pool = self.clone();
            tokio::spawn(async move {
                let Ok(mut opening) = class.opening.try_lock() else { return };
                if class.best(pool.terms.most).is_some_and(|(_, is_more)| is_more) {
                    _ = pool.open(&class, &mut opening).await;
                }
            });
        }
        Ok(line)
    }

    /// A connection, where there is none: one that somebody opens by now, or that is opened here.
    async fn first(self: &Arc<Self>, class: &Arc<Class>) -> Result<Arc<Line>, Loss> {
        let since = Instant::now();
        let mut opening = class.opening.lock().await;
        if let Some((line, _)) = class.best(self.terms.most) {
            return Ok(line);
        }
        if opening.failed.is_some_and(|failed| failed > since) {
            return Err(Loss::Unsent);
        }
        self.open(class, &mut opening).await
    }

    /// The connections for these code sets. Those of none are beside the others.
    fn class(&self, sets: Option<CodeSets>) -> Result<Arc<Class>, Loss> {
        let mut classes = locked(&self.classes);
        if let Some(class) = classes.get(&sets) {
            return Ok(class.clone());
        }
        let others = || classes.iter().filter(|(sets, _)| sets.is_some());
        if sets.is_some() && others().count() >= CLASSES {
            // (what holds one beside this are its connections, and requests that look for one)
            let idle = others().find(|(_, class)| class.ends_idle()).map(|(sets, _)| *sets);
            classes.remove(&idle.ok_or(Loss::Sets)?);
        }
        Ok(classes.entry(sets).or_default().clone())
    }

    /// Opens one connection more, after a pause where the last attempt failed.
    async fn open(
        self: &Arc<Self>,
        class: &Arc<Class>,
        opening: &mut Opening,
    ) -> Result<Arc<Line>, Loss> {
        if let Some(failed) = opening.failed {
            sleep_until((failed + opening.pause).into()).await;
        }
        for address in self.places.addresses() {
            match self.connects(&address).await {
                Ok(stream) => {
                    *opening = Opening::default();
                    return Ok(self.begin(class, address, stream));
                }
                Err(error) => warn!(server = %address, %error, "not connected"),
            }
        }
        opening.failed = Some(Instant::now());
        opening.pause = (opening.pause * 2).clamp(PAUSES.0, PAUSES.1);
        Err(Loss::Unsent)
    }

    /// Begins with a connection.
    fn begin(self: &Arc<Self>, class: &Arc<Class>, address: String, stream: Stream) -> Arc<Line> {
        info!(server = %address, "connected");
        metrics().lines.inc();
        let (reading, writing) = stream.halves();
        let (line, dues) = Line::new();
        locked(&class.lines).push(line.clone());
        let writer = tokio::spawn(line::writes(line.clone(), writing, dues));
        let (pool, class, read) = (self.clone(), class.clone(), line.clone());
        tokio::spawn(async move {
            let (why, loss) = reads(&pool, &class, &read, reading, &writer).await;
            metrics().lines.dec();
            metrics().lines_ended.with_label_values(&[why]).inc();
            match loss {
                Loss::Refused => warn!(server = %address, why, "ended"),
                _ => info!(server = %address, why, "ended"),
            }
            locked(&class.lines).retain(|line| !Arc::ptr_eq(line, &read));
            read.end(why, loss);
            writer.abort();
        });
        line
    }
}

/// The connection with the fewest outstanding requests, and how many those are.
fn least<'c>(lines: impl Iterator<Item = &'c Arc<Line>>) -> Option<(usize, &'c Arc<Line>)> {
    lines.filter_map(|line| Some((line.load()?, line))).min_by_key(|(load, _)| *load)
}

impl Class {
    /// The connection with the fewest outstanding requests, of this thread where it has one, and
    /// whether there should be one more: each thread has its share of so many.
    fn best(&self, most: usize) -> Option<(Arc<Line>, bool)> {
        let (lines, home, share) = (locked(&self.lines), here(), most.div_ceil(busy()));
        let open = || lines.iter().filter(|line| line.load().is_some());
        // (of those of other threads it is seldom looked how many wait, which changes all the time)
        let all_of = |home| lines.iter().filter(move |line| line.home == home);
        let of = |home| all_of(home).filter(|line| line.load().is_some());
        if let Some((load, line)) = least(all_of(home)) {
            let is_more = load > 0 && of(home).count() < share && open().count() < most;
            return Some((line.clone(), is_more));
        }
        let Some((load, line)) = least(open()) else {
            // (there are enough of those that are asked for a sign: one may come)
            let asked = lines.iter().filter(|line| line.state() == State::Asked);
            let least = asked.filter(|_| lines.len() >= 2 * most).min_by_key(|line| line.waits());
            return least.map(|line| (line.clone(), false));
        };
        let count = open().count();
        if load > 0 || count < most || of(line.home).count() <= share || !line.ends_idle(OTHERS) {
            return Some((line.clone(), count < most));
        }
        // (its place is for one of this thread)
        line.left.notify_one();
        least(open()).map(|(_, line)| (line.clone(), false))
    }

    /// Ends its connections, where nothing waits on any, and nobody looks for one: whether that is so.
    fn ends_idle(self: &Arc<Class>) -> bool {
        let lines = locked(&self.lines);
        let is_idle = Arc::strong_count(self) == 1 + lines.len()
            && lines.iter().all(|line| line.waits() == 0);
        for line in lines.iter().filter(|line| is_idle && line.ends_idle(OTHERS)) {
            line.left.notify_one();
        }
        is_idle
    }

    /// Ends the connections on which nothing waits: what became of one may have become of them.
    fn doubts(&self) {
        for line in locked(&self.lines).iter().filter(|line| line.ends_idle(DOUBTED)) {
            line.left.notify_one();
        }
    }
}

/// Reads replies of a connection until it is over, and answers why, and what became of the requests
/// that wait.
async fn reads(
    pool: &Pool,
    class: &Class,
    line: &Line,
    half: Reading,
    writer: &JoinHandle<()>,
) -> (&'static str, Loss) {
    let message = u32::try_from(compose::LONGEST).unwrap_or(u32::MAX);
    let limits = Limits { message, partials: 16, cuts: Cuts::Anywhere };
    let Ok(joined) = Joined::open(limits) else {
        // (some may be written by now)
        return ("memory is short", Loss::Lost);
    };
    let (frames, now) = (Frames::new(compose::LONGEST), pool.terms.live.now());
    let watch = Watch::new(Instant::now(), now.stalled());
    let watch = if pool.terms.is_guard {
        watch.asking(class.silences.load(Ordering::Relaxed))
    } else {
        watch
    };
    let mut ear = Ear { class, line, frames, joined, watch, is_silent: false };
    let Err(end) = ear.hears_all(half, &now, writer).await;
    end
}

/// Who reads what comes on a connection.
struct Ear<'l> {
    class: &'l Class,
    line: &'l Line,
    frames: Frames,
    joined: Joined,
    watch: Watch,
    /// Whether others were doubted for it.
    is_silent: bool,
}

impl Ear<'_> {
    /// Hears all that comes, until the connection ends.
    async fn hears_all(
        &mut self,
        mut half: Reading,
        now: &Now,
        writer: &JoinHandle<()>,
    ) -> Result<Infallible, (&'static str, Loss)> {
        let idle = now.limits.idle;
        let tick = TICK.min(now.stalled() / 4).min(idle).max(SHORTEST);
        let (mut heard, mut is_heard, mut room) = (Instant::now(), false, vec![0; BATCH]);
        let (mut left, mut quiet) = (pin!(self.line.left.notified()), pin!(sleep(tick)));
        loop {
            select! {
                biased;
                read = half.read(&mut room) => {
                    let size = size_of(read, is_heard)?;
                    (heard, is_heard) = (Instant::now(), true);
                    self.takes(&room[..size], heard)?;
                }
                () = &mut left => {
                    left.set(self.line.left.notified());
                    self.turns()?;
                }
                () = &mut quiet => {
                    self.line.rests(&mut heard, idle, writer)?;
                    self.judges()?;
                    quiet.as_mut().reset((Instant::now() + tick).into());
                }
            }
        }
    }

    /// Takes octets that came just now: it ends where it answers an error.
    fn takes(&mut self, mut octets: &[u8], now: Instant) -> End {
        let (size, mut has_ended) = (octets.len(), false);
        while !octets.is_empty() {
            let taken = self.frames.take(&mut octets);
            hears(self.line, &mut self.joined, taken.octets(), &mut self.frames)?;
            has_ended |= !self.frames.is_amid();
        }
        let is_amid = self.frames.is_amid();
        if self.watch.hears(now, size, has_ended, is_amid) {
            self.line.turns(State::Asked, State::Open);
        }
        self.class.silences.store(0, Ordering::Relaxed);
        Ok(())
    }

    /// Looks what became of the connection: it ends where it answers an error.
    fn turns(&mut self) -> End {
        let state = self.line.state();
        if !self.is_silent && matches!(state, State::Silent | State::Over(SILENT)) {
            self.is_silent = true;
            self.class.doubts();
        }
        match state {
            State::Over(why) => Err((why, Loss::Unsent)),
            State::Open | State::Asked | State::Silent => Ok(()),
        }
    }

    /// Looks whether the connection is alive: it ends where it answers an error.
    fn judges(&mut self) -> End {
        match self.watch.judges(Instant::now(), self.line.waits(), self.line.given()) {
            Sign::Fine => Ok(()),
            Sign::Asks => {
                self.line.asks();
                Ok(())
            }
            Sign::Ends(why, loss) => {
                if loss == Loss::Silent {
                    self.class.silences.fetch_add(1, Ordering::Relaxed);
                    self.line.falls_silent();
                    self.class.doubts();
                    point("silent");
                }
                Err((why, loss))
            }
        }
    }
}

/// How many octets were read, where some had come before or not, or why the connection ends.
fn size_of(read: io::Result<usize>, is_heard: bool) -> Result<usize, (&'static str, Loss)> {
    match read {
        Ok(0) => Err(("it was closed without a goodbye", Loss::Lost)),
        Ok(size) => Ok(size),
        Err(error) => Err(failed(&error, is_heard)),
    }
}

/// What an error of a connection means, of which octets had come or not.
fn failed(error: &io::Error, is_heard: bool) -> (&'static str, Loss) {
    match alerts::refusal(error) {
        Some(why) if !is_heard => (why, Loss::Refused),
        _ => (named(error), Loss::Lost),
    }
}

/// What an error of a socket is called.
fn named(error: &io::Error) -> &'static str {
    match error.kind() {
        io::ErrorKind::ConnectionReset => "it was reset",
        _ => "its socket failed",
    }
}

/// The reply that a message is which some frames complete.
fn replied(message: &mut Message<'_>, frames: &Frames) -> Reply {
    if frames.is_cut() {
        return Reply::long();
    }
    let mut reply = forward::reply_of(message);
    reply.body.cuts = frames.cuts().behind(reply.body.place);
    reply
}

/// Hears the messages that octets complete. A reply at fault ends its request.
fn hears(line: &Line, joined: &mut Joined, mut octets: &[u8], frames: &mut Frames) -> End {
    let whole = if frames.is_whole() { octets } else { &[] };
    while !octets.is_empty() {
        let fed = match joined.feed(frames, octets) {
            Ok(fed) => fed,
            Err(fault) => {
                let why = reasons::of_fault(fault);
                let id = frames.gives_up(fault).and_then(|it| it.id_of_reply());
                line.fails(id.ok_or((why, Loss::Lost))?, why);
                return Ok(());
            }
        };
        octets = &octets[fed..];
        let message = joined.message_in(whole).map_err(|_| ("memory is short", Loss::Lost))?;
        let Some(mut message) = message else { continue };
        line.hears();
        match message.message_type() {
            MessageType::Reply => {
                line.answers(message.request_id(), replied(&mut message, frames));
            }
            MessageType::CloseConnection => return Err(("it said CloseConnection", Loss::Closed)),
            MessageType::MessageError => return Err(("it said MessageError", Loss::Lost)),
            MessageType::LocateReply | MessageType::Fragment => {}
            _ => return Err(("it sent what only a client sends", Loss::Lost)),
        }
    }
    Ok(())
}

#[cfg(test)]
mod tests {
    use super::*;

    #[test]
    fn requests_go_where_nothing_is_doubted() {
        let (class, [(one, _ones), (other, _others)]) =
            (Class::default(), [(); 2].map(|()| Line::new()));
        locked(&class.lines).extend([one.clone(), other.clone()]);
        let best = |most| class.best(most).map(|(line, _)| Arc::ptr_eq(&line, &one));
        one.turns(State::Open, State::Asked);
        assert_eq!((best(1), best(2)), (Some(false), Some(false)));
        other.turns(State::Open, State::Silent);
        assert_eq!((best(1), best(2)), (Some(true), None));
        one.turns(State::Asked, State::Silent);
        assert_eq!(best(1), None);
        assert!(one.ends_idle(OTHERS) && one.state() == State::Over(OTHERS));
    }
}
