//! The role of who stands beside clients: a request gets a number, and is sent until it is answered
//! or its time is over.
//!
//! A request without FT_REQUEST gets one (FT 23.2.7): the id of this relay, a number, and an
//! expiration. One that has it keeps it. Both are sent to the first guard that can be reached, and
//! again after each loss, on any connection to any guard of the store to which it went first, with the
//! same key and the same expiration.

use crate::compose::{self, Body, Head, STORE};
use crate::forward::{is_forward, Answer, Request, FT_REQUEST, PROFILES};
use crate::front::{self, Asked, Peer, Role};
use crate::guard::DECLINED;
use crate::live::{Live, Now};
use crate::mark::{Mark, Meant, Told};
use crate::metrics::{self, metrics, Trouble};
use crate::points::point;
use crate::pool::{Loss, Pool, Reply, Terms};
use crate::reasons::Refusal;
use crate::reference;
use crate::reload::{Files, Reload};
use crate::settings;
use crate::store::Key;
use crate::timer::Timer;
use crate::upstream::Upstream;
use crate::wire::{self, shown};
use futures_util::future::join_all;
use lemonrudder::cdr::Reader;
use lemonrudder::{Completed, Error, Ior, Moment, Status, Wish};
use std::fmt::Write;
use std::io::{self, Read};
use std::mem;
use std::net::IpAddr;
use std::sync::{Arc, Mutex, PoisonError};
use std::time::Duration;
use tokio::select;
use tokio::sync::watch;
use tokio::time::{sleep, Instant};
use tracing::warn;

/// The pause after the second loss of a request, and the longest.
const PAUSES: (Duration, Duration) = (Duration::from_millis(20), Duration::from_secs(1));
/// How much longer than it is sent a key is kept, so that clocks may differ.
const SLACK: Duration = Duration::from_secs(10);
/// How long what is sent to a guard may be unconfirmed by its system.
const UNCONFIRMED: Duration = Duration::from_secs(15);
/// How often a request is led on.
const HOPS: u32 = 16;

/// Stands beside clients until the program is to end.
///
/// # Errors
///
/// Says why it can't begin.
pub async fn run(settings: settings::Retry) -> Result<(), String> {
    let reload = Reload::begin()?;
    let files = Files::of_retry(&settings).map_err(|faults| faults.join("\n"))?;
    let (tls, acceptor) = (files.connector.clone(), files.acceptor.clone());
    let live = Live::new(Now::of_retry(&settings));
    tokio::spawn(reload.runs(files, live.clone()));
    let settings::Retry { common, guard, name, .. } = settings;
    let keys = Keys::open(&name).map_err(|error| format!("random numbers: {error}"))?;
    let listeners = front::listen(&common.listen).await?;
    let mut guards = Vec::new();
    for address in guard {
        let terms = Terms {
            tls: tls.clone(),
            is_guard: true,
            ..common.terms(&live, UNCONFIRMED, &listeners)
        };
        let pool = Pool::new(Box::new(vec![address.clone()]), terms);
        guards.push((address, pool));
    }
    if let Some(address) = &common.metrics {
        let pools: Vec<_> = guards.iter().map(|(_, pool)| pool.clone()).collect();
        let ready = move || Box::pin(trouble(pools.clone())) as Trouble;
        metrics::listen(address, ready).await?;
    }
    let own = wire::all_parts(&[&common.published[..], &common.listen].concat());
    let bounds = common.bounds(&live, guards.len());
    let role = Retry::new(guards, own, keys, live);
    front::serve(role, listeners, acceptor, bounds, wire::ended()).await
}

/// What keeps it from being ready.
async fn trouble(guards: Vec<Arc<Pool>>) -> Option<String> {
    let are_there = join_all(guards.iter().map(Pool::is_there)).await;
    (!are_there.contains(&true)).then(|| "no guard can be reached".to_owned())
}

/// The keys of requests: each is given once.
#[derive(Debug)]
pub struct Keys {
    prefix: String,
    last: Mutex<Key>,
}

/// An id that no other relay has, nor this one had before: a prefix and 32 random digits.
fn fresh(prefix: &str) -> io::Result<Vec<u8>> {
    let mut octets = [0; 16];
    std::fs::File::open("/dev/urandom")?.read_exact(&mut octets)?;
    let mut id = format!("{prefix}.");
    for octet in octets {
        _ = write!(id, "{octet:02x}");
    }
    Ok(id.into_bytes())
}

/// Makes a key the next one: of another id, where there are no more numbers.
fn follow(last: &mut Key, fresh: impl FnOnce() -> io::Result<Vec<u8>>) {
    last.number = last.number.checked_add(1).unwrap_or_else(|| {
        // (where there is none, as where no file can be opened, a longer one is this relay's alone too)
        last.client = fresh().unwrap_or_else(|_| [&last.client[..], b"+"].concat());
        1
    });
}

impl Keys {
    /// Keys whose client ids begin with a prefix.
    ///
    /// # Errors
    ///
    /// The system has no random numbers.
    pub fn open(prefix: &str) -> io::Result<Keys> {
        let last = Mutex::new(Key { client: fresh(prefix)?, number: 0 });
        Ok(Keys { prefix: prefix.to_owned(), last })
    }

    /// The next key. Its client id is that of a peer, by its number here: so the share that a guard
    /// has for a client id is that of one peer.
    fn next(&self, peer: u64) -> Key {
        let peer = peer.to_string();
        let mut last = self.last.lock().unwrap_or_else(PoisonError::into_inner);
        follow(&mut last, || fresh(&self.prefix));
        let client = [&last.client[..], b".", peer.as_bytes()].concat();
        Key { client, number: last.number }
    }
}

/// A request that is sent until it is answered.
struct Call {
    key: Key,
    /// Whether it has its key of this relay, so that nobody else sends it.
    is_ours: bool,
    head: Head,
    body: Arc<Body>,
    /// The key of the object, as the client asked, where it was led to another.
    object: Option<Vec<u8>>,
    ends: Instant,
    /// How many of its transmissions may have acted, or may act yet.
    loose: u32,
    /// The store for which those are meant, where its guard has told it.
    store: Option<Mark>,
    /// How often it was handed to a connection.
    transmissions: u32,
    /// The guard to which it was led, by its index, and how often it was led on.
    led: Option<usize>,
    hops: u32,
}

impl Call {
    /// It is handed to a connection, for the store of a guard: that to which it went, or the one that
    /// the guard has told; one that has not is asked.
    fn goes(&mut self, guard: &Upstream) {
        self.loose += 1;
        if self.store.is_none() {
            self.store = guard.mark();
        }
        self.head.contexts.retain(|(id, _)| *id != STORE);
        self.head.contexts.push(Meant::said(self.store.as_ref()));
    }

    /// By one of its transmissions nothing was performed, nor will be.
    fn is_void(&mut self) {
        self.loose -= 1;
        if self.loose == 0 {
            self.store = None;
        }
    }
}

/// What follows from a reply.
#[derive(Debug, PartialEq)]
enum Next {
    Done(Answer),
    /// It is no outcome: send it again.
    Again,
    /// Send it to this guard, or to any, with this key of the object.
    At(Option<usize>, Vec<u8>),
}

/// The relay beside clients.
pub struct Retry {
    guards: Vec<Arc<Upstream>>,
    /// Where clients find this relay.
    own: Vec<(String, u16)>,
    keys: Keys,
    live: Arc<Live>,
    /// Changes where a guard can be reached again.
    ups: watch::Receiver<u64>,
}

impl Role for Retry {
    const IS_BY_CLIENT: bool = false;
    const MAY_CANCEL: bool = false;

    async fn perform(&self, asked: Asked, timer: &mut Timer) -> Option<Answer> {
        metrics().free.inc();
        let _parked = metrics().park();
        Some(self.call(&asked.peer, *asked.request, timer).await)
    }
}

impl Retry {
    /// A relay before guards, each with its address.
    #[must_use]
    pub fn new(
        guards: Vec<(String, Arc<Pool>)>,
        own: Vec<(String, u16)>,
        keys: Keys,
        live: Arc<Live>,
    ) -> Arc<Retry> {
        let (told, ups) = watch::channel(0);
        let told = Arc::new(told);
        let guards = guards.into_iter().map(|(address, pool)| Upstream::new(address, pool, &told));
        Arc::new(Retry { guards: guards.collect(), own, keys, live, ups })
    }

    /// Sends a request until it is answered, or its time is over.
    async fn call(&self, peer: &Peer, request: Request, timer: &mut Timer) -> Answer {
        point("asked");
        let Ok(mut call) = self.keyed(request, peer.number) else {
            return peer.refuses(Refusal::Memory, None);
        };
        let (ends, from) = (call.ends, peer.address.ip());
        let ended = match timer.until(ends, self.sends(&mut call, from)).await {
            Some(ended) => ended,
            None => self.over(&call, "TIMEOUT"),
        };
        point("completed");
        ended.unwrap_or_else(|refusal| peer.refuses(refusal, Some(&call.key)))
    }

    /// A request with its key in FT_REQUEST. A one way call asks for a reply, so that it is known
    /// when it has arrived.
    fn keyed(&self, request: Request, peer: u64) -> Result<Call, Error> {
        let Request { mut head, body, ft, .. } = request;
        let (now, at) = (Moment::now(), Instant::now());
        let (is_ours, timeout) = (ft.is_none(), self.live.now().timeout);
        let (key, expiration, ends) = match ft {
            None => (self.keys.next(peer), now + (timeout + SLACK), at + timeout),
            Some(ft) => {
                let left =
                    Duration::from_nanos(ft.expiration.0.saturating_sub(now.0).saturating_mul(100));
                (ft.key, ft.expiration, at + left.min(timeout))
            }
        };
        let said = compose::ft_request(head.order, &key.client, key.number, expiration.0);
        head.contexts.push((FT_REQUEST, said.ok_or(Error::Range)?));
        if head.wish == Wish::None {
            head.wish = Wish::Full;
        }
        let (loose, store, transmissions, led, hops) = (0, None, 0, None, 0);
        let object = None;
        Ok(Call { key, is_ours, head, body, object, ends, loose, store, transmissions, led, hops })
    }

    /// Sends a request until it is answered.
    async fn sends(&self, call: &mut Call, from: IpAddr) -> Result<Answer, Refusal> {
        let mut pause = Duration::ZERO;
        loop {
            let Some(guard) = self.guard_of(call).await else {
                return self.over(call, "COMM_FAILURE");
            };
            let next = match transmits(&guard, call, from).await {
                Ok(reply) => self.judges(reply, &guard, call).await,
                Err(Loss::Long) if call.loose == 0 => return Err(Refusal::Long),
                Err(Loss::Long) => return self.over(call, "TIMEOUT"),
                Err(Loss::Unsent) => {
                    guard.is_lost();
                    continue;
                }
                Err(Loss::Sets) if call.loose == 0 => return Err(Refusal::Sets),
                Err(Loss::Closed | Loss::Lost | Loss::Sets | Loss::Refused) => Next::Again,
                Err(Loss::Silent) => {
                    guard.checks().await;
                    Next::Again
                }
            };
            match next {
                Next::Done(answer) => return Ok(answer),
                Next::At(index, object) => {
                    let asked = mem::replace(&mut call.head.key, object);
                    call.object.get_or_insert(asked);
                    call.led = index;
                    call.hops += 1;
                }
                Next::Again => {
                    sleep(pause).await;
                    pause = (pause * 2).clamp(PAUSES.0, PAUSES.1);
                }
            }
        }
    }

    /// The guard that a request is sent to: the one that it was led to, or the first that can be
    /// reached, of those that may know of it; once there is one. None where all can be reached, and
    /// none of them may.
    async fn guard_of(&self, call: &mut Call) -> Option<Arc<Upstream>> {
        // (most find one at once, and need not be told)
        if let Some(guard) = self.serves(call) {
            return Some(guard);
        }
        let mut ups = self.ups.clone();
        loop {
            ups.borrow_and_update();
            if let Some(guard) = self.serves(call) {
                return Some(guard);
            }
            if self.guards.iter().all(|guard| guard.is_up()) {
                return None;
            }
            if ups.changed().await.is_err() {
                std::future::pending::<()>().await;
            }
        }
    }

    /// The same, if there is one by now.
    fn serves(&self, call: &mut Call) -> Option<Arc<Upstream>> {
        let serves = |guard: &&Arc<Upstream>| guard.is_up() && guard.may_know(call.store.as_ref());
        let led = call.led.and_then(|index| self.guards.get(index)).filter(serves);
        let guard = led.or_else(|| self.guards.iter().find(serves))?;
        let is_led = led.is_some();
        if !is_led && call.led.take().is_some() {
            // (who led it there is asked again)
            call.object.iter().for_each(|object| call.head.key.clone_from(object));
        }
        Some(guard.clone())
    }

    /// What follows from a guard's reply to a request.
    async fn judges(&self, mut reply: Reply, guard: &Upstream, call: &mut Call) -> Next {
        let is = |status: Status| reply.status == status.number();
        let wants_other = is(Status::NeedsAddressingMode);
        let (is_forward, refused) = (is_forward(reply.status), Refused::of(&reply));
        let is_declined = refused == Some(Refused::Declined);
        let told = Told::taken(&mut reply.contexts);
        let is_void = told.as_ref().map_or(is_forward || refused.is_some(), |told| told.is_void);
        let is_void = is_void || wants_other;
        if let Some(told) = told {
            guard.tells(told.mark);
        }
        if is_void {
            call.is_void();
        }
        if is_forward {
            return match self.led(&reply, call.hops).await {
                Next::Done(refused) => self.ends_by(call, refused),
                next => next,
            };
        }
        match is_void {
            _ if wants_other => self.ends_by(call, Answer::system("IMP_LIMIT", 0, Completed::No)),
            true if is_declined => Next::Again,
            true => self.ends_by(call, passed(reply)),
            false => Next::Done(passed(reply)),
        }
    }

    /// Where a reply leads that forwards: nobody has performed the request then.
    async fn led(&self, reply: &Reply, hops: u32) -> Next {
        let places = places_in(reply);
        for (place, key) in places.iter().filter(|_| hops < HOPS) {
            if let Some(index) = self.guard_at(place).await {
                return Next::At(index, key.clone());
            }
        }
        let places: Vec<String> = places
            .iter()
            .map(|((host, port), _)| wire::words_of(&shown(host.as_bytes()), *port))
            .collect();
        if hops < HOPS {
            warn!(?places, "a reply leads to where no guard of the list is");
        } else {
            warn!(?places, hops, "a reply leads on, after too many hops");
        }
        Next::Done(Answer::system("IMP_LIMIT", 0, Completed::No))
    }

    /// What is told of a request whose last transmission is answered so, of which nothing is kept:
    /// another one may have acted.
    fn ends_by(&self, call: &Call, answer: Answer) -> Next {
        Next::Done(if call.loose == 0 {
            answer
        } else {
            self.maybe(call, "TIMEOUT", "it is refused, and was sent before")
        })
    }

    /// What is told of a request that is sent no more.
    fn over(&self, call: &Call, name: &str) -> Result<Answer, Refusal> {
        // (whose key is the client's own, that may send it elsewhere)
        if call.loose == 0 && (call.is_ours || call.transmissions == 0) {
            return Err(Refusal::Time);
        }
        Ok(self.maybe(call, name, "its time is over"))
    }

    /// MAYBE by an exception of this name, and why: unless it is that guards have another store.
    fn maybe(&self, call: &Call, name: &str, why: &str) -> Answer {
        metrics().maybe.inc();
        let (client, number) = (shown(&call.key.client), call.key.number);
        let strangers = self.guards.iter().filter(|it| !it.may_know(call.store.as_ref()));
        let guards: Vec<&str> = strangers.map(|guard| guard.address()).collect();
        let why = if guards.is_empty() {
            why
        } else {
            "these guards have another store than the one to which it was sent"
        };
        warn!(%client, number, sent = call.loose, ?guards, "told MAYBE: {why}");
        Answer::system(name, 0, Completed::Maybe)
    }

    /// The guard at an address, by its index, or any where it is this relay's own address.
    async fn guard_at(&self, place: &(String, u16)) -> Option<Option<usize>> {
        for (index, guard) in self.guards.iter().enumerate() {
            if wire::is_among(place, &guard.place()).await {
                return Some(Some(index));
            }
        }
        wire::is_among(place, &self.own).await.then_some(None)
    }
}

/// Where the reference leads that a reply has, and the keys there, by its first profiles.
fn places_in(reply: &Reply) -> Vec<((String, u16), Vec<u8>)> {
    let body = &reply.body;
    let read = Ior::read(&mut Reader::at(&body.octets, reply.order, body.place));
    let Ok(mut ior) = read else { return Vec::new() };
    let addresses = ior.profiles().filter_map(|profile| profile.ok()?.address);
    let places = addresses.map(|it| {
        let port = reference::port_of(&it);
        ((String::from_utf8_lossy(&it.host).into_owned(), port), it.key)
    });
    places.take(PROFILES).collect()
}

/// Sends a request of who is at an address to a guard, and waits for its reply.
async fn transmits(guard: &Arc<Upstream>, call: &mut Call, from: IpAddr) -> Result<Reply, Loss> {
    let mut state = guard.state();
    call.goes(guard);
    let sent = guard.pool().send(&call.head, &call.body, from).await;
    let mut pending = sent.inspect_err(|_| call.is_void())?;
    call.transmissions += 1;
    if call.transmissions > 1 {
        metrics().sent_again.inc();
    }
    loop {
        select! {
            ended = pending.reply() => match ended {
                Ok(Some(reply)) => return Ok(reply),
                Ok(None) => return Err(Loss::Lost),
                Err(Loss::Unsent | Loss::Closed) => {
                    call.is_void();
                    return Err(Loss::Closed);
                }
                // (another guard may take it; of this one it is said why, where the connection ended)
                Err(Loss::Refused) => {
                    call.is_void();
                    guard.is_lost();
                    return Err(Loss::Closed);
                }
                Err(loss) => return Err(loss),
            },
            changed = state.changed() => if changed.is_err() || !*state.borrow() {
                return Err(Loss::Lost);
            },
        }
    }
}

/// What a reply is that is the refusal of a guard, where that does not tell which are its own.
#[derive(Clone, Copy, Debug, PartialEq, Eq)]
enum Refused {
    /// It has begun nothing, and would begin it later: it speaks of that transmission alone.
    Declined,
    /// The request has expired, or is not for this certificate: another transmission may have acted.
    Late,
}

impl Refused {
    fn of(reply: &Reply) -> Option<Refused> {
        if reply.status != Status::SystemException.number() {
            return None;
        }
        let mut reader = Reader::at(&reply.body.octets, reply.order, reply.body.place);
        let id = reader.string().ok()?;
        let (minor, completed) = (reader.ulong().ok()?, reader.ulong().ok()?);
        let is_no = completed == Completed::No.number();
        match id.strip_prefix(b"IDL:omg.org/CORBA/").unwrap_or(id) {
            b"TRANSIENT:1.0" | b"NO_RESOURCES:1.0" if is_no && minor == DECLINED => {
                Some(Refused::Declined)
            }
            b"NO_PERMISSION:1.0" if is_no && minor == DECLINED => Some(Refused::Late),
            b"BAD_CONTEXT:1.0" if completed != Completed::Yes.number() => Some(Refused::Late),
            _ => None,
        }
    }
}

/// A reply as it is told to a client.
fn passed(reply: Reply) -> Answer {
    let Reply { status, order, contexts, body } = reply;
    Answer { status, order, contexts, body }
}

#[cfg(test)]
mod tests {
    use super::*;
    use crate::compose::Contexts;
    use crate::store::Outcome;
    use lemonrudder::cdr::Writer;
    use lemonrudder::{write, FtRequest, Order, Version};

    fn of(outcome: Outcome) -> Reply {
        let body = Body::at(outcome.place.into(), outcome.body);
        Reply { status: outcome.status, order: outcome.order, contexts: Contexts::new(), body }
    }

    fn relay(guards: &[&str]) -> Arc<Retry> {
        let pool = |address: &str| Pool::new(Box::new(vec![address.to_owned()]), Terms::default());
        let guards = guards.iter().map(|address| (address.to_string(), pool(address))).collect();
        let (own, keys) = (vec![("10.0.0.9".to_owned(), 2809)], Keys::open("retry").unwrap());
        let now = Now { timeout: Duration::from_secs(60), ..Now::default() };
        Retry::new(guards, own, keys, Live::new(now))
    }

    fn request(ft: Option<crate::forward::Ft>, wish: Wish) -> Request {
        let (key, operation) = (b"k".to_vec(), b"add".to_vec());
        let (version, order) = (Version::V12, Order::Little);
        let head = Head { version, order, wish, key, operation, contexts: Contexts::new() };
        Request { head, body: Arc::default(), ft, meant: Meant::Any }
    }

    fn mark(store: u8) -> Mark {
        Mark { store: [store; 16], ..Mark::default() }
    }

    const NO: Completed = Completed::No;
    const MAYBE: Completed = Completed::Maybe;

    /// A system exception, whether it is told as void, how many others are loose, and what follows, if
    /// not the reply.
    type Row = (&'static str, u32, Completed, Option<bool>, u32, Option<Next>);

    fn maybe() -> Option<Next> {
        Some(Next::Done(Answer::system("TIMEOUT", 0, MAYBE)))
    }

    async fn follows(rows: impl IntoIterator<Item = Row>) {
        for (name, minor, completed, void, loose, next) in rows {
            let relay = relay(&["127.0.0.1:1"]);
            let mut reply = of(Outcome::system(name, minor, completed));
            let wanted = next.unwrap_or_else(|| Next::Done(passed(reply.clone())));
            reply.contexts.extend(void.map(|is_void| Told { mark: mark(1), is_void }.said()));
            let mut call = relay.keyed(request(None, Wish::Full), 1).unwrap();
            call.loose = loose + 1;
            let next = relay.judges(reply, &relay.guards[0], &mut call).await;
            assert_eq!(next, wanted, "{name} {minor} {completed:?} {void:?} {loose}");
            assert_eq!(relay.guards[0].mark(), void.map(|_| mark(1)));
        }
    }

    #[tokio::test]
    async fn what_a_refusal_means_of_a_guard_that_tells() {
        // its own
        follows([
            ("TRANSIENT", DECLINED, NO, Some(true), 0, Some(Next::Again)),
            ("TRANSIENT", DECLINED, NO, Some(true), 1, Some(Next::Again)),
            ("NO_RESOURCES", DECLINED, NO, Some(true), 2, Some(Next::Again)),
            ("BAD_CONTEXT", 0, NO, Some(true), 0, None),
            ("BAD_CONTEXT", 0, NO, Some(true), 1, maybe()),
        ])
        .await;
        // what a server says arrives, though that is a guard too
        follows([
            ("TRANSIENT", DECLINED, NO, Some(false), 0, None),
            ("NO_RESOURCES", DECLINED, NO, Some(false), 3, None),
            ("TRANSIENT", 0, MAYBE, Some(false), 1, None),
            ("BAD_CONTEXT", 0, NO, Some(false), 1, None),
            ("COMM_FAILURE", 0, MAYBE, Some(false), 1, None),
        ])
        .await;
    }

    #[tokio::test]
    async fn what_a_refusal_means_of_one_that_tells_nothing() {
        follows([
            ("TRANSIENT", DECLINED, NO, None, 0, Some(Next::Again)),
            ("NO_RESOURCES", DECLINED, NO, None, 1, Some(Next::Again)),
            ("TRANSIENT", 0, NO, None, 0, None),
            ("TRANSIENT", 0, MAYBE, None, 1, None),
            ("TRANSIENT", DECLINED, MAYBE, None, 1, None),
            ("TRANSIENT", DECLINED, Completed::Yes, None, 0, None),
            ("NO_RESOURCES", 0, NO, None, 1, None),
            ("NO_PERMISSION", DECLINED, NO, None, 0, None),
            ("NO_PERMISSION", DECLINED, NO, None, 1, maybe()),
            ("NO_PERMISSION", 0, NO, None, 1, None),
            ("BAD_CONTEXT", 0, NO, None, 0, None),
            ("BAD_CONTEXT", 0, NO, None, 1, maybe()),
        ])
        .await;
    }

    #[tokio::test]
    async fn a_request_goes_to_guards_of_its_store() {
        let relay = relay(&["127.0.0.1:1", "127.0.0.1:2"]);
        let [one, other] = [0, 1].map(|index| relay.guards[index].clone());
        let mut call = relay.keyed(request(None, Wish::Full), 1).unwrap();
        let said = |call: &Call| Meant::taken(&mut call.head.contexts.clone());
        call.goes(&one);
        assert_eq!((said(&call), call.store.clone()), (Meant::Asks, None));
        call.is_void();
        one.tells(mark(1));
        other.tells(mark(2));
        call.goes(&one);
        assert_eq!(said(&call), Meant::For(mark(1)));
        assert_eq!(call.head.contexts.len(), 2);
        assert!(Arc::ptr_eq(&relay.guard_of(&mut call).await.unwrap(), &one));
        // (of the other store is the other guard alone, which may know nothing of it)
        one.tells(mark(2));
        assert!(relay.guard_of(&mut call).await.is_none());
        let told = Answer::system("COMM_FAILURE", 0, Completed::Maybe);
        assert_eq!(relay.over(&call, "COMM_FAILURE"), Ok(told));
        call.is_void();
        assert!(Arc::ptr_eq(&relay.guard_of(&mut call).await.unwrap(), &one));
    }

    #[test]
    fn each_key_is_given_once() {
        let keys = Keys::open("east").unwrap();
        let (one, two, of_other) = (keys.next(7), keys.next(7), keys.next(81));
        assert_eq!((one.number, two.number, of_other.number), (1, 2, 3));
        assert_eq!(one.client, two.client);
        assert!(one.client.starts_with(b"east.") && one.client.ends_with(b".7"));
        assert_eq!(one.client.len(), 39);
        assert_eq!(of_other.client, [&one.client[..38], b"81"].concat());
        keys.last.lock().unwrap().number = i32::MAX;
        let third = keys.next(7);
        assert!(third.number == 1 && third.client != one.client);
    }

    #[test]
    fn no_key_is_given_twice_where_no_file_can_be_opened() {
        let mut key = Key { client: b"east.1".to_vec(), number: i32::MAX - 1 };
        let wanted = [("east.1", i32::MAX), ("east.1+", 1), ("east.1+", 2)];
        for (client, number) in wanted {
            follow(&mut key, || Err(io::ErrorKind::Other.into()));
            assert_eq!(key, Key { client: client.into(), number });
        }
    }

    #[tokio::test]
    async fn a_request_gets_a_key_or_keeps_its_own() {
        let relay = relay(&["127.0.0.1:1"]);
        let given = relay.keyed(request(None, Wish::None), 1).unwrap();
        assert_eq!((given.head.wish, given.key.number), (Wish::Full, 1));
        assert_eq!(given.head.contexts[0].0, FT_REQUEST);
        let (client, number) = (b"A".to_vec(), 7);
        let expiration = Moment::now() + Duration::from_secs(2);
        let ft = crate::forward::Ft { key: Key { client, number }, expiration };
        let kept = relay.keyed(request(Some(ft.clone()), Wish::Empty), 1).unwrap();
        assert_eq!((kept.head.wish, &kept.key), (Wish::Empty, &ft.key));
        let said = FtRequest { client_id: b"A", retention_id: 7, expiration };
        let octets = write::ft_request(Order::Little, &said).unwrap();
        assert_eq!(kept.head.contexts, [(FT_REQUEST, octets)]);
        assert!(kept.ends <= Instant::now() + Duration::from_secs(2));
    }

    #[tokio::test]
    async fn a_forward_leads_to_a_guard_of_the_list() {
        let relay = relay(&["10.0.0.1:2809", "[::1]:2810"]);
        for (host, port, hops, next) in [
            ("10.0.0.1", 2809, 0, Some(Some(0))),
            ("::1", 2810, 3, Some(Some(1))),
            ("0:0::1", 2810, 3, Some(Some(1))),
            ("10.0.0.9", 2809, 3, Some(None)),
            ("::1", 2809, 0, None),
            ("10.0.0.2", 2809, 0, None),
            ("10.0.0.1", 2809, HOPS, None),
        ] {
            let mut ior = Ior::iiop("IDL:A:1.0", Version::V12, host, port, b"there").unwrap();
            let mut out = Writer::new(Order::Big);
            ior.write(&mut out).unwrap();
            let body = Body::at(0, out.into_octets());
            let status = Status::LocationForward.number();
            let reply = Reply { status, order: Order::Big, contexts: Contexts::new(), body };
            let wanted = match next {
                Some(index) => Next::At(index, b"there".to_vec()),
                None => Next::Done(Answer::system("IMP_LIMIT", 0, Completed::No)),
            };
            assert_eq!(relay.led(&reply, hops).await, wanted, "{host} {port}");
        }
    }

    #[tokio::test]
    async fn whose_time_is_over_is_told_whether_it_was_sent() {
        let relay = relay(&["127.0.0.1:1"]);
        let mut call = relay.keyed(request(None, Wish::Full), 1).unwrap();
        assert_eq!(relay.over(&call, "TIMEOUT"), Err(Refusal::Time));
        call.loose = 1;
        let told = Answer::system("TIMEOUT", 0, Completed::Maybe);
        assert_eq!(relay.over(&call, "TIMEOUT"), Ok(told));
        call.is_void();
        assert_eq!(relay.over(&call, "TIMEOUT"), Err(Refusal::Time));
    }
}
