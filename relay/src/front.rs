//! The side of a relay to which clients connect: listeners, peers, and their messages.

use crate::compose;
use crate::forward::{Answer, Request};
use crate::frames::Frames;
use crate::heard::{heard, Cancelled, Cancels, Heard};
use crate::joined::Joined;
use crate::live::{Live, Now};
use crate::mark::Meant;
use crate::memory::{Account, Held, Owed, CONNECTION, REQUEST, SECURED};
use crate::metrics::metrics;
use crate::peers::{self, Peers};
use crate::performers::{Job, Performers};
use crate::points::point;
use crate::reasons::{self, Refusal};
use crate::settings;
use crate::shares::{Share, Tally};
use crate::store::Key;
use crate::timer::Timer;
use crate::tls::Acceptor;
use crate::wire::{self, locked, shown, Reading, Writing};
use crate::workers::Workers;
use futures_util::future::abortable;
use futures_util::poll;
use lemonrudder::{write, Cuts, Fault, Limits, LocateStatus, MessageType, Order, Version};
use std::convert::Infallible;
use std::future::{poll_fn, Future};
use std::io::{self, ErrorKind};
use std::mem;
use std::net::{self, SocketAddr};
use std::pin::pin;
use std::sync::atomic::{AtomicU64, Ordering};
use std::sync::{Arc, Mutex};
use std::task::Poll;
use std::time::Duration;
use tokio::io::{copy, sink, AsyncReadExt, AsyncWriteExt};
use tokio::net::{TcpListener, TcpStream};
use tokio::select;
use tokio::sync::{mpsc, watch};
use tokio::task::{JoinHandle, JoinSet};
use tokio::time::{sleep, timeout, Instant};
use tracing::{info, warn};

/// What is read and written at once: at first, and where there is so much.
const SIZES: (usize, usize) = (1 << 12, 1 << 16);
/// What is read at once at least of a peer that is heard.
const LEAST: usize = 512;
/// What a peer has to close at the end of its stream; and a pause where nobody can be accepted.
const LINGER: Duration = Duration::from_secs(2);
/// What arrived before the end is heard, until nothing comes for so long: nobody is told that a one
/// way call was not.
const ARRIVED: Duration = Duration::from_millis(20);
/// How often `retry` is told that this relay lives, while it is not heard.
const SIGN: Duration = Duration::from_secs(1);
/// How many replies are due to a peer from which on it is not heard.
const DUE: usize = 64;

/// A client's connection.
pub struct Peer {
    pub number: u64,
    pub address: SocketAddr,
    /// The address at which it found this relay.
    pub found: SocketAddr,
    /// The names in the certificate that it showed.
    pub names: Vec<String>,
    /// What it has of the places of requests under way.
    pub share: Share,
    /// What is held for it in memory.
    pub account: Arc<Account>,
    /// Why requests of it were refused.
    refused: Mutex<Vec<Refusal>>,
}

impl Peer {
    /// Refuses a request of it, of this key where it has one: it is counted, and the first for each
    /// reason is said in the log.
    pub fn refuses(&self, refusal: Refusal, key: Option<&Key>) -> Answer {
        let why = refusal.reason();
        metrics().refused.with_label_values(&[why]).inc();
        let mut refused = locked(&self.refused);
        if !refusal.is_said_once() && !refused.contains(&refusal) {
            refused.push(refusal);
            let Peer { number, address, names, .. } = self;
            let client = key.map(|key| tracing::field::display(shown(&key.client)));
            warn!(number, peer = %address, ?names, client, why, "a request is refused");
        }
        refusal.answer()
    }
}

/// A request of a peer.
pub struct Asked {
    pub peer: Arc<Peer>,
    /// Its service contexts have the code sets of the connection, if any were said on it.
    pub request: Box<Request>,
    /// What it takes of memory.
    pub held: Held,
    /// What tells whether it is cancelled, where it may be: a request without FT_REQUEST.
    pub cancelled: Option<Cancelled>,
}

/// What becomes of requests. Each is performed in a task of its own, which goes on where its client
/// is lost.
pub trait Role: Send + Sync + 'static {
    /// Whether a request with FT_REQUEST has its place by its client id, and takes it when it is
    /// performed: who waits for that doesn't keep others of its connection waiting.
    const IS_BY_CLIENT: bool;

    /// Whether it looks at what tells that a request is cancelled.
    const MAY_CANCEL: bool;

    /// What is answered, once it is there; none where no reply is wished. The timer is one that may
    /// be used for it.
    fn perform(
        &self,
        asked: Asked,
        timer: &mut Timer,
    ) -> impl Future<Output = Option<Answer>> + Send;
}

/// What peers may take.
#[derive(Clone)]
pub struct Bounds {
    pub live: Arc<Live>,
    /// How many connections there may be to servers or guards.
    pub lines: usize,
    /// How many threads serve connections.
    pub threads: usize,
}

/// What all connections share.
struct Front<R> {
    performers: Arc<Performers<R>>,
    live: Arc<Live>,
    tls: Option<Acceptor>,
    peers: Arc<Peers>,
    under_way: Arc<Tally>,
    stop: watch::Receiver<bool>,
}

/// Listens on addresses, each `HOST:PORT`.
///
/// # Errors
///
/// Says of which it can't.
pub async fn listen(addresses: &[String]) -> Result<Vec<TcpListener>, String> {
    let mut listeners = Vec::new();
    for address in addresses {
        let listener = TcpListener::bind(address).await;
        let listener = listener.map_err(|error| format!("{address}: {error}"))?;
        let at = listener.local_addr().map_err(|error| format!("{address}: {error}"))?;
        info!(%at, "listening");
        listeners.push(listener);
    }
    Ok(listeners)
}

/// Where some listeners listen.
#[must_use]
pub fn places_of(listeners: &[TcpListener]) -> Vec<SocketAddr> {
    listeners.iter().filter_map(|listener| listener.local_addr().ok()).collect()
}

/// Serves who connects to the listeners, until a future ends. Then no connection is accepted any
/// more, what is under way is answered, and CloseConnection is said on each connection.
///
/// # Errors
///
/// Says why it can't begin.
pub async fn serve<R: Role>(
    role: Arc<R>,
    listeners: Vec<TcpListener>,
    tls: Option<Acceptor>,
    bounds: Bounds,
    stop: impl Future<Output = ()>,
) -> Result<(), String> {
    let workers = Workers::start(bounds.threads).map_err(|error| format!("threads: {error}"))?;
    let workers = Arc::new(workers);
    let (stopping, stopped) = watch::channel(false);
    let Bounds { live, lines, threads } = bounds;
    let peers = Peers::new(&live.now().limits, lines);
    let (performers, all) = (Performers::new(role, threads), Arc::<Tally>::default());
    let under_way = all.clone();
    let front = Front { performers, live, tls, peers, under_way, stop: stopped };
    let front = Arc::new(front);
    let mut accepting = JoinSet::new();
    for listener in listeners {
        accepting.spawn(accepts(front.clone(), listener, workers.clone()));
    }
    wire::notify("READY=1");
    stop.await;
    wire::notify("STOPPING=1");
    accepting.shutdown().await;
    _ = stopping.send(true);
    let ended = timeout(front.live.now().drain, async {
        stopping.closed().await;
        all.ends().await;
    });
    // (each connection has a receiver, and so has the front)
    drop(front);
    if ended.await.is_err() {
        warn!("the time to end in is over, and something is under way");
    }
    Ok(())
}

/// Accepts connections of a listener.
async fn accepts<R: Role>(front: Arc<Front<R>>, listener: TcpListener, workers: Arc<Workers>) {
    static NUMBER: AtomicU64 = AtomicU64::new(1);
    loop {
        let (socket, address) = match listener.accept().await {
            Ok((socket, address)) => (socket, wire::plain(address)),
            Err(error) => {
                warn!(%error, "nobody can be accepted");
                sleep(LINGER).await;
                continue;
            }
        };
        let number = NUMBER.fetch_add(1, Ordering::Relaxed);
        let place = front.peers.place(address.ip(), &front.live.now().limits);
        let begun =
            place.and_then(|place| begins(&front, &workers, (number, address), socket, place));
        if let Err(why) = begun {
            ended(number, address, &why.into());
        }
    }
}

/// Begins to attend to a connection, by its number and its address, on one of the threads.
fn begins<R: Role>(
    front: &Arc<Front<R>>,
    workers: &Workers,
    (number, address): (u64, SocketAddr),
    socket: TcpStream,
    place: peers::Place,
) -> Result<(), &'static str> {
    let socket = socket.into_std().map_err(|_| Why::Failed.text())?;
    let (tasks, held) = workers.least().ok_or(Why::Failed.text())?;
    let front = front.clone();
    tasks.spawn(async move {
        metrics().connections.inc();
        let end = attends(&front, number, socket, address).await;
        metrics().connections.dec();
        ended(number, address, &end);
        drop((place, held));
    });
    Ok(())
}

/// Why a connection ended, and more of that where more is known.
struct End(&'static str, Option<String>);

impl From<&'static str> for End {
    fn from(why: &'static str) -> End {
        End(why, None)
    }
}

/// Counts and says that a connection ended.
fn ended(number: u64, address: SocketAddr, End(why, detail): &End) {
    metrics().ended.with_label_values(&[why]).inc();
    match detail {
        Some(detail) => warn!(number, peer = %address, why, %detail, "connection ended"),
        None => info!(number, peer = %address, why, "connection ended"),
    }
}

/// Attends to a connection, and answers why it ended.
async fn attends<R: Role>(
    front: &Arc<Front<R>>,
    number: u64,
    socket: net::TcpStream,
    address: SocketAddr,
) -> End {
    let now = front.live.now();
    let (Ok(found), Ok(socket)) = (socket.local_addr(), TcpStream::from_std(socket)) else {
        return Why::Failed.text().into();
    };
    let accepted = wire::accept(socket, front.tls.as_ref(), &now.limits).await;
    let (stream, names) = match accepted {
        Ok(accepted) => accepted,
        Err(error) if error.kind() == ErrorKind::UnexpectedEof => return "no handshake".into(),
        Err(error) => return End("no handshake", Some(error.to_string())),
    };
    let (mut reading, writing) = stream.halves();
    let (due, dues) = mpsc::channel(DUE);
    let (writing, ends) = abortable(writes(writing, dues, now.limits.stalled));
    let mut writer = tokio::spawn(async { _ = writing.await });
    let peer = front.peer(number, address, wire::plain(found), names);
    peer.account.is_written_by(ends);
    let Some(mut talk) = Talk::of(front, now, peer.into(), due) else {
        return Why::Memory.text().into();
    };
    let Err(why) = talk.listens(&mut reading, &mut writer).await;
    if why.is_lost() {
        writer.abort();
        return why.text().into();
    }
    talk.parts(why).await;
    _ = writer.await;
    // what still comes means nothing; it is taken, so that what was sent last arrives
    _ = timeout(LINGER, copy(&mut reading, &mut sink())).await;
    why.text().into()
}

impl<R> Front<R> {
    /// A peer of a number and an address, that found this relay at another one, and has these names.
    fn peer(
        &self,
        number: u64,
        address: SocketAddr,
        found: SocketAddr,
        names: Vec<String>,
    ) -> Peer {
        let (share, account) = (self.live.shares.share(address.ip()), self.live.memory.account());
        Peer { number, address, found, names, share, account, refused: Mutex::default() }
    }
}

/// The limits of a stream.
fn limits_of(limits: &settings::Limits) -> Limits {
    let message = limits.message.min(compose::LONGEST);
    let partials = (limits.partial / message).clamp(1, 16);
    let number = |size| u32::try_from(size).unwrap_or(u32::MAX);
    Limits { message: number(message), partials: number(partials), cuts: Cuts::Anywhere }
}

/// Writes what is due to a peer, until nothing can be any more.
async fn writes(mut half: Writing, mut dues: mpsc::Receiver<Owed>, patience: Duration) {
    while let Some(mut owed) = dues.recv().await {
        while owed.octets.len() < SIZES.1 {
            let Ok(more) = dues.try_recv() else { break };
            owed.join(more);
        }
        if !wire::writes(&mut half, &owed.octets, patience).await {
            return;
        }
        point("answered");
    }
    _ = timeout(LINGER, half.shutdown()).await;
}

/// Why a connection ends.
#[derive(Clone, Copy, Debug, PartialEq, Eq)]
pub enum Why {
    Closed,
    Failed,
    Unwritten,
    Owed,
    Idle,
    Goodbye,
    Error,
    Fault(Option<Fault>),
    Direction,
    Memory,
    Stop,
}

impl Why {
    fn text(self) -> &'static str {
        match self {
            Why::Closed => "the peer closed it",
            Why::Failed => "its socket failed",
            Why::Unwritten => "the peer takes nothing",
            Why::Owed => "the peer takes too little of what is due",
            Why::Idle => "it was idle",
            Why::Goodbye => "the peer said CloseConnection",
            Why::Error => "the peer said MessageError",
            Why::Fault(fault) => reasons::of_fault(fault),
            Why::Direction => "the peer sent what only a server sends",
            Why::Memory => "memory is short",
            Why::Stop => "the relay ends",
        }
    }

    /// Whether nothing can be sent any more.
    fn is_lost(self) -> bool {
        matches!(self, Why::Failed | Why::Unwritten | Why::Owed)
    }
}

/// A connection, its messages, and what is under way of it.
struct Talk<R> {
    front: Arc<Front<R>>,
    /// The settings as they were when it began.
    now: Arc<Now>,
    peer: Arc<Peer>,
    frames: Frames,
    joined: Joined,
    /// The code sets that were said on it.
    sets: Option<Vec<u8>>,
    cancels: Cancels,
    under_way: Arc<Tally>,
    due: mpsc::Sender<Owed>,
    /// When the last message was whole.
    heard: Instant,
    /// What of it is held beside requests and replies, what it takes itself, and since when it holds
    /// too much.
    held: (Held, Held),
    over: Option<Instant>,
    /// Whether a message came that takes much, also once it is heard.
    was_long: bool,
    /// Whether the peer is `retry`, and when it was told last that this relay lives.
    is_retry: bool,
    signed: Instant,
}

impl<R: Role> Talk<R> {
    /// One that begins, unless memory is short.
    fn of(
        front: &Arc<Front<R>>,
        now: Arc<Now>,
        peer: Arc<Peer>,
        due: mpsc::Sender<Owed>,
    ) -> Option<Talk<R>> {
        if peer.account.is_over() {
            return None;
        }
        let itself = if front.tls.is_some() { SECURED } else { CONNECTION };
        let itself = front.live.memory.account().hold(itself);
        let held = (peer.account.hold(SIZES.0), itself);
        Some(Talk {
            front: front.clone(),
            frames: Frames::new(now.limits.message.min(compose::LONGEST)),
            joined: Joined::open(limits_of(&now.limits)).ok()?,
            now,
            peer,
            sets: None,
            cancels: Cancels::default(),
            under_way: Tally::within(&front.under_way),
            due,
            heard: Instant::now(),
            held,
            over: None,
            was_long: false,
            is_retry: false,
            signed: Instant::now(),
        })
    }

    /// Hears a peer until the connection ends, and answers why it does.
    async fn listens(
        &mut self,
        half: &mut Reading,
        writer: &mut JoinHandle<()>,
    ) -> Result<Infallible, Why> {
        let (stop, stops) = (self.front.stop.clone(), self.front.stop.clone());
        let (idle, account) = (self.now.limits.idle, self.peer.account.clone());
        let (mut stopped, mut quiet) = (pin!(ends(stop)), pin!(sleep(idle)));
        let mut room = vec![0; SIZES.0];
        loop {
            // (it changes once, where all is to stop)
            let is_stopped = !matches!(stops.has_changed(), Ok(false));
            let pause = self.over(is_stopped)?.map(|over| self.rests_over(over));
            let most = account.left().clamp(LEAST, room.len());
            let reading = reads(half, &mut room, most);
            let read = select! {
                biased;
                _ = &mut *writer => return Err(self.unwritten()),
                () = account.less(pause.unwrap_or_default()), if pause.is_some() => continue,
                read = within(is_stopped.then_some(ARRIVED), reading), if pause.is_none() => read,
                () = &mut stopped, if !is_stopped => continue,
                () = &mut quiet => {
                    quiet.as_mut().reset(self.rests(idle)?);
                    continue;
                }
            };
            let size = size_of(read)?;
            self.takes(&room[..size]).await?;
            self.fits(&mut room, size);
        }
    }

    /// Has room for what may come behind so many octets, and gives back what a long message took,
    /// where nothing has come behind that.
    fn fits(&mut self, room: &mut Vec<u8>, size: usize) {
        if size == room.len() && self.peer.account.left() > 2 * SIZES.1 {
            room.resize(SIZES.1, 0);
        } else if size < SIZES.0 / 2 && room.len() > SIZES.0 {
            *room = vec![0; SIZES.0];
        }
        let pending = self.frames.pending();
        self.held.0.set(room.len() + pending);
        if pending > 0 || !self.was_long {
            return;
        }
        if let Ok(joined) = Joined::open(limits_of(&self.now.limits)) {
            (self.joined, self.was_long) = (joined, false);
        }
    }

    /// For how long it is not heard by now since too much is held for it; an error where it has nothing
    /// but what never gets whole so.
    fn over(&mut self, is_stopped: bool) -> Result<Option<Duration>, Why> {
        if !self.peer.account.is_over() {
            self.over = None;
            return Ok(None);
        }
        let over = self.over.get_or_insert_with(Instant::now).elapsed();
        let is_long = over > self.now.limits.stalled;
        match (is_stopped, is_long && self.peer.account.holds(&self.held.0)) {
            (true, _) => Err(Why::Stop),
            (_, true) => Err(Why::Memory),
            _ => Ok(Some(over)),
        }
    }

    /// How long a peer is not heard at first that was not for so long. What `retry` asks then is not
    /// heard either: it is told that this relay lives, by an answer to nothing, unless something is due
    /// to it, which tells that too.
    fn rests_over(&mut self, over: Duration) -> Duration {
        if !self.is_retry {
            return over;
        }
        if self.signed.elapsed() >= SIGN && self.peer.account.owes_nothing() {
            let here = LocateStatus::ObjectHere;
            if let Ok(octets) = write::locate_reply(Version::V12, Order::Big, 0, here) {
                _ = self.due.try_send(self.peer.account.owes(octets));
                self.signed = Instant::now();
            }
        }
        over.min(SIGN)
    }

    /// Why nothing is written any more.
    fn unwritten(&self) -> Why {
        if self.peer.account.owed_much() {
            Why::Owed
        } else {
            Why::Unwritten
        }
    }

    /// Until when a connection may rest that was heard, or has something under way, within a time.
    fn rests(&mut self, idle: Duration) -> Result<Instant, Why> {
        let now = Instant::now();
        if self.heard + idle <= now {
            if self.under_way.is_none() {
                return Err(Why::Idle);
            }
            self.heard = now;
        }
        Ok(self.heard + idle)
    }

    /// Takes octets that came.
    async fn takes(&mut self, mut octets: &[u8]) -> Result<(), Why> {
        while !octets.is_empty() {
            let taken = self.frames.take(&mut octets);
            self.hears(taken.octets()).await?;
        }
        Ok(())
    }

    /// Hears the messages that octets complete.
    async fn hears(&mut self, mut octets: &[u8]) -> Result<(), Why> {
        let whole = if self.frames.is_whole() { octets } else { &[] };
        while !octets.is_empty() {
            let fed = match self.joined.feed(&self.frames, octets) {
                Ok(fed) => fed,
                Err(fault) => return self.fails(fault).await,
            };
            octets = &octets[fed..];
            let heard = match self.joined.message_in(whole) {
                Ok(Some(mut message)) => {
                    self.heard = Instant::now();
                    let is_long = self.frames.is_cut();
                    self.was_long |= message.body().len() > SIZES.1;
                    if message.message_type() == MessageType::CancelRequest {
                        self.frames.forget(message.request_id());
                    }
                    heard(&mut message, is_long, &mut self.sets, &self.cancels)?
                }
                Ok(None) => Heard::Nothing,
                Err(_) => return Err(Why::Memory),
            };
            match heard {
                Heard::Performed(mut request, id) => {
                    self.is_retry |= request.meant != Meant::Any;
                    let body = Arc::make_mut(&mut request.body);
                    body.cuts = self.frames.cuts().behind(body.place);
                    self.performs(request, id).await;
                }
                Heard::Cancelled(id) => self.joined.forget(id),
                Heard::Refused(refusal, version, id, is_wished) => {
                    self.refuses(refusal, version, id, is_wished).await;
                }
                Heard::Answered(octets) => self.owes(octets).await,
                Heard::Nothing => {}
            }
        }
        Ok(())
    }

    /// Refuses the request of a message that is at fault, where it is known which that is; else the
    /// connection ends.
    async fn fails(&mut self, fault: Option<Fault>) -> Result<(), Why> {
        let message = self.frames.gives_up(fault);
        let known = message.and_then(|it| Some((it.id_of_request()?, it.version(), it.may_wish())));
        let (id, version, may_wish) = known.ok_or(Why::Fault(fault))?;
        let refusal = match fault {
            Some(Fault::TooManyPartial) => Refusal::Partial,
            _ => Refusal::Unread,
        };
        self.refuses(refusal, version, id, may_wish).await;
        Ok(())
    }

    /// Refuses a request that can't be performed.
    async fn refuses(&mut self, refusal: Refusal, version: Version, id: u32, is_wished: bool) {
        let answer = self.peer.refuses(refusal, None);
        if is_wished {
            self.owes(answer.reply(version, id)).await;
        }
    }

    /// Has octets written, behind those that are due.
    async fn owes(&mut self, octets: Vec<u8>) {
        _ = self.due.send(self.peer.account.owes(octets)).await;
    }

    /// Has a request performed, once there is room for one more.
    async fn performs(&mut self, request: Box<Request>, id: u32) {
        let is_one = self.under_way.one();
        let is_by_client = R::IS_BY_CLIENT && request.ft.is_some();
        let place = if is_by_client { None } else { self.peer.share.place().await };
        let may_cancel = R::MAY_CANCEL && request.ft.is_none();
        let cancelled = may_cancel.then(|| Cancelled::of(&self.cancels, id));
        let (version, wish) = (request.head.version, request.head.wish);
        let held = self.peer.account.hold(REQUEST + request.head.key.len() + request.body.size());
        let asked = Asked { peer: self.peer.clone(), request, held, cancelled };
        let due = self.due.clone();
        self.front.performers.perform(Job { asked, version, wish, id, due, place, is_one });
    }

    /// Ends a connection: what is under way is answered first, where the peer can hear that.
    async fn parts(mut self, why: Why) {
        let last = match why {
            Why::Fault(_) | Why::Direction => write::message_error(),
            Why::Idle | Why::Stop => {
                self.under_way.ends().await;
                write::close_connection()
            }
            _ => return,
        };
        if let Ok(octets) = last {
            self.owes(octets).await;
        }
    }
}

/// Ends once all is to stop, for one task: that is told when this is polled first, by what tells all
/// connections, and has looked then.
fn ends(mut stop: watch::Receiver<bool>) -> impl Future<Output = ()> {
    let stops = stop.clone();
    let (mut told, mut is_told) = (Box::pin(async move { _ = stop.changed().await }), false);
    poll_fn(move |context| {
        if !mem::replace(&mut is_told, true) {
            return told.as_mut().poll(context);
        }
        match stops.has_changed() {
            Ok(false) => Poll::Pending,
            _ => Poll::Ready(()),
        }
    })
}

/// Reads what has come, of so much at most; or else, of little, what comes.
async fn reads(half: &mut Reading, room: &mut [u8], most: usize) -> io::Result<usize> {
    if most > SIZES.0 {
        if let Poll::Ready(read) = poll!(pin!(half.read(&mut room[..most]))) {
            return read;
        }
    }
    half.read(&mut room[..most.min(SIZES.0)]).await
}

/// How many octets were read, or why a connection ends.
fn size_of(read: Option<io::Result<usize>>) -> Result<usize, Why> {
    match read {
        None => Err(Why::Stop),
        Some(Ok(0)) => Err(Why::Closed),
        Some(Ok(size)) => Ok(size),
        Some(Err(_)) => Err(Why::Failed),
    }
}

/// What comes of a future, within a time where one is given.
async fn within<T>(time: Option<Duration>, future: impl Future<Output = T>) -> Option<T> {
    match time {
        None => Some(future.await),
        Some(time) => timeout(time, future).await.ok(),
    }
}
