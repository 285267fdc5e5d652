//! A connection to a server or a guard: what is written on it, and the requests that wait on it.

use crate::compose::{self, Body, Head};
use crate::health::SILENT;
use crate::metrics::metrics;
use crate::points::point;
use crate::pool::{Loss, Reply, UNWRITTEN};
use crate::sets::Held;
use crate::wire::{self, locked, Writing};
use crate::workers::here;
use lemonrudder::{write, Order, Version, Wish};
use std::collections::BTreeMap;
use std::sync::atomic::{AtomicU32, AtomicU64, Ordering};
use std::sync::{Arc, Mutex};
use std::time::{Duration, Instant};
use tokio::sync::{mpsc, oneshot, Notify};
use tokio::task::JoinHandle;
use tracing::warn;

/// What is written at once, where there is so much.
const BATCH: usize = 1 << 16;
/// Why a connection ends on which nothing waits.
const IDLE: &str = "it was idle";

/// What came of a request; no reply, where none was wished.
type Ending = Result<Option<Reply>, Loss>;

/// Why a connection ends, and what becomes of the requests that wait, where it does.
pub type End = Result<(), (&'static str, Loss)>;

/// What is to be written.
pub enum Due {
    Request {
        id: u32,
        wish: Wish,
        octets: Vec<u8>,
        body: Arc<Body>,
        ended: oneshot::Sender<Ending>,
    },
    Octets(Vec<u8>),
}

/// Whether requests may go on a connection.
#[derive(Clone, Copy, Debug, Default, PartialEq, Eq)]
pub enum State {
    #[default]
    Open,
    /// The guard is asked for a sign on it: until one comes no more go on it.
    Asked,
    /// The time of one was over before anything came: no more go on it, and it ends with the last.
    Silent,
    /// It ends, and why.
    Over(&'static str),
}

/// The requests of a connection that wait for their replies, and how many are being written of which
/// none is wished.
#[derive(Default)]
struct Waiting {
    state: State,
    requests: BTreeMap<u32, oneshot::Sender<Ending>>,
    quiet: usize,
}

/// A connection.
pub struct Line {
    /// The thread that it is of. Others send on it where they have none.
    pub home: usize,
    next: AtomicU32,
    due: mpsc::UnboundedSender<Due>,
    waiting: Mutex<Waiting>,
    /// How many messages have come on it, and how many octets were to be written.
    messages: AtomicU64,
    given: AtomicU64,
    /// Told, where it is silent or over.
    pub left: Notify,
}

/// A request that was handed to a connection.
pub struct Pending {
    ended: oneshot::Receiver<Ending>,
    line: Arc<Line>,
    id: u32,
    form: (Version, Order),
    /// How many messages had come on the connection before.
    messages: u64,
    /// Its place among the code sets of its address.
    held: Option<Held>,
}

impl Line {
    /// One of this thread; and what is to be written on it.
    #[must_use]
    pub fn new() -> (Arc<Line>, mpsc::UnboundedReceiver<Due>) {
        let (due, dues) = mpsc::unbounded_channel();
        let line = Line {
            home: here(),
            next: AtomicU32::new(1),
            due,
            waiting: Mutex::default(),
            messages: AtomicU64::default(),
            given: AtomicU64::default(),
            left: Notify::new(),
        };
        (Arc::new(line), dues)
    }

    /// Hands a request to it; none where it is over.
    ///
    /// # Errors
    ///
    /// `Long`.
    pub fn sends(self: &Arc<Self>, head: &Head, body: &Arc<Body>) -> Result<Option<Pending>, Loss> {
        let id = self.next.fetch_add(1, Ordering::Relaxed);
        let (octets, body) = compose::request(head, id, body).ok_or(Loss::Long)?;
        let messages = self.messages.load(Ordering::Relaxed);
        let (ended, end) = oneshot::channel();
        let due = Due::Request { id, wish: head.wish, octets, body, ended };
        let (line, form) = (self.clone(), (head.version, head.order));
        let pending = Pending { ended: end, line, id, form, messages, held: None };
        Ok(self.gives(due).then_some(pending))
    }

    /// Whether requests go on it.
    pub fn state(&self) -> State {
        locked(&self.waiting).state
    }

    /// How many requests wait, or are being written.
    pub fn waits(&self) -> usize {
        let waiting = locked(&self.waiting);
        waiting.requests.len() + waiting.quiet
    }

    /// How many octets were to be written.
    pub fn given(&self) -> u64 {
        self.given.load(Ordering::Relaxed)
    }

    /// Notes that a message has come.
    pub fn hears(&self) {
        self.messages.fetch_add(1, Ordering::Relaxed);
    }

    /// How many requests wait, where more may go on it.
    #[must_use]
    pub fn load(&self) -> Option<usize> {
        let waiting = locked(&self.waiting);
        (waiting.state == State::Open).then_some(waiting.requests.len())
    }

    /// Ends what waits.
    pub fn end(&self, why: &'static str, loss: Loss) {
        let mut waiting = locked(&self.waiting);
        waiting.state = State::Over(why);
        for (_, ended) in std::mem::take(&mut waiting.requests) {
            _ = ended.send(Err(loss));
        }
    }

    /// Ends a request by its reply, unless nobody waits for that any more.
    pub fn answers(&self, id: u32, reply: Reply) {
        match self.takes_out(id) {
            Some(ended) => _ = ended.send(Ok(Some(reply))),
            None => metrics().late.inc(),
        }
    }

    /// Ends a request whose reply is at fault: nobody knows what it says.
    pub fn fails(&self, id: u32, why: &'static str) {
        match self.takes_out(id) {
            Some(ended) => {
                warn!(why, "a reply can't be read");
                _ = ended.send(Err(Loss::Lost));
            }
            None => metrics().late.inc(),
        }
    }

    /// Takes out a request, with which the connection ends where it was the last on a silent one.
    fn takes_out(&self, id: u32) -> Option<oneshot::Sender<Ending>> {
        let mut waiting = locked(&self.waiting);
        let ended = waiting.requests.remove(&id);
        if waiting.state == State::Silent && waiting.requests.is_empty() {
            waiting.state = State::Over(SILENT);
            self.left.notify_one();
        }
        ended
    }

    /// Has no more requests go on it, since nothing came on it for as long as one may take.
    pub fn falls_silent(&self) {
        let mut waiting = locked(&self.waiting);
        if matches!(waiting.state, State::Open | State::Asked) {
            waiting.state = State::Silent;
            metrics().lines_silent.inc();
            self.left.notify_one();
        }
    }

    /// Has something written: whether it is to be.
    fn gives(&self, due: Due) -> bool {
        let size = match &due {
            Due::Octets(octets) => octets.len(),
            Due::Request { octets, body, .. } => octets.len() + body.octets.len(),
        };
        self.given.fetch_add(size as u64, Ordering::Relaxed);
        self.due.send(due).is_ok()
    }

    /// Asks the guard for a sign, by what it answers at once.
    pub fn asks(&self) {
        let id = self.next.fetch_add(1, Ordering::Relaxed);
        self.turns(State::Open, State::Asked);
        if let Ok(octets) = write::locate_request(Version::V12, Order::Big, id, b"") {
            self.gives(Due::Octets(octets));
        }
    }

    /// Makes one state another.
    pub fn turns(&self, from: State, to: State) {
        let mut waiting = locked(&self.waiting);
        if waiting.state == from {
            waiting.state = to;
        }
    }

    /// Rests, after something came last: why the connection ends, where that is too long ago.
    pub fn rests(&self, heard: &mut Instant, idle: Duration, writer: &JoinHandle<()>) -> End {
        if heard.elapsed() < idle {
            return Ok(());
        }
        if self.ends_idle(IDLE) {
            return Err((IDLE, Loss::Unsent));
        }
        if writer.is_finished() {
            return Err(("it takes nothing", Loss::Lost));
        }
        *heard = Instant::now();
        Ok(())
    }

    /// Ends a connection on which nothing waits: whether nothing did.
    pub fn ends_idle(&self, why: &'static str) -> bool {
        let mut waiting = locked(&self.waiting);
        let is_idle = waiting.requests.is_empty() && waiting.quiet == 0;
        if is_idle {
            waiting.state = State::Over(why);
        }
        is_idle
    }

    /// Notes a request that is to be written now, among those of which no reply is wished where it is
    /// one: false where none go on it any more.
    fn notes(
        &self,
        id: u32,
        ended: oneshot::Sender<Ending>,
        quiet: Option<&mut Vec<oneshot::Sender<Ending>>>,
    ) -> bool {
        let mut waiting = locked(&self.waiting);
        let may_go = matches!(waiting.state, State::Open | State::Asked);
        match quiet {
            _ if !may_go => {}
            None => _ = waiting.requests.insert(id, ended),
            Some(quiet) => {
                quiet.push(ended);
                waiting.quiet += 1;
            }
        }
        may_go
    }

    /// Takes octets and requests until there are enough to be written, or one has a long body, which is
    /// to be written behind them.
    fn gather(&self, first: Due, dues: &mut mpsc::UnboundedReceiver<Due>, batch: &mut Batch) {
        let mut next = Some(first);
        while let Some(due) = next {
            self.takes(due, batch);
            let is_more = batch.octets.len() < BATCH && batch.body.is_none();
            next = if is_more { dues.try_recv().ok() } else { None };
        }
    }

    /// Takes what is due into a batch, unless nobody waits for it any more.
    fn takes(&self, due: Due, batch: &mut Batch) {
        let (id, wish, octets, body, ended) = match due {
            Due::Octets(octets) => return batch.octets.extend(octets),
            Due::Request { id, wish, octets, body, ended } => (id, wish, octets, body, ended),
        };
        let quiet = (wish == Wish::None).then_some(&mut batch.quiet);
        if ended.is_closed() || !self.notes(id, ended, quiet) {
            return;
        }
        batch.octets.extend(octets);
        if body.octets.len() < BATCH {
            batch.octets.extend_from_slice(&body.octets);
        } else {
            batch.body = Some(body);
        }
    }
}

/// What is written at once: octets, and a long body behind them. Of some requests no reply is wished.
#[derive(Default)]
struct Batch {
    octets: Vec<u8>,
    body: Option<Arc<Body>>,
    quiet: Vec<oneshot::Sender<Ending>>,
}

impl Batch {
    /// All of it is written: those are done of which no reply is wished.
    fn is_written(&mut self, line: &Line) {
        locked(&line.waiting).quiet -= self.quiet.len();
        for ended in self.quiet.drain(..) {
            _ = ended.send(Ok(None));
        }
    }
}

/// Where its writer ends amid it, some of it may have come whole: of what no reply is wished nobody
/// knows whether it was performed.
impl Drop for Batch {
    fn drop(&mut self) {
        for ended in self.quiet.drain(..) {
            _ = ended.send(Err(Loss::Lost));
        }
    }
}

impl Pending {
    /// The same, which has a place among the code sets of its address.
    #[must_use]
    pub fn holding(mut self, held: Option<Held>) -> Pending {
        self.held = held;
        self
    }

    /// Its reply; none where none was wished, and it was sent.
    ///
    /// # Errors
    ///
    /// All but `Long`.
    pub async fn reply(&mut self) -> Ending {
        (&mut self.ended).await.unwrap_or(Err(Loss::Unsent))
    }

    /// Tells the server that nobody waits for it any more.
    pub fn cancel(self) {
        if let Ok(octets) = write::cancel_request(self.form.0, self.form.1, self.id) {
            self.line.gives(Due::Octets(octets));
        }
    }

    /// Nobody waits for it any more, since its time is over. Where no message came on its connection
    /// meanwhile, requests go on others from now on.
    pub fn expired(self) {
        if self.line.messages.load(Ordering::Relaxed) == self.messages {
            self.line.falls_silent();
            point("silent");
        }
    }
}

/// A reply that comes later is dropped.
impl Drop for Pending {
    fn drop(&mut self) {
        self.line.takes_out(self.id);
    }
}

/// Writes what is due on a connection, until it is over.
pub async fn writes(line: Arc<Line>, mut half: Writing, mut dues: mpsc::UnboundedReceiver<Due>) {
    let mut batch = Batch::default();
    while let Some(first) = dues.recv().await {
        batch.octets.clear();
        line.gather(first, &mut dues, &mut batch);
        let mut is_written = wire::writes(&mut half, &batch.octets, UNWRITTEN).await;
        if let Some(body) = batch.body.take() {
            is_written = is_written && wire::writes(&mut half, &body.octets, UNWRITTEN).await;
        }
        if !is_written {
            line.end("it takes nothing", Loss::Lost);
            return;
        }
        point("sent");
        batch.is_written(&line);
        batch.octets.shrink_to(BATCH);
    }
}

#[cfg(test)]
mod tests {
    use super::*;
    use crate::compose::Contexts;
    use tokio::io::{duplex, AsyncReadExt, DuplexStream};

    /// A connection on which a request is being written of which no reply is wished, once so many of
    /// its octets have come.
    async fn quiet(octets: usize) -> (Arc<Line>, Pending, JoinHandle<()>, DuplexStream) {
        let (line, dues) = Line::new();
        let (version, order, wish) = (Version::V12, Order::Big, Wish::None);
        let (key, operation, contexts) = (vec![1; 99], b"tell".to_vec(), Contexts::new());
        let head = Head { version, order, wish, key, operation, contexts };
        let pending = line.sends(&head, &Arc::default()).unwrap().unwrap();
        let (near, mut far) = duplex(16);
        let writer = tokio::spawn(writes(line.clone(), Box::new(near), dues));
        far.read_exact(&mut vec![0; octets]).await.unwrap();
        (line, pending, writer, far)
    }

    #[tokio::test]
    async fn nobody_knows_of_what_was_being_written() {
        let (line, mut pending, writer, _far) = quiet(12).await;
        assert!(line.waits() == 1 && !line.ends_idle(IDLE));
        line.end(IDLE, Loss::Closed);
        writer.abort();
        assert_eq!(pending.reply().await, Err(Loss::Lost));
    }

    #[tokio::test]
    async fn what_is_written_is_done() {
        let (line, mut pending, _writer, _far) = quiet(12 + 4 + 4 + 4 + 4 + 100 + 4 + 8 + 4).await;
        assert_eq!(pending.reply().await, Ok(None));
        assert!(line.waits() == 0 && line.ends_idle(IDLE));
    }

    #[tokio::test]
    async fn what_was_not_begun_is_not_sent() {
        let (line, mut pending, _writer, _far) = quiet(0).await;
        assert!(line.ends_idle(IDLE));
        assert_eq!(pending.reply().await, Err(Loss::Unsent));
    }
}
