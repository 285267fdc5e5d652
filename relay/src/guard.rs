//! The role of who stands before servers: a request that comes again is answered by the outcome of
//! its first.

use crate::access::{Clients, Wanted};
use crate::compose::Contexts;
use crate::forward::{is_forward, Answer, Ft, Guarded};
use crate::front::{self, Asked, Role};
use crate::live::{Live, Now};
use crate::mark::{Meant, Told};
use crate::metrics::{self, metrics, Trouble};
use crate::points::point;
use crate::pool::{Loss, Places, Pool, Reply, Terms, UNWRITTEN};
use crate::reasons::Refusal;
use crate::reload::{Files, Reload};
use crate::settings::Common;
use crate::store::{Begun, Key, Outcome, Store};
use crate::timer::{after, Timer};
use crate::wire::{self, shown};
use crate::{reference, settings};
use lemonrudder::{Completed, Moment, Status};
use std::path::PathBuf;
use std::sync::{Arc, PoisonError, RwLock, RwLockReadGuard};
use std::time::Duration;
use tokio::select;
use tokio::time::sleep;
use tracing::warn;

/// The minor code of a TRANSIENT that is a guard's own, of the range for experiments (CORBA 3.3 Part
/// 1, 8.4.2): nothing was sent, and nothing is kept.
pub const DECLINED: u32 = 0xffff_f001;

/// How long a request waits for its share, before it is declined.
const TURN: Duration = Duration::from_secs(1);

/// How often what expired is taken out of the store.
const PURGE: Duration = Duration::from_secs(10);

/// Where the servers are: at addresses, or where references say that are in files.
#[derive(Clone)]
struct Servers {
    addresses: Vec<String>,
    references: Vec<PathBuf>,
}

impl Places for Servers {
    fn addresses(&self) -> Vec<String> {
        let mut addresses = self.addresses.clone();
        for file in &self.references {
            match reference::place_in(file) {
                Ok((host, port)) => addresses.push(wire::words_of(&host, port)),
                Err(why) => warn!(file = %file.display(), why, "no server"),
            }
        }
        addresses
    }
}

impl Servers {
    /// These, as what is guarded by who has these settings.
    fn guarded(&self, common: &Common) -> Guarded {
        Guarded {
            published: wire::all_parts(&common.published),
            listens: wire::all_parts(&common.listen),
            servers: Arc::new(self.clone()),
        }
    }
}

/// A guard.
pub struct Guard {
    store: Store,
    pool: Arc<Pool>,
    guarded: Guarded,
    /// Whether it speaks TLS with who connects.
    is_tls: bool,
    /// How long a server may take for a request, and an outcome is kept.
    live: Arc<Live>,
    /// What peers may ask for.
    access: Option<Arc<RwLock<Clients>>>,
}

/// Stands before servers until the program is to end.
///
/// # Errors
///
/// Says why it can't begin.
pub async fn run(settings: settings::Guard) -> Result<(), String> {
    let reload = Reload::begin()?;
    let files = Files::of_guard(&settings).map_err(|faults| faults.join("\n"))?;
    let (tls, connector, access) =
        (files.acceptor.clone(), files.connector.clone(), files.access.clone());
    let live = Live::new(Now::of_guard(&settings));
    tokio::spawn(reload.runs(files, live.clone()));
    let settings::Guard { common, server, reference, .. } = settings;
    let store =
        Store::open(&settings.store, settings.lease).await.map_err(|error| error.to_string())?;
    store.holds(live.memory.account());
    let listeners = front::listen(&common.listen).await?;
    let servers = Servers { addresses: server, references: reference };
    let (guarded, is_tls) = (servers.guarded(&common), tls.is_some());
    let terms = Terms { tls: connector, ..common.terms(&live, UNWRITTEN, &listeners) };
    let (pool, bounds) = (Pool::new(Box::new(servers), terms), common.bounds(&live, 1));
    let guard = Arc::new(Guard { store, pool, guarded, is_tls, live, access });
    if let Some(address) = &common.metrics {
        metrics::listen(address, looks(&guard)).await?;
    }
    let purging = tokio::spawn(purges(guard.clone()));
    let served = front::serve(guard.clone(), listeners, tls, bounds, wire::ended()).await;
    purging.abort();
    guard.store.close().await;
    served
}

/// What looks whether a guard is ready.
fn looks(guard: &Arc<Guard>) -> impl Fn() -> Trouble + Send + Sync + 'static {
    let guard = guard.clone();
    move || {
        let guard = guard.clone();
        Box::pin(async move { guard.trouble().await })
    }
}

/// Takes what expired out of the store, again and again.
async fn purges(guard: Arc<Guard>) {
    loop {
        sleep(PURGE).await;
        if let Err(error) = guard.store.purge(Moment::now().0).await {
            warn!(%error, "what expired is not taken out");
        }
    }
}

/// What came of a request that was to be sent to a server.
enum Sent {
    /// What it is answered.
    Done(Answer),
    /// The server forwards it: it has not performed it (CORBA 3.3 Part 2, 9.4.3.2).
    Led(Answer),
    /// Nobody knows what became of it.
    Maybe(&'static str),
    /// The server has not got it.
    Not(Refusal),
    /// Nobody waits for it any more.
    Cancelled,
}

impl Role for Guard {
    const IS_BY_CLIENT: bool = true;
    const MAY_CANCEL: bool = true;

    async fn perform(&self, mut asked: Asked, timer: &mut Timer) -> Option<Answer> {
        let _parked = metrics().park();
        if let Some(ft) = asked.request.ft.take() {
            metrics().keyed.inc();
            Some(self.answers(&mut asked, &ft, timer).await)
        } else {
            metrics().free.inc();
            self.free(&mut asked, timer).await
        }
    }
}

impl Guard {
    /// What keeps it from being ready.
    async fn trouble(&self) -> Option<String> {
        if !self.store.ready().await {
            return Some("the store is away".to_owned());
        }
        let is_there = self.pool.is_there().await;
        (!is_there).then(|| "no server can be reached".to_owned())
    }

    /// Performs a request without FT_REQUEST.
    async fn free(&self, asked: &mut Asked, timer: &mut Timer) -> Option<Answer> {
        if let Some(refusal) = self.stranger(asked, None) {
            return Some(asked.peer.refuses(refusal, None));
        }
        match self.sends_allowed(asked, None, timer).await {
            Sent::Done(answer) | Sent::Led(answer) => Some(answer),
            Sent::Maybe(name) => {
                metrics().maybe.inc();
                let (number, peer) = (asked.peer.number, asked.peer.address);
                let operation = shown(&asked.request.head.operation);
                warn!(number, %peer, %operation, "told MAYBE: it has no key");
                Some(Answer::system(name, 0, Completed::Maybe))
            }
            Sent::Not(refusal) => Some(asked.peer.refuses(refusal, None)),
            Sent::Cancelled => None,
        }
    }

    /// What a request with FT_REQUEST is answered, and told of the store, where it asks for that.
    async fn answers(&self, asked: &mut Asked, ft: &Ft, timer: &mut Timer) -> Answer {
        let (mut answer, is_void) = match self.keyed(asked, ft, timer).await {
            Ok(answer) => {
                let is_forward = answer.is_forward();
                (answer, is_forward)
            }
            // (who asks for the store is no sign of anything)
            Err(Refusal::Elsewhere) if asked.request.meant == Meant::Asks => {
                (Refusal::Elsewhere.answer(), true)
            }
            Err(refusal) => (asked.peer.refuses(refusal, Some(&ft.key)), refusal.is_void()),
        };
        if asked.request.meant != Meant::Any {
            let told = self.store.mark().map(|mark| Told { mark, is_void }.said());
            answer.contexts.extend(told);
        }
        answer
    }

    /// Performs a request with FT_REQUEST, or answers what became of it.
    async fn keyed(
        &self,
        asked: &mut Asked,
        ft: &Ft,
        timer: &mut Timer,
    ) -> Result<Answer, Refusal> {
        self.judges(asked, ft)?;
        let peer = asked.peer.clone();
        let place = timer.until(after(TURN), peer.share.place_of(&ft.key.client)).await;
        let _place = place.flatten().ok_or(Refusal::Share)?;
        point("before-begin");
        if let Some(answer) = self.begins(asked, ft).await? {
            return Ok(answer);
        }
        point("begun");
        let answer = match self.sends_allowed(asked, Some(&ft.key.client), timer).await {
            Sent::Done(answer) => answer,
            Sent::Led(answer) => {
                // (it is no outcome: who follows it sends the same key, and that acts)
                point("led");
                _ = self.store.undo(&ft.key).await;
                point("undone");
                return Ok(answer);
            }
            Sent::Maybe(name) => Answer::system(name, 0, Completed::Maybe),
            Sent::Not(refusal) => {
                _ = self.store.undo(&ft.key).await;
                return Err(refusal);
            }
            Sent::Cancelled => Outcome::maybe().into(),
        };
        point("received");
        // (its outcome is held beside it, until that is kept)
        asked.held.add(answer.body.size());
        let answer = self.finishes(&ft.key, answer).await;
        point("finished");
        answer.ok_or(Refusal::Forgotten)
    }

    /// Begins a request, or finds what it was answered.
    async fn begins(&self, asked: &Asked, ft: &Ft) -> Result<Option<Answer>, Refusal> {
        match self.store.begin(&ft.key, ft.expiration.0).await {
            Ok(Begun::New) => {}
            Ok(Begun::Done { outcome, is_ours }) => {
                return Ok(Some(repeated(&ft.key, outcome, is_ours)));
            }
            Ok(Begun::Expired) => return Err(Refusal::Expired),
            // (why it is away is in the log, once)
            Err(_) => return Err(Refusal::Store),
        }
        if let Err(refusal) = self.is_meant(asked) {
            // (it was another one until now, as where a database was taken over by its standby)
            _ = self.store.undo(&ft.key).await;
            return Err(refusal);
        }
        Ok(None)
    }

    /// Whether a request with FT_REQUEST may be begun, as far as the store need not be asked.
    fn judges(&self, asked: &Asked, ft: &Ft) -> Result<(), Refusal> {
        if let Some(refusal) = self.stranger(asked, Some(&ft.key.client)) {
            return Err(refusal);
        }
        let now = Moment::now();
        let keep = self.live.now().keep;
        if ft.expiration < now {
            return Err(Refusal::Expired);
        }
        if keep.is_some_and(|keep| ft.expiration > now + keep) {
            return Err(Refusal::Keep);
        }
        self.is_meant(asked)
    }

    /// Whether a request is meant for this guard's store.
    fn is_meant(&self, asked: &Asked) -> Result<(), Refusal> {
        let meant = &asked.request.meant;
        if *meant == Meant::Any {
            return Ok(());
        }
        let mark = self.store.mark().ok_or(Refusal::Store)?;
        meant.is_for(&mark).then_some(()).ok_or(Refusal::Elsewhere)
    }

    /// What peers may ask for by now.
    fn access(&self) -> Option<RwLockReadGuard<'_, Clients>> {
        Some(self.access.as_ref()?.read().unwrap_or_else(PoisonError::into_inner))
    }

    /// Why nothing of this client id is heard from a peer, or nothing without one.
    fn stranger(&self, asked: &Asked, client: Option<&[u8]>) -> Option<Refusal> {
        self.access()?.stranger(&asked.peer.names, client)
    }

    /// Sends a request, where it is for its peer's certificate. One with a key has no outcome by now:
    /// it might have one of before it was forbidden.
    async fn sends_allowed(
        &self,
        asked: &mut Asked,
        client: Option<&[u8]>,
        timer: &mut Timer,
    ) -> Sent {
        let head = &asked.request.head;
        let wanted = Wanted { client, object: &head.key, operation: &head.operation };
        if self.access().is_some_and(|access| !access.may(&asked.peer.names, &wanted)) {
            return Sent::Not(Refusal::Forbidden);
        }
        self.sends(asked, timer).await
    }

    /// Keeps what a request is answered, and answers what is kept; nothing where it has expired and
    /// is taken out: whether it was told is not known then.
    async fn finishes(&self, key: &Key, answer: Answer) -> Option<Answer> {
        let kept = self.store.finish(key, answer.outcome()).await.ok()?;
        says_maybe(key, &kept);
        Some(if answer.is_kept_as(&kept) { answer } else { kept.into() })
    }

    /// Sends a request to a server, and once more where that has not got it.
    async fn sends(&self, asked: &mut Asked, timer: &mut Timer) -> Sent {
        let mut is_again = false;
        loop {
            match self.sends_once(asked, timer).await {
                Sent::Not(Refusal::Server) if !is_again => is_again = true,
                sent => return sent,
            }
        }
    }

    async fn sends_once(&self, asked: &mut Asked, timer: &mut Timer) -> Sent {
        let (request, from) = (&asked.request, asked.peer.address.ip());
        let mut pending = match self.pool.send(&request.head, &request.body, from).await {
            Ok(pending) => pending,
            Err(loss) => return lost(loss),
        };
        metrics().performed.inc();
        let replied = timer.until(after(self.live.now().timeout), pending.reply());
        let ended = match &mut asked.cancelled {
            None => replied.await,
            Some(cancelled) => select! {
                ended = replied => ended,
                () = cancelled.is_said() => {
                    pending.cancel();
                    return Sent::Cancelled;
                }
            },
        };
        match ended {
            Some(Ok(Some(reply))) => {
                asked.held.add(reply.body.size());
                self.told(reply, asked).await
            }
            Some(Ok(None)) => Sent::Done(Answer::nothing()),
            Some(Err(loss)) => lost(loss),
            None => {
                pending.expired();
                Sent::Maybe("TIMEOUT")
            }
        }
    }

    /// What is told of a server's reply. A forward that leads elsewhere passes to `retry`, which follows
    /// it to guards alone.
    async fn told(&self, reply: Reply, asked: &Asked) -> Sent {
        let is_retry = asked.request.meant != Meant::Any;
        let as_it_is = (is_retry && is_forward(reply.status)).then(|| reply.clone());
        // (which knows how its guards are reached)
        let is_tls = self.is_tls && !is_retry;
        match (self.guarded.told(reply, asked.peer.found, is_tls).await, as_it_is) {
            (Ok(answer), _) if answer.is_forward() => Sent::Led(answer),
            (Ok(answer), _) => Sent::Done(answer),
            (Err(_), Some(Reply { status, order, body, .. })) => {
                Sent::Led(Answer { status, order, contexts: Contexts::new(), body })
            }
            (Err(why), None) => {
                // (it is kept: nothing that is sent later under the key acts either)
                warn!(why, "a reply can't be passed on");
                Sent::Done(Answer::system("IMP_LIMIT", 0, Completed::No))
            }
        }
    }
}

/// What a loss means.
fn lost(loss: Loss) -> Sent {
    match loss {
        Loss::Unsent | Loss::Closed | Loss::Refused => Sent::Not(Refusal::Server),
        Loss::Long => Sent::Not(Refusal::Long),
        Loss::Sets => Sent::Not(Refusal::Sets),
        Loss::Lost | Loss::Silent => Sent::Maybe("COMM_FAILURE"),
    }
}

/// The answer to a repeat: the outcome of its first, which is ours where this life began it.
fn repeated(key: &Key, outcome: Outcome, is_ours: bool) -> Answer {
    metrics().repeats.inc();
    if !is_ours {
        metrics().after_restart.inc();
        says_maybe(key, &outcome);
    }
    outcome.into()
}

/// Counts and says it where an outcome is that nobody knows.
fn says_maybe(key: &Key, outcome: &Outcome) {
    let is_of = |name| *outcome == Outcome::system(name, 0, Completed::Maybe);
    let is_system = outcome.status == Status::SystemException.number();
    if is_system && ["COMM_FAILURE", "TIMEOUT"].into_iter().any(is_of) {
        metrics().maybe.inc();
        let (client, number) = (shown(&key.client), key.number);
        warn!(%client, number, "told MAYBE: nobody knows whether it was performed");
    }
}
