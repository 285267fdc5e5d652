//! Serves an engine over tokio: listener, sockets, time limits, and the end at SIGTERM.
//!
//! A servant has the engine. It is asked under a lock, which a task or a thread of its own takes
//! to answer what it parked; then it calls [`tell_due`].

use lemonrudder::{Error, Moment, Server};
use std::collections::HashMap;
use std::io;
use std::sync::{Arc, Mutex};
use tokio::io::{copy, sink, AsyncReadExt, AsyncWriteExt};
use tokio::net::{TcpListener, TcpStream};
use tokio::signal::unix::{signal, SignalKind};
use tokio::time::{interval, sleep, timeout, Duration};
use tokio::{select, sync::watch, sync::Notify, task::JoinSet};

/// How long a peer may be silent, or take nothing of what is due to it.
const IDLE: Duration = Duration::from_secs(600);
/// What a peer has to close at the end of its stream; and a pause where nobody can be accepted.
const LINGER: Duration = Duration::from_secs(2);
/// What is under way has to end once the server is to stop.
const DRAIN: Duration = Duration::from_secs(30);

pub type Shared<S> = Arc<Mutex<Served<S>>>;

/// Who has an engine.
pub trait Servant: Send + Sized + 'static {
    fn server(&mut self) -> &mut Server;
    /// Feeds what came on a connection, answers or parks what is asked, and gives how much was
    /// taken.
    fn feed(&mut self, shared: &Shared<Self>, connection: u64, came: &[u8])
        -> Result<usize, Error>;
}

/// A servant, and who is told that octets are due on a connection.
pub struct Served<S> {
    pub servant: S,
    peers: HashMap<u64, Arc<Notify>>,
}

/// What a connection is attended to for.
enum Event<'a> {
    Came(&'a [u8]),
    Due,
    Goodbye,
}

/// What comes of that: octets to send, how many were taken, and whether the connection ends then.
struct Attended {
    due: Vec<u8>,
    taken: usize,
    is_over: bool,
}

/// Tells those to whom octets are due.
pub fn tell_due<S: Servant>(served: &mut Served<S>) {
    while let Some(connection) = served.servant.server().next_due() {
        if let Some(peer) = served.peers.get(&connection) {
            peer.notify_one();
        }
    }
}

/// Attends to a connection. What it gives is under one lock with what made it due.
fn attend<S: Servant>(shared: &Shared<S>, connection: u64, event: Event<'_>) -> Attended {
    let served = &mut *shared.lock().unwrap();
    let done = match event {
        Event::Came(came) => served.servant.feed(shared, connection, came),
        Event::Due => Ok(0),
        Event::Goodbye => served.servant.server().farewell(connection).map(|_| 0),
    };
    let server = served.servant.server();
    server.give_up(); // (for want of memory a request may wait still)
    let due = server.take_output(connection);
    let is_over = done.is_err() || server.is_closed(connection);
    Attended { due, taken: done.unwrap_or(0), is_over }
}

/// Serves a connection until its stream ends, it is silent for too long, or the server is to stop.
async fn talk<S: Servant>(
    stream: &mut TcpStream,
    shared: &Shared<S>,
    connection: u64,
    mut stop: watch::Receiver<()>,
) -> io::Result<()> {
    stream.set_nodelay(true)?;
    let told = Arc::new(Notify::new());
    shared.lock().unwrap().peers.insert(connection, told.clone());
    let (mut room, mut is_leaving) = ([0; 4096], false);
    loop {
        let (mut size, mut taken) = (None, 0);
        let event = select! {
            _ = told.notified() => Event::Due,
            _ = stop.changed(), if !is_leaving => Event::Goodbye,
            read = timeout(IDLE, stream.read(&mut room)), if !is_leaving => match read {
                Ok(read) => { size = Some(read?); Event::Due }
                Err(_) => Event::Goodbye,
            },
        };
        if size == Some(0) {
            return Ok(());
        }
        is_leaving = is_leaving || matches!(event, Event::Goodbye);
        let mut event = Some(event).filter(|_| size.is_none());
        loop {
            let came = &room[taken..size.unwrap_or(taken)];
            let attended = attend(shared, connection, event.take().unwrap_or(Event::Came(came)));
            timeout(IDLE, stream.write_all(&attended.due)).await??;
            if attended.is_over {
                stream.shutdown().await?;
                // what still comes means nothing; it is taken, so that what was sent last arrives
                return timeout(LINGER, copy(stream, &mut sink())).await?.map(drop);
            }
            taken += attended.taken;
            if taken >= size.unwrap_or(0) {
                break;
            }
        }
    }
}

/// Gives what an engine over a servant is shared by.
pub fn share<S: Servant>(servant: S) -> Shared<S> {
    Arc::new(Mutex::new(Served { servant, peers: HashMap::new() }))
}

/// Serves those who come, until SIGTERM; then what is under way ends.
pub async fn serve<S: Servant>(
    listener: TcpListener,
    shared: &Shared<S>,
) -> Result<(), Box<dyn std::error::Error>> {
    let mut terminated = signal(SignalKind::terminate())?;
    let (stop, stopped) = watch::channel(());
    let (mut peers, mut connection) = (JoinSet::new(), 0);
    let mut seconds = interval(Duration::from_secs(1));
    loop {
        let mut stream = select! {
            _ = terminated.recv() => break,
            _ = seconds.tick() => {
                // (what expired is forgotten, though nobody asks)
                shared.lock().unwrap().servant.server().tick(Moment::now())?;
                continue;
            }
            Some(_) = peers.join_next() => continue,
            accepted = listener.accept() => match accepted {
                Ok((stream, _)) => stream,
                Err(_) => { sleep(LINGER).await; continue }
            },
        };
        let (shared, stopped) = (shared.clone(), stopped.clone());
        connection += 1;
        if shared.lock().unwrap().servant.server().connect(connection).is_ok() {
            peers.spawn(async move {
                _ = talk(&mut stream, &shared, connection, stopped).await;
                let mut served = shared.lock().unwrap();
                served.peers.remove(&connection);
                served.servant.server().lost(connection)
            });
        }
    }
    drop(listener);
    stop.send(())?;
    // who takes nothing is left
    _ = timeout(DRAIN, async { while peers.join_next().await.is_some() {} }).await;
    Ok(())
}
