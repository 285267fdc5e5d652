//! Sockets: plain ones, and those of TLS, behind one type.

use crate::pool::Terms;
use crate::settings::Limits;
use crate::tls::Acceptor;
use futures_util::poll;
use socket2::{SockRef, TcpKeepalive};
use std::env;
use std::future::Future;
use std::io;
use std::net::SocketAddr;
use std::os::linux::net::SocketAddrExt;
use std::os::unix::ffi::OsStrExt;
use std::os::unix::net::{self, UnixDatagram};
use std::pin::pin;
use std::sync::{Mutex, MutexGuard, PoisonError};
use std::task::Poll;
use std::time::Duration;
use tokio::io::{AsyncRead, AsyncWrite, AsyncWriteExt};
use tokio::net::{lookup_host, TcpStream};
use tokio::select;
use tokio::signal::unix::{signal, SignalKind};
use tokio::time::timeout;
use tokio_openssl::SslStream;
use tracing::warn;

/// How long a connection that is opened, with its handshake, may take to be there.
const PATIENCE: Duration = Duration::from_secs(5);

/// After how long without octets a client, and a server or a guard, are asked whether they are there,
/// and how often then.
const QUIET: (Duration, Duration) = (Duration::from_secs(60), Duration::from_secs(10));
const OFTEN: Duration = Duration::from_secs(5);

/// What octets come from and go to.
pub trait Io: AsyncRead + AsyncWrite + Send + Unpin {
    /// Its two directions, each for a task of its own.
    fn halves(self: Box<Self>) -> (Reading, Writing);
}

/// The octets that come on a connection, and those that go.
pub type Reading = Box<dyn AsyncRead + Send + Unpin>;
pub type Writing = Box<dyn AsyncWrite + Send + Unpin>;

impl Io for TcpStream {
    /// (Those of `tokio::io::split` share a lock, on which a thread yields until it is free.)
    fn halves(self: Box<Self>) -> (Reading, Writing) {
        let (reading, writing) = self.into_split();
        (Box::new(reading), Box::new(writing))
    }
}

impl Io for SslStream<TcpStream> {
    fn halves(self: Box<Self>) -> (Reading, Writing) {
        let (reading, writing) = tokio::io::split(*self);
        (Box::new(reading), Box::new(writing))
    }
}

/// A connection's octets.
pub type Stream = Box<dyn Io>;

/// The host of `HOST:PORT`, or of `[HOST]:PORT`.
fn host_of(address: &str) -> &str {
    let host = address.rsplit_once(':').map_or(address, |(host, _)| host);
    host.strip_prefix('[').and_then(|host| host.strip_suffix(']')).unwrap_or(host)
}

/// The host and the port of `HOST:PORT`.
#[must_use]
pub fn parts_of(address: &str) -> Option<(String, u16)> {
    let (_, port) = address.rsplit_once(':')?;
    Some((host_of(address).to_owned(), port.parse().ok()?))
}

/// The hosts and the ports of addresses.
#[must_use]
pub fn all_parts(addresses: &[String]) -> Vec<(String, u16)> {
    addresses.iter().filter_map(|address| parts_of(address)).collect()
}

/// A host and a port as `HOST:PORT`, or as `[HOST]:PORT` where the host has colons.
#[must_use]
pub fn words_of(host: &str, port: u16) -> String {
    if host.contains(':') {
        format!("[{host}]:{port}")
    } else {
        format!("{host}:{port}")
    }
}

/// Octets of a peer as they can stand in the log: in one line.
#[must_use]
pub fn shown(octets: &[u8]) -> String {
    String::from_utf8_lossy(octets).escape_debug().to_string()
}

/// What a mutex has, also where a thread that held it has panicked.
pub fn locked<T>(mutex: &Mutex<T>) -> MutexGuard<'_, T> {
    mutex.lock().unwrap_or_else(PoisonError::into_inner)
}

/// Writes octets, and says whether they were taken within a time.
pub async fn writes(half: &mut Writing, octets: &[u8], patience: Duration) -> bool {
    let mut writing = pin!(async {
        half.write_all(octets).await?;
        half.flush().await
    });
    // (most are taken at once, and need no time)
    match poll!(writing.as_mut()) {
        Poll::Ready(written) => written.is_ok(),
        Poll::Pending => matches!(timeout(patience, writing).await, Ok(Ok(()))),
    }
}

/// From now on the program is not ended by SIGTERM or SIGINT: the future ends, once it is asked to
/// end by one of them.
pub fn ended() -> impl Future<Output = ()> {
    let signals = (signal(SignalKind::terminate()), signal(SignalKind::interrupt()));
    async move {
        if let (Ok(mut terminate), Ok(mut interrupt)) = signals {
            select! {
                _ = terminate.recv() => {}
                _ = interrupt.recv() => {}
            }
        }
    }
}

/// Tells the system's manager a state, as `READY=1`, where it asked for that (sd_notify).
pub fn notify(state: &str) {
    let Some(path) = env::var_os("NOTIFY_SOCKET") else { return };
    let address = match path.as_bytes().strip_prefix(b"@") {
        Some(name) => net::SocketAddr::from_abstract_name(name),
        None => net::SocketAddr::from_pathname(&path),
    };
    let told =
        UnixDatagram::unbound().and_then(|socket| socket.send_to_addr(state.as_bytes(), &address?));
    if let Err(error) = told {
        warn!(%error, "the system's manager is not told");
    }
}

/// Where `HOST:PORT` is found.
async fn found(address: &str) -> io::Result<Vec<SocketAddr>> {
    Ok(timeout(PATIENCE, lookup_host(address)).await??.collect())
}

/// Whether an address is one of some, by its words or by where its host is found.
pub async fn is_among(address: &(String, u16), some: &[(String, u16)]) -> bool {
    if some.contains(address) {
        return true;
    }
    let at = |(host, port): &(String, u16)| words_of(host, *port);
    let Ok(here) = found(&at(address)).await else { return false };
    for other in some.iter().filter(|other| other.1 == address.1) {
        let there = found(&at(other)).await.unwrap_or_default();
        if there.iter().any(|one| here.contains(one)) {
            return true;
        }
    }
    false
}

/// Connects to `HOST:PORT`, to each of the host's addresses in turn; over TLS where there is a
/// connector.
///
/// # Errors
///
/// Nobody is there, or is not within five seconds; the certificate is not that of the host; it is
/// this program that is there.
pub async fn connect(address: &str, terms: &Terms) -> io::Result<Stream> {
    let connected = timeout(PATIENCE, async {
        let places = found(address).await?;
        let mut error = io::ErrorKind::NotFound.into();
        let patience = PATIENCE / u32::try_from(places.len()).unwrap_or(1).max(1);
        for place in places {
            match timeout(patience, TcpStream::connect(place)).await {
                Ok(Ok(socket)) if leads_to(&socket, &terms.own) => {
                    error = io::Error::other("it leads back to this relay");
                }
                Ok(Ok(socket)) => return secured(socket, host_of(address), terms).await,
                Ok(Err(failed)) => error = failed,
                Err(late) => error = late.into(),
            }
        }
        Err(error)
    });
    connected.await?
}

/// What is written goes out at once; and where a peer is gone without a trace, or its network is, the
/// socket fails: once what was sent is unconfirmed for so long, and though nothing is sent.
fn set(socket: &TcpStream, quiet: Duration, unconfirmed: Duration) -> io::Result<()> {
    socket.set_nodelay(true)?;
    let socket = SockRef::from(socket);
    socket.set_tcp_keepalive(&TcpKeepalive::new().with_time(quiet).with_interval(OFTEN))?;
    socket.set_tcp_user_timeout(Some(unconfirmed))
}

/// An address of IPv4 as one, where a listener of IPv6 takes it for one of those.
#[must_use]
pub fn plain(address: SocketAddr) -> SocketAddr {
    SocketAddr::new(address.ip().to_canonical(), address.port())
}

/// Whether a connection leads to one of some addresses of this machine.
fn leads_to(socket: &TcpStream, own: &[SocketAddr]) -> bool {
    let (Ok(peer), Ok(local)) = (socket.peer_addr(), socket.local_addr()) else { return false };
    let is_here = local.ip() == peer.ip() || local.ip().is_loopback() && peer.ip().is_loopback();
    let is_at = |at: &SocketAddr| at.ip() == peer.ip() || at.ip().is_unspecified() && is_here;
    own.iter().any(|at| at.port() == peer.port() && is_at(at))
}

/// The octets of a socket that was connected to a host.
async fn secured(socket: TcpStream, host: &str, terms: &Terms) -> io::Result<Stream> {
    set(&socket, QUIET.1, terms.unconfirmed)?;
    match &terms.tls {
        None => Ok(Box::new(socket)),
        Some(tls) => Ok(Box::new(tls.connect(host, socket).await?)),
    }
}

/// The octets of a socket that was accepted, and the names in the certificate that its peer showed.
///
/// # Errors
///
/// The handshake failed, or took longer than it may.
pub async fn accept(
    socket: TcpStream,
    tls: Option<&Acceptor>,
    limits: &Limits,
) -> io::Result<(Stream, Vec<String>)> {
    set(&socket, QUIET.0, limits.stalled)?;
    let Some(tls) = tls else { return Ok((Box::new(socket), Vec::new())) };
    let (stream, names) = timeout(limits.handshake, tls.accept(socket)).await??;
    Ok((Box::new(stream), names))
}

#[cfg(test)]
mod tests {
    use super::*;

    #[test]
    fn an_address_has_a_host() {
        for (address, host) in [("a.b:1", "a.b"), ("[::1]:2809", "::1"), ("a", "a")] {
            assert_eq!(host_of(address), host);
        }
    }
}
