//! Calls over sockets.

use super::object::{call, outcome, Calls, Failure, Object, SystemRaised};
use super::road::Road;
use super::{Codec, Operation, Reference, String, Vec};
use crate::cdr::Writer;
use crate::{Client, Completed, Ended, Error, Moment};
use alloc::format;
use std::io::{self, ErrorKind, Read, Write};
use std::net::{TcpStream, ToSocketAddrs};
use std::thread;
use std::time::{Duration, Instant};

/// How long calls are sent again where nothing else is said.
const PATIENCE: Duration = Duration::from_secs(60);
/// How long one of several addresses may take to be reached.
const REACH: Duration = Duration::from_secs(10);
/// How long a reply is waited for at a time: then what expired ends, and TRANSIENT is sent again.
const SILENCE: Duration = Duration::from_millis(100);
/// The first pause where the server is not there, and the longest.
const PAUSES: (Duration, Duration) = (Duration::from_millis(20), Duration::from_secs(1));
/// What a server raises that has not the object.
const NOT_EXIST: &str = "IDL:omg.org/CORBA/OBJECT_NOT_EXIST:1.0";

/// Makes calls over TCP, one at a time, and waits for each: it is sent again under its number on
/// each new connection, and after `TRANSIENT`, until it is answered or expires. An address that
/// can't be reached, is lost without an answer, answers `TRANSIENT`, or says nothing for a time is
/// left for the next one. A call that is forwarded is asked for where it leads, and so are later
/// ones of its key, until nobody answers there. A oneway call has ended once it is sent. Where no
/// address can be reached as it expires, it ends by `TRANSIENT`, [`Completed::No`], or by
/// `COMM_FAILURE`, [`Completed::Maybe`], if a connection was lost on which it was sent. Its client
/// id is random.
#[derive(Debug)]
pub struct Caller {
    client: Client,
    id: String,
    /// The number of the last call.
    last: i32,
    patience: Duration,
    /// How long one of several addresses may say nothing; none: its share of the patience.
    answer_timeout: Option<Duration>,
    values_limit: Option<usize>,
    home: Road,
    /// A key that was forwarded, and where that leads, while somebody answers there.
    led: Option<(Vec<u8>, Road)>,
    /// Whether the client asks there.
    is_led: bool,
    link: Link,
    /// Whether a connection was lost on which the call was sent.
    is_lost: bool,
}

/// A connection, if there is one.
#[derive(Debug)]
struct Link {
    stream: Option<TcpStream>,
    /// When something was sent or came last.
    since: Instant,
    /// Whether an answer came on it.
    is_heard: bool,
    /// Whether a call was sent on it that is not answered.
    is_sent: bool,
}

impl Default for Link {
    fn default() -> Link {
        Link { stream: None, since: Instant::now(), is_heard: false, is_sent: false }
    }
}

/// How the wait for a call ends.
enum Settled<O: Operation> {
    /// By what came of it.
    Ended(Result<O::Results, Failure<O>>),
    /// By a forward.
    Led(Reference),
    /// Nobody answers where it was led, or it is oneway and could not be sent.
    Unanswered,
}

/// Pauses, each twice as long as the one before.
struct Pauses(Duration);

impl Pauses {
    fn wait(&mut self) {
        thread::sleep(self.0);
        self.0 = PAUSES.1.min(2 * self.0);
    }
}

impl Caller {
    /// Calls a server at this address. It is not connected yet.
    ///
    /// # Errors
    ///
    /// `Memory`.
    pub fn open(host: impl Into<String>, port: u16) -> Result<Caller, Error> {
        Caller::by(Road::to(host.into(), port))
    }

    fn by(home: Road) -> Result<Caller, Error> {
        let [one, two] = crate::seeds::random();
        let id = format!("{one:016x}{two:016x}");
        let client = opened(&id, &home, 0)?;
        let (patience, link) = (PATIENCE, Link::default());
        let (last, answer_timeout, values_limit) = (0, None, None);
        let (led, is_led, is_lost) = (None, false, false);
        Ok(Caller {
            client,
            id,
            last,
            patience,
            answer_timeout,
            values_limit,
            home,
            led,
            is_led,
            link,
            is_lost,
        })
    }

    /// Says how long the calls that come are sent again: 60 seconds in a new one.
    pub fn set_patience(&mut self, patience: Duration) {
        self.patience = patience;
    }

    /// Says how long one of several addresses may say nothing to a call until the next one is
    /// asked: in a new one its share of the patience.
    pub fn set_answer_timeout(&mut self, most: Duration) {
        self.answer_timeout = Some(most);
    }

    /// Says how much memory what a reply has may take, as [`Reader::limit`](crate::cdr::Reader::limit)
    /// does.
    pub fn set_values_limit(&mut self, octets: usize) {
        self.values_limit = Some(octets);
        self.client.set_values_limit(octets);
    }

    fn road(&mut self) -> &mut Road {
        match &mut self.led {
            Some((_, road)) if self.is_led => road,
            _ => &mut self.home,
        }
    }

    /// Goes home, or where a key was led, and gives the key there. The next call gets the number
    /// after this one.
    fn turn_to(&mut self, key: &[u8], last: i32) -> Result<Vec<u8>, Error> {
        let led = self.led.as_ref().filter(|(from, _)| from == key).map(|(_, road)| road);
        if led.is_some() != self.is_led || last != self.last {
            self.client = opened(&self.id, led.unwrap_or(&self.home), last)?;
            if let Some(octets) = self.values_limit {
                self.client.set_values_limit(octets);
            }
            (self.is_led, self.last) = (led.is_some(), last);
            self.link = Link::default();
        }
        let led = self.led.as_ref().filter(|_| self.is_led);
        Ok(led.map_or_else(|| key.to_vec(), |(_, road)| road.key.clone()))
    }

    /// Waits until the call of a number has ended.
    fn settle<O: Operation>(&mut self, number: i32) -> Result<Settled<O>, Error> {
        let (mut failed, mut pauses) = (0, Pauses(PAUSES.0));
        loop {
            self.client.tick(Moment::now());
            // (a oneway call has ended as soon as it is due: so what is due is sent first)
            let is_well = self.send_due().is_ok();
            let mut has_ended = false;
            if let Some(completion) = self.client.completed()? {
                has_ended = completion.call == number;
                if has_ended && (is_well || completion.ended != Ended::Sent) {
                    return self.link.settled(&completion, self.is_lost);
                }
            }
            if !has_ended && is_well && self.talk().is_ok() {
                continue;
            }
            match self.move_on(&mut failed, &mut pauses) {
                true if !has_ended => continue,
                true => {}
                false => {
                    self.client.cancel(number)?;
                    self.led = None;
                }
            }
            return Ok(Settled::Unanswered);
        }
    }

    /// Whether the address that is asked has said nothing for too long, and there is another way:
    /// another address, or the one to where a call was led from.
    fn is_mute(&mut self) -> bool {
        let count = u32::try_from(self.road().addresses.len()).unwrap_or(u32::MAX);
        let most = self.answer_timeout.unwrap_or(self.patience / count);
        let is_waiting = self.link.stream.is_some() && self.link.is_sent;
        is_waiting && (self.is_led || count > 1) && self.link.since.elapsed() >= most
    }

    /// Leaves an address for the next one, but for one that had answered on this connection and was
    /// lost. After each connection, and after a round of addresses, it waits. Not so where a call
    /// was led to where nobody answers.
    fn move_on(&mut self, failed: &mut usize, pauses: &mut Pauses) -> bool {
        let was_mute = self.is_mute();
        let left = core::mem::take(&mut self.link);
        let was_there = left.stream.is_some() && !was_mute;
        self.client.lost();
        self.is_lost |= left.is_sent;
        if left.is_heard && !was_mute {
            return true;
        }
        let road = self.road();
        let count = road.addresses.len();
        road.next = (road.next + 1) % count;
        *failed = if was_there { 0 } else { *failed + 1 };
        if self.is_led && *failed == count {
            return false;
        }
        if was_there || *failed % count == 0 {
            pauses.wait();
        }
        true
    }

    /// Connects with the address that is to be asked.
    fn connect(&mut self) -> io::Result<()> {
        let patience = self.patience;
        let road = self.road();
        let (host, port) = &road.addresses[road.next];
        let share = match u32::try_from(road.addresses.len()).unwrap_or(u32::MAX) {
            1 => patience,
            count => REACH.min(patience / count),
        };
        self.link.stream = Some(connected(host, *port, share)?);
        self.client.connected(Moment::now()).map_err(io::Error::other)
    }

    /// Sends what is due, where it is connected.
    fn send_due(&mut self) -> io::Result<()> {
        let Some(stream) = &mut self.link.stream else { return Ok(()) };
        let due = self.client.take_output();
        if !due.is_empty() {
            self.link.is_sent = true;
            stream.write_all(&due)?;
            self.link.since = Instant::now();
        }
        Ok(())
    }

    /// Takes what comes within the time-out of the socket, if anything does.
    fn hear(&mut self) -> io::Result<bool> {
        let Some(stream) = &mut self.link.stream else { return Ok(false) };
        let mut room = [0; 4096];
        let size = match stream.read(&mut room) {
            Ok(size) => size,
            // (the last two: a time-out)
            Err(error)
                if matches!(
                    error.kind(),
                    ErrorKind::Interrupted | ErrorKind::WouldBlock | ErrorKind::TimedOut
                ) =>
            {
                return Ok(false);
            }
            Err(error) => return Err(error),
        };
        self.link.since = Instant::now();
        if size == 0 {
            return Err(ErrorKind::UnexpectedEof.into());
        }
        self.client.feed(&room[..size]).map_err(io::Error::other)?;
        match self.client.is_connected() {
            true => Ok(true),
            false => Err(ErrorKind::ConnectionAborted.into()),
        }
    }

    /// Whether a connection, if there is one, goes on, as far as that can be heard at once.
    fn goes_on(&mut self) -> bool {
        let Some(stream) = &self.link.stream else { return true };
        let is_set = stream.set_nonblocking(true).is_ok();
        let is_well = self.hear().is_ok();
        let is_reset =
            self.link.stream.as_ref().is_some_and(|it| it.set_nonblocking(false).is_ok());
        is_set && is_well && is_reset
    }

    /// Connects, or takes what comes for a while.
    fn talk(&mut self) -> io::Result<()> {
        if self.link.stream.is_none() {
            return self.connect();
        }
        if self.hear()? {
            return Ok(());
        }
        if self.is_mute() {
            return Err(ErrorKind::TimedOut.into());
        }
        self.resend()
    }

    /// What `TRANSIENT` left pending is due again: here, if there is no other address.
    fn resend(&mut self) -> io::Result<()> {
        self.client.resend(Moment::now()).map_err(io::Error::other)?;
        if self.road().addresses.len() == 1 || self.client.output(&mut [0]) == 0 {
            return Ok(());
        }
        (self.link.is_sent, self.link.is_heard) = (false, false);
        Err(ErrorKind::ConnectionAborted.into())
    }
}

impl Link {
    /// What came of a call that has ended; `is_lost` as of the caller.
    fn settled<O: Operation>(
        &mut self,
        completion: &crate::Completion<'_>,
        is_lost: bool,
    ) -> Result<Settled<O>, Error> {
        if completion.ended == Ended::Expired {
            let is_there = self.stream.is_some();
            let failure = if is_there { Error::Expired.into() } else { unreached(is_lost) };
            return Ok(Settled::Ended(Err(failure)));
        }
        (self.is_sent, self.is_heard) = (false, completion.ended != Ended::Sent || self.is_heard);
        if completion.ended == Ended::Forwarded {
            return Ok(Settled::Led(Reference::read(&mut completion.reader())?));
        }
        Ok(Settled::Ended(outcome(completion)))
    }
}

/// How a call ends where no address can be reached.
fn unreached<O>(is_lost: bool) -> Failure<O> {
    let (name, completed) = match is_lost {
        true => ("COMM_FAILURE", Completed::Maybe),
        false => ("TRANSIENT", Completed::No),
    };
    Failure::System(SystemRaised {
        id: format!("IDL:omg.org/CORBA/{name}:1.0"),
        minor: 0,
        completed,
    })
}

/// A client of an id, by the version of a road, whose next call gets the number after this one.
fn opened(id: &str, road: &Road, last: i32) -> Result<Client, Error> {
    let mut client = Client::open(id)?;
    client.set_version(road.version)?;
    client.keep_transient(true);
    client.skip_to(last)?;
    Ok(client)
}

/// A connection with a server that is there within a time.
fn connected(host: &str, port: u16, patience: Duration) -> io::Result<TcpStream> {
    let most = patience.max(SILENCE);
    let mut found = Err(ErrorKind::NotFound.into());
    for address in (host, port).to_socket_addrs()? {
        found = TcpStream::connect_timeout(&address, most);
        if found.is_ok() {
            break;
        }
    }
    let stream = found?;
    stream.set_nodelay(true)?;
    stream.set_read_timeout(Some(SILENCE))?;
    stream.set_write_timeout(Some(most))?;
    Ok(stream)
}

impl Calls for Caller {
    /// Makes a call under one number, wherever it leads, until it has ended.
    fn call<O: Operation>(
        &mut self,
        key: &[u8],
        arguments: &Writer,
    ) -> Result<O::Results, Failure<O>> {
        let (expiration, last) = (Moment::now() + self.patience, self.last);
        let mut pauses = Pauses(PAUSES.0);
        (self.is_lost, self.link.is_sent) = (false, false);
        for hops in 0_u64.. {
            if hops > 2 {
                pauses.wait();
            }
            let there = self.turn_to(key, last)?;
            // (of a oneway call nobody would hear that its connection is over)
            if O::IS_ONEWAY && !self.goes_on() {
                self.link = Link::default();
                self.client.lost();
            }
            let made = call::<O>(&mut self.client, Moment::now(), expiration, &there, arguments);
            self.last = match made {
                Err(Error::Expired) if hops > 0 => return Err(unreached(self.is_lost)),
                made => made?,
            };
            match self.settle(self.last)? {
                Settled::Ended(outcome) => {
                    if matches!(&outcome, Err(Failure::System(raised)) if raised.id == NOT_EXIST) {
                        // (the next call of the key is asked for at home)
                        self.led = None;
                    }
                    return outcome;
                }
                Settled::Led(reference) => {
                    let road = Road::of(&reference).ok_or(Error::Outcome)?;
                    self.led = Some((key.to_vec(), road));
                }
                Settled::Unanswered => {}
            }
        }
        Err(Error::Expired.into())
    }
}

impl Object<Caller> {
    /// The object of a stringified reference, at all its addresses of IIOP under the key of the
    /// first one, also in components `TAG_ALTERNATE_IIOP_ADDRESS`, by a caller of its own.
    ///
    /// # Errors
    ///
    /// `Reference`: it is none, or has no such address; `Memory`.
    pub fn of(reference: &str) -> Result<Object<Caller>, Error> {
        let road = Road::of(&reference.parse()?).ok_or(Error::Reference)?;
        let key = road.key.clone();
        Ok(Object::new(Caller::by(road)?, key))
    }
}
