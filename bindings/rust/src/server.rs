//! A server of requests that may be sent again.

use crate::cdr::{Reader, Writer};
use crate::changes::Changes;
use crate::contexts::Contexts;
use crate::error::{self, copied, count, done, sure};
use crate::sys::{self, lr_request, lr_slot};
use crate::{
    Catalogue, Completed, Counted, Cuts, Error, Moment, Order, Part, Status, SystemName, Version,
    Why, Wish,
};
use alloc::boxed::Box;
use alloc::vec::Vec;
use core::mem::size_of;

/// What a server is opened with: its seeds, and its limits. What is not set is as it is said.
///
/// ```
/// use lemonrudder::Settings;
///
/// // outcomes of the last minute, 500 a second
/// let settings = Settings::default().capacity(30_000).share(1_000);
/// ```
#[derive(Clone, Debug)]
pub struct Settings {
    seeds: [u64; 2],
    limits: Vec<(u32, u64)>,
}

macro_rules! settings {
    ($($(#[$doc:meta])* $name:ident: $number:ty = $what:ident;)*) => {$(
        $(#[$doc])*
        #[must_use]
        pub fn $name(self, number: $number) -> Settings {
            self.with(sys::$what, number.into())
        }
    )*};
}

impl Settings {
    /// These seeds, which are random numbers that no client can guess, and the limits that are
    /// usual.
    #[must_use]
    pub fn new(seeds: [u64; 2]) -> Settings {
        Settings { seeds, limits: Vec::new() }
    }

    /// With one limit more.
    fn with(mut self, what: u32, number: u64) -> Settings {
        self.limits.push((what, number));
        self
    }

    /// Where a message of 1.1 may be cut. Else where that is aligned.
    #[must_use]
    pub fn cuts(self, cuts: Cuts) -> Settings {
        self.with(sys::LR_SET_CUTS, cuts.number().into())
    }

    settings! {
        /// How many octets a message may have: 4096 to 16777216. Else 1048576.
        message: u32 = LR_SET_MESSAGE;
        /// How many messages of a connection may be partial at a time: 1 to 16. Else 4.
        partials: u32 = LR_SET_PARTIALS;
        /// How many outcomes are kept for repeats at most. Else 65536.
        capacity: u32 = LR_SET_CAPACITY;
        /// How many of them are kept of each client at most. Else all.
        share: u32 = LR_SET_SHARE;
        /// How many requests may be parked at a time. Else 1024.
        parked: u32 = LR_SET_PARKED;
        /// How many of those that came on one connection. Else 64.
        parked_of_one: u32 = LR_SET_PARKED_OF;
        /// How many may wait for the outcome of a parked request, beside the last who came. Else 8.
        joined: u32 = LR_SET_JOINED;
        /// How many octets are due on a connection from which on it is fed no more. Else 1048576.
        due: u64 = LR_SET_DUE;
        /// How many octets a client's id may have; who has a longer one is answered BAD_CONTEXT.
        /// Else 256.
        client_id: u64 = LR_SET_CLIENT_ID;
        /// Whether a request with FT_REQUEST is asked for before it is refused for its object, its
        /// operation or its arguments ([`Request::refusal`]). Else it is refused.
        ask_first: bool = LR_SET_ASK_FIRST;
    }
}

/// [`Settings::new`] with random numbers of the system: of `getrandom` on Linux, and of
/// `/dev/urandom` elsewhere, or where it fails.
///
/// # Panics
///
/// Where the system has none of them.
#[cfg(feature = "std")]
impl Default for Settings {
    fn default() -> Settings {
        Settings::new(crate::seeds::random())
    }
}

/// The name of one request, by which it is answered: a server gives it to no other.
#[derive(Clone, Copy, Debug, PartialEq, Eq, PartialOrd, Ord, Hash)]
pub struct Ticket(u64);

impl Ticket {
    /// Its number, which is not 0.
    #[must_use]
    pub const fn number(self) -> u64 {
        self.0
    }
}

/// A server of requests that may be sent again: each distinct request is answered once, and its
/// repeats get that outcome. It is asked again only where it was given up or refused.
///
/// Octets that come on connections go in by [`serve`](Server::serve), which has each request
/// performed; and what is due goes out by [`output`](Server::output) after each call. `serve` is a
/// loop over [`feed`](Server::feed) and [`asked`](Server::asked).
///
/// One request waits at a time. While it does, `feed`, `connect`, `lost`, `farewell`, `tick` and
/// `swap` answer `Asking`. What takes its time is [parked](Request::park): others are fed, and it is
/// answered by its [`Ticket`] once its outcome is there. Its repeats join those who wait for that;
/// the replies are due on each connection where somebody waits, which [`due`](Server::due) gives.
///
/// ```
/// use lemonrudder::cdr::Writer;
/// use lemonrudder::{Catalogue, Moment, Order, Server, Settings, Signature, Type};
///
/// // long long add(in long n);
/// const ADD: Signature = Signature::new(&[Type::Long], &[Type::LongLong]);
///
/// let mut catalogue = Catalogue::open()?;
/// catalogue.object("c")?;
/// catalogue.operation("c", "add", &ADD)?;
/// let mut server = Server::open(catalogue, &Settings::default())?;
///
/// let mut total = 0;
/// server.connect(1)?;
/// server.serve(1, Moment::now(), b"octets that came on connection 1", |request| {
///     total += i64::from(request.reader().long()?);
///     request.answer(Writer::new(Order::Big).longlong(total)?)
/// })?;
/// let due = server.take_output(1);
/// # assert_eq!(due[7], 6);
/// # Ok::<(), lemonrudder::Error>(())
/// ```
///
/// A server may be given to another thread, but not be used by two at once:
///
/// ```
/// fn is_sent<T: Send>() {}
/// is_sent::<lemonrudder::Server>();
/// ```
///
/// ```compile_fail,E0277
/// fn is_shared<T: Sync>() {}
/// is_shared::<lemonrudder::Server>();
/// ```
#[derive(Debug)]
pub struct Server {
    pub(crate) slot: lr_slot,
    /// The parts of the request that waits, by their numbers; buffers that are used again.
    parts: [Vec<u8>; 4],
    is_asking_first: bool,
    values_limit: Option<usize>,
    pub(crate) changes: Changes,
}

impl Server {
    /// Opens a server of the objects of a catalogue.
    ///
    /// # Errors
    ///
    /// `Range`, `Memory`.
    pub fn open(mut catalogue: Catalogue, settings: &Settings) -> Result<Server, Error> {
        let mut slot = lr_slot::empty();
        let [low, high] = settings.seeds;
        done(sys::lr_server_open(&mut slot, &mut catalogue.slot, low, high))?;
        for (what, number) in &settings.limits {
            done(sys::lr_server_set(&mut slot, *what, *number))?;
        }
        let is_asking_first = settings.limits.contains(&(sys::LR_SET_ASK_FIRST, 1));
        let (parts, changes) = Default::default();
        Ok(Server { slot, parts, is_asking_first, values_limit: None, changes })
    }

    /// Says how much memory may be taken for what is read of a request, as [`Reader::limit`] does.
    pub fn set_values_limit(&mut self, octets: usize) {
        self.values_limit = Some(octets);
    }

    /// Opens a connection, whose number is greater than each before.
    ///
    /// # Errors
    ///
    /// `Asking`, `Connection`, `Memory`.
    pub fn connect(&mut self, connection: u64) -> Result<(), Error> {
        done(sys::lr_server_connect(&mut self.slot, connection))
    }

    /// Forgets a connection that is gone, if there is one, the octets that are due on it, and who
    /// waits there for an outcome.
    ///
    /// # Errors
    ///
    /// `Asking`.
    pub fn lost(&mut self, connection: u64) -> Result<(), Error> {
        done(sys::lr_server_lost(&mut self.slot, connection))
    }

    /// Says goodbye: CloseConnection is due, unless the connection's stream has ended. It answers how
    /// many wait there for the outcome of a parked request: it is due behind the last of their
    /// replies, and now where none does. What comes on the connection from now on has no meaning.
    ///
    /// # Errors
    ///
    /// `Asking`, `Connection`, `Lost`.
    pub fn farewell(&mut self, connection: u64) -> Result<usize, Error> {
        count(sys::lr_server_farewell(&mut self.slot, connection))
    }

    /// Why a connection has ended, until it is lost.
    ///
    /// # Errors
    ///
    /// `Connection`; and `Range`, where this version of the crate has no name for it.
    pub fn why(&mut self, connection: u64) -> Result<Why, Error> {
        let number = count(sys::lr_server_why(&mut self.slot, connection))?;
        Why::of(u32::try_from(number).map_err(|_| Error::Range)?)
    }

    /// Whether the connection was never opened, is gone, has ended or CloseConnection was said, so
    /// that its socket is to be closed once what is due is sent.
    pub fn is_closed(&mut self, connection: u64) -> bool {
        sure(sys::lr_server_is_closed(&mut self.slot, connection)) != 0
    }

    /// Takes octets of a connection that came at a moment, and answers how many it took: all of
    /// them; those up to a request that waits for its outcome, or to a repeat of a parked one; or
    /// fewer where [`Settings::due`] octets are due on it. The rest is to be fed at the same moment,
    /// when what waits is answered, or less is due.
    ///
    /// # Errors
    ///
    /// `Asking`, `Connection` (the clock has moved), and `Lost`, where what was answered before is
    /// due.
    pub fn feed(&mut self, connection: u64, moment: Moment, octets: &[u8]) -> Result<usize, Error> {
        // SAFETY: the octets are lent.
        let answer = unsafe {
            sys::lr_server_feed(
                &mut self.slot,
                connection,
                moment.0,
                octets.as_ptr().cast(),
                octets.len(),
            )
        };
        count(answer)
    }

    /// The request that waits for its outcome, if one does.
    ///
    /// # Errors
    ///
    /// `Memory`.
    pub fn asked(&mut self) -> Result<Option<Request<'_>>, Error> {
        let Some(mut said) = self.waiting() else {
            return Ok(None);
        };
        self.copy(said.ticket, Part::Key, said.key_size)?;
        if self.is_leaving(&self.parts[sys::LR_PART_KEY as usize]) {
            (said.is_refused, said.is_raw) = (1, 1);
            said.refusal = SystemName::ObjectNotExist as u32;
        }
        self.copy(said.ticket, Part::Operation, said.operation_size)?;
        self.copy(said.ticket, Part::Body, said.body_size)?;
        if said.has_client != 0 {
            self.copy(said.ticket, Part::Client, said.client_size)?;
        }
        Ok(Some(Request {
            order: Order::of(said.body_order)?,
            version: Version::of(said.version)?,
            wish: Wish::of(said.wish)?,
            said,
            server: self,
        }))
    }

    /// What is said of the request that waits, if one does.
    fn waiting(&mut self) -> Option<lr_request> {
        let mut said = lr_request::default();
        // SAFETY: it is as large as is said.
        let found =
            unsafe { sys::lr_server_asked(&mut self.slot, &mut said, size_of::<lr_request>()) };
        (sure(found) != 0).then_some(said)
    }

    /// The ticket of the request that waits; one that no request has, where none does.
    fn ticket(&mut self) -> Ticket {
        Ticket(self.waiting().map_or(0, |said| said.ticket))
    }

    /// Copies a part of the request that waits into its buffer.
    fn copy(&mut self, ticket: u64, part: Part, size: u64) -> Result<(), Error> {
        let room = &mut self.parts[part as usize];
        room.resize(error::size(size)?, 0);
        let (at, size) = (room.as_mut_ptr().cast(), room.len());
        // SAFETY: the room is lent.
        done(unsafe { sys::lr_server_part(&mut self.slot, ticket, part.number(), at, size) })
    }

    /// Feeds octets of a connection that came at a moment, has each request performed that waits in
    /// them, and answers how many it took: all of them, or fewer where [`Settings::due`] octets are
    /// due on the connection; the rest is to be served when less is. What is due is to be taken
    /// afterwards.
    ///
    /// A request that `perform` does not answer, park, refuse or give up is answered by `INTERNAL`,
    /// `Completed::Maybe`, since something may have been done that must not be done again.
    ///
    /// Where an error is answered, what came before it was answered, and the rest of the octets was
    /// not fed: take what is due, and end the connection by [`lost`](Server::lost).
    ///
    /// # Errors
    ///
    /// Those of `feed`, of [`Request::answer`] and of `perform`. A request waits still only where
    /// `INTERNAL` could not be answered (`Memory`): [`asked`](Server::asked) gives it.
    pub fn serve(
        &mut self,
        connection: u64,
        moment: Moment,
        octets: &[u8],
        perform: impl FnMut(&mut Request<'_>) -> Result<(), Error>,
    ) -> Result<usize, Error> {
        self.serve_each(connection, moment, octets, true, perform)
    }

    /// The same, but that `perform` is given `_is_a` and `_non_existent` too, which
    /// [`Request::identify`] answers: so it may refuse them of an object that its family lacks.
    ///
    /// # Errors
    ///
    /// As of [`serve`](Server::serve).
    pub fn serve_all(
        &mut self,
        connection: u64,
        moment: Moment,
        octets: &[u8],
        perform: impl FnMut(&mut Request<'_>) -> Result<(), Error>,
    ) -> Result<usize, Error> {
        self.serve_each(connection, moment, octets, false, perform)
    }

    fn serve_each(
        &mut self,
        connection: u64,
        moment: Moment,
        octets: &[u8],
        identifies: bool,
        mut perform: impl FnMut(&mut Request<'_>) -> Result<(), Error>,
    ) -> Result<usize, Error> {
        let mut taken = 0;
        loop {
            let left = octets.get(taken..).unwrap_or(&[]);
            let fed = self.feed(connection, moment, left)?;
            taken += fed;
            let Some(said) = self.waiting() else {
                if fed == 0 || taken == octets.len() {
                    return Ok(taken);
                }
                continue; // (up to a repeat of a parked request, or until enough is due)
            };
            match self.identify_or_refuse(&said, identifies) {
                Ok(true) => {}
                Ok(false) => self.perform(&mut perform)?,
                Err(error) => {
                    self.give_up();
                    return Err(error);
                }
            }
        }
    }

    /// Answers the request that waits where no servant does: of an object that leaves, or of what
    /// each object has.
    fn identify_or_refuse(&mut self, said: &lr_request, identifies: bool) -> Result<bool, Error> {
        let ticket = Ticket(said.ticket);
        if !self.leaves(ticket)? {
            return if identifies { self.identify(ticket) } else { Ok(false) };
        }
        if self.is_asking_first && said.has_client != 0 {
            return Ok(false);
        }
        self.refuse(ticket, SystemName::ObjectNotExist, 0).map(|()| true)
    }

    /// Has the request performed that waits. It is given up where it can't be read, and answered in
    /// any case where it can, unless it is parked.
    fn perform(
        &mut self,
        perform: &mut impl FnMut(&mut Request<'_>) -> Result<(), Error>,
    ) -> Result<(), Error> {
        let performed = match self.asked() {
            Ok(Some(mut request)) => perform(&mut request),
            Ok(None) => Ok(()),
            Err(error) => {
                self.give_up();
                Err(error)
            }
        };
        let ticket = self.ticket();
        let answered = self.system(ticket, SystemName::Internal, 0, Completed::Maybe);
        if self.is_changing() {
            self.take_out();
        }
        match answered {
            Ok(()) | Err(Error::Ticket) => performed,
            Err(error) => Err(error),
        }
    }

    /// Gives up the request that waits, if one does: you can't perform it now, and have done
    /// nothing. Nothing is kept, and its connection is gone; it is asked again when it comes again.
    pub fn give_up(&mut self) {
        let ticket = self.ticket();
        sure(sys::lr_server_give_up(&mut self.slot, ticket.0));
    }

    /// Answers the request of a ticket, which waits or is parked, by results.
    ///
    /// # Errors
    ///
    /// `Ticket`, where none of that ticket waits or is parked; of a parked one `Asking`, while
    /// another waits; `Outcome`, `Memory` (it waits or is parked still); and of one that waits
    /// `Lost`: the outcome counts and is kept, and its reply is lost.
    pub fn answer(&mut self, ticket: Ticket, results: &Writer) -> Result<(), Error> {
        let (order, octets) = (results.order().number(), results.as_octets());
        let (at, size) = (octets.as_ptr().cast(), octets.len());
        // SAFETY: the octets are lent.
        done(unsafe { sys::lr_server_answer(&mut self.slot, ticket.0, order, at, size) })
    }

    /// Answers it by an exception that the operation declares: its repository id, and its members.
    ///
    /// # Errors
    ///
    /// As of `answer`.
    pub fn raise(
        &mut self,
        ticket: Ticket,
        id: impl AsRef<[u8]>,
        members: &Writer,
    ) -> Result<(), Error> {
        let (id, order, octets) = (id.as_ref(), members.order().number(), members.as_octets());
        // SAFETY: the id and the octets are lent.
        done(unsafe {
            sys::lr_server_raise(
                &mut self.slot,
                ticket.0,
                id.as_ptr().cast(),
                id.len(),
                order,
                octets.as_ptr().cast(),
                octets.len(),
            )
        })
    }

    /// Answers it by a system exception with a minor code.
    ///
    /// # Errors
    ///
    /// As of `answer`.
    pub fn system(
        &mut self,
        ticket: Ticket,
        name: SystemName,
        minor: u32,
        completed: Completed,
    ) -> Result<(), Error> {
        let (name, completed) = (name.number(), completed.number());
        done(sys::lr_server_system(&mut self.slot, ticket.0, name, minor, completed))
    }

    /// Answers by the body of a Reply, of at most 1048576 octets, whose status is `NoException` to
    /// `LocationForward`. The types of the operation are not looked at: you answer for them.
    ///
    /// # Errors
    ///
    /// As of `answer`, and `Range`.
    pub fn answer_raw(
        &mut self,
        ticket: Ticket,
        status: Status,
        body: &Writer,
    ) -> Result<(), Error> {
        self.reply(ticket, status, body.order(), body.as_octets())
    }

    /// Answers by the body of a Reply.
    pub(crate) fn reply(
        &mut self,
        ticket: Ticket,
        status: Status,
        order: Order,
        octets: &[u8],
    ) -> Result<(), Error> {
        // SAFETY: the octets are lent.
        done(unsafe {
            sys::lr_server_answer_raw(
                &mut self.slot,
                ticket.0,
                status.number(),
                order.number(),
                octets.as_ptr().cast(),
                octets.len(),
            )
        })
    }

    /// Answers `_is_a` and `_non_existent` of an object that names its repository ids: whether that
    /// is what the request of a ticket asks, and it is answered. `serve` does so by itself.
    ///
    /// # Errors
    ///
    /// As of `answer`.
    pub fn identify(&mut self, ticket: Ticket) -> Result<bool, Error> {
        Ok(count(sys::lr_server_identify(&mut self.slot, ticket.0))? != 0)
    }

    /// Refuses it for now by a system exception with a minor code and `Completed::No`: you have
    /// done nothing. Nothing is kept, and it is asked again when it comes again. Its connection
    /// stays.
    ///
    /// # Errors
    ///
    /// `Ticket`; of a parked one `Asking`, while another waits; and of one that waits `Lost`: for
    /// want of memory it is given up.
    pub fn refuse(&mut self, ticket: Ticket, name: SystemName, minor: u32) -> Result<(), Error> {
        done(sys::lr_server_refuse(&mut self.slot, ticket.0, name.number(), minor))
    }

    /// A part of the request of a ticket, which waits or is parked.
    ///
    /// # Errors
    ///
    /// `Ticket`, `Memory`, and `NoPart`: it carries no FT_REQUEST.
    pub fn part(&mut self, ticket: Ticket, part: Part) -> Result<Vec<u8>, Error> {
        let slot = &mut self.slot;
        // SAFETY: the room is lent.
        copied(64, |room| unsafe {
            let (at, size) = (room.as_mut_ptr().cast(), room.len());
            sys::lr_server_part(slot, ticket.0, part.number(), at, size)
        })
    }

    /// How many requests are parked.
    pub fn parked(&mut self) -> usize {
        sure(sys::lr_server_parked(&mut self.slot))
    }

    /// How many are parked of those that came on a connection.
    pub fn parked_of(&mut self, connection: u64) -> usize {
        sure(sys::lr_server_parked_of(&mut self.slot, connection))
    }

    /// How many wait for the outcome of a parked request, on connections that go on: 0 where nobody
    /// would hear it. One that carries FT_REQUEST is kept all the same.
    ///
    /// # Errors
    ///
    /// `Ticket`.
    pub fn wanted(&mut self, ticket: Ticket) -> Result<usize, Error> {
        count(sys::lr_server_wanted(&mut self.slot, ticket.0))
    }

    /// A connection on which octets became due by the outcome of a parked request, if there is one:
    /// it is named no more for these.
    pub fn next_due(&mut self) -> Option<u64> {
        if self.is_changing() {
            self.take_out();
        }
        let mut connection = 0;
        let found = sys::lr_server_next_due(&mut self.slot, &mut connection);
        (sure(found) != 0).then_some(connection)
    }

    /// These connections, each with all octets that are due on it.
    ///
    /// ```
    /// # use lemonrudder::{Catalogue, Server, Settings};
    /// # let mut server = Server::open(Catalogue::open()?, &Settings::default())?;
    /// for (connection, octets) in server.due() {
    ///     // send them
    /// # drop((connection, octets));
    /// }
    /// # Ok::<(), lemonrudder::Error>(())
    /// ```
    pub fn due(&mut self) -> Due<'_> {
        Due(self)
    }

    /// Moves octets that are due on a connection into the room, as many as it has, and answers how
    /// many: 0 where none are left.
    pub fn output(&mut self, connection: u64, room: &mut [u8]) -> usize {
        let (at, size) = (room.as_mut_ptr().cast(), room.len());
        // SAFETY: the room is lent.
        sure(unsafe { sys::lr_server_output(&mut self.slot, connection, at, size) })
    }

    /// All octets that are due on a connection.
    pub fn take_output(&mut self, connection: u64) -> Vec<u8> {
        crate::all_of(|room| self.output(connection, room))
    }

    /// One of the numbers that it counts.
    pub fn count(&mut self, what: Counted) -> usize {
        sure(sys::lr_server_count(&mut self.slot, what.number()))
    }

    /// How many outcomes are kept of a client, by its id: so much of its share it holds.
    pub fn held_by(&mut self, client_id: impl AsRef<[u8]>) -> usize {
        let id = client_id.as_ref();
        // SAFETY: the id is lent.
        sure(unsafe { sys::lr_server_held_by(&mut self.slot, id.as_ptr().cast(), id.len()) })
    }

    /// The first expiration of what is kept, if anything is.
    pub fn next_expiry(&mut self) -> Option<Moment> {
        let mut moment = 0;
        let found = sys::lr_server_next_expiry(&mut self.slot, &mut moment);
        (sure(found) != 0).then_some(Moment(moment))
    }

    /// A moment has come: what expired before it is forgotten. So does each request that carries
    /// FT_REQUEST; where none come for long, this gives memory back.
    ///
    /// # Errors
    ///
    /// `Asking`.
    pub fn tick(&mut self, moment: Moment) -> Result<(), Error> {
        if self.is_changing() {
            self.take_out();
        }
        done(sys::lr_server_tick(&mut self.slot, moment.0))
    }

    /// Exchanges what it has on offer and a catalogue: so objects are added and taken away while it
    /// serves. What is kept stays. A parked request is answered by an outcome of its operation as
    /// that is on offer then, or by a system exception: [`remove`](Server::remove) waits for it.
    ///
    /// # Errors
    ///
    /// `Asking`.
    pub fn swap(&mut self, catalogue: &mut Catalogue) -> Result<(), Error> {
        done(sys::lr_server_swap(&mut self.slot, &mut catalogue.slot))
    }
}

/// The connections on which octets became due by the outcomes of parked requests, each with all
/// that is due on it.
#[derive(Debug)]
pub struct Due<'s>(&'s mut Server);

impl Iterator for Due<'_> {
    type Item = (u64, Vec<u8>);

    fn next(&mut self) -> Option<(u64, Vec<u8>)> {
        let connection = self.0.next_due()?;
        Some((connection, self.0.take_output(connection)))
    }
}

/// What a request says by FT_REQUEST.
#[derive(Clone, Copy, Debug, PartialEq, Eq)]
pub struct FtRequest<'a> {
    /// The client's id.
    pub client_id: &'a [u8],
    /// The number of the request, among those of its client.
    pub retention_id: i32,
    /// Up to when it may be sent again.
    pub expiration: Moment,
}

/// A request that waits for its outcome. It is answered once, or parked; where it is not,
/// [`Server::asked`] gives it again.
#[derive(Debug)]
pub struct Request<'s> {
    pub(crate) server: &'s mut Server,
    said: lr_request,
    order: Order,
    version: Version,
    wish: Wish,
}

impl Request<'_> {
    /// Its name, by which it is answered.
    #[must_use]
    pub fn ticket(&self) -> Ticket {
        Ticket(self.said.ticket)
    }

    /// The connection on which it came.
    #[must_use]
    pub fn connection(&self) -> u64 {
        self.said.connection
    }

    /// The key of the object.
    #[must_use]
    pub fn key(&self) -> &[u8] {
        &self.server.parts[sys::LR_PART_KEY as usize]
    }

    /// The name of the operation.
    #[must_use]
    pub fn operation(&self) -> &[u8] {
        &self.server.parts[sys::LR_PART_OPERATION as usize]
    }

    /// The body as it came, which begins with the arguments.
    #[must_use]
    pub fn body(&self) -> &[u8] {
        &self.server.parts[sys::LR_PART_BODY as usize]
    }

    /// The order of the body's numbers.
    #[must_use]
    pub fn order(&self) -> Order {
        self.order
    }

    /// The place of the body's first octet, from which it is aligned.
    #[must_use]
    pub fn place(&self) -> u64 {
        self.said.body_at
    }

    /// Reads the arguments.
    #[must_use]
    pub fn reader(&self) -> Reader<'_> {
        Reader::limited(self.body(), self.order, self.said.body_at, self.server.values_limit)
    }

    /// Whether the operation is raw.
    #[must_use]
    pub fn is_raw(&self) -> bool {
        self.said.is_raw != 0
    }

    /// By which exception it would be refused, where that is so and it is asked for first
    /// ([`Settings::ask_first`]): it is raw then.
    #[must_use]
    pub fn refusal(&self) -> Option<SystemName> {
        let is_refused = self.said.is_refused != 0;
        SystemName::from_number(self.said.refusal).filter(|_| is_refused)
    }

    /// Its request id.
    #[must_use]
    pub fn request_id(&self) -> u32 {
        self.said.request_id
    }

    /// Its version.
    #[must_use]
    pub fn version(&self) -> Version {
        self.version
    }

    /// Which reply it asks for.
    #[must_use]
    pub fn wish(&self) -> Wish {
        self.wish
    }

    /// What it says by FT_REQUEST, if it carries that.
    #[must_use]
    pub fn ft_request(&self) -> Option<FtRequest<'_>> {
        (self.said.has_client != 0).then(|| FtRequest {
            client_id: &self.server.parts[sys::LR_PART_CLIENT as usize],
            retention_id: self.said.retention_id,
            expiration: Moment(self.said.expiration),
        })
    }

    /// Its service contexts, in order.
    ///
    /// To read all takes the square of their count, which a peer may make large: take some.
    pub fn contexts(&mut self) -> Contexts<'_> {
        Contexts::of(&mut self.server.slot, self.said.contexts, sys::lr_server_context)
    }

    /// Parks it: it waits no more, and is answered later, by its ticket.
    ///
    /// ```
    /// # use lemonrudder::{cdr::Writer, Catalogue, Error, Moment, Order, Server, Settings};
    /// # let mut server = Server::open(Catalogue::open()?, &Settings::default())?;
    /// # server.connect(1)?;
    /// let mut parked = Vec::new();
    /// server.serve(1, Moment::now(), b"octets", |request| {
    ///     parked.push(request.park()?);
    ///     Ok(())
    /// })?;
    /// // and when the outcome is there
    /// for ticket in parked {
    ///     server.answer(ticket, Writer::new(Order::Big).longlong(7)?)?;
    /// }
    /// # Ok::<(), Error>(())
    /// ```
    ///
    /// # Errors
    ///
    /// `Parks`, `Memory`: it waits still, and is to be answered or refused now.
    pub fn park(&mut self) -> Result<Ticket, Error> {
        done(sys::lr_server_park(&mut self.server.slot, self.said.ticket))?;
        let key = self.key().to_vec();
        self.server.note_parked(self.said.ticket, key);
        Ok(self.ticket())
    }

    /// Changes what the server has on offer, as [`Server::change`] does, once the request waits no
    /// more, and before anybody is fed again.
    ///
    /// # Errors
    ///
    /// Those of `change` on an empty catalogue.
    pub fn change(
        &mut self,
        change: impl Fn(&mut Catalogue) -> Result<(), Error> + Send + 'static,
    ) -> Result<(), Error> {
        self.server.change_later(Box::new(change))
    }

    /// Takes an object away, as [`Server::remove`] does; it may be that of the request.
    pub fn remove(&mut self, key: impl Into<Vec<u8>>) {
        self.server.remove(key);
    }

    /// Answers by results, as [`Server::answer`] does.
    ///
    /// # Errors
    ///
    /// `Outcome`, `Memory` (it waits still), and `Lost`: the outcome counts and is kept, and its
    /// reply is lost.
    pub fn answer(&mut self, results: &Writer) -> Result<(), Error> {
        self.server.answer(self.ticket(), results)
    }

    /// Answers by an exception that the operation declares: its repository id, and its members.
    ///
    /// # Errors
    ///
    /// As of `answer`.
    pub fn raise(&mut self, id: impl AsRef<[u8]>, members: &Writer) -> Result<(), Error> {
        self.server.raise(self.ticket(), id, members)
    }

    /// Answers by a system exception with a minor code.
    ///
    /// # Errors
    ///
    /// As of `answer`.
    pub fn system(
        &mut self,
        name: SystemName,
        minor: u32,
        completed: Completed,
    ) -> Result<(), Error> {
        self.server.system(self.ticket(), name, minor, completed)
    }

    /// Answers by the body of a Reply, of at most 1048576 octets, whose status is `NoException` to
    /// `LocationForward`. The types of the operation are not looked at: you answer for them.
    ///
    /// # Errors
    ///
    /// As of `answer`, and `Range`.
    pub fn answer_raw(&mut self, status: Status, body: &Writer) -> Result<(), Error> {
        self.server.answer_raw(self.ticket(), status, body)
    }

    /// Gives it up: you can't perform it now, and have done nothing. Nothing is kept, and its
    /// connection is gone; it is asked again when it comes again.
    pub fn give_up(&mut self) {
        sure(sys::lr_server_give_up(&mut self.server.slot, self.said.ticket));
    }

    /// Answers `_is_a` and `_non_existent`, as [`Server::identify`] does: of what
    /// [`Server::serve_all`] gives.
    ///
    /// # Errors
    ///
    /// As of [`Server::answer`].
    pub fn identify(&mut self) -> Result<bool, Error> {
        self.server.identify(self.ticket())
    }

    /// Refuses it for now, as [`Server::refuse`] does.
    ///
    /// # Errors
    ///
    /// `Lost`: for want of memory it is given up.
    pub fn refuse(&mut self, name: SystemName, minor: u32) -> Result<(), Error> {
        self.server.refuse(self.ticket(), name, minor)
    }

    /// Gives it up, and says goodbye first: CloseConnection is due, by which its client knows that
    /// nothing was done. An ORB connects again at once, and sends it again: so this is for draining
    /// and restarts alone.
    ///
    /// # Errors
    ///
    /// `Parks`, where somebody waits on its connection for the outcome of a parked request, and
    /// `Memory` (it waits still).
    pub fn goodbye(&mut self) -> Result<(), Error> {
        done(sys::lr_server_goodbye(&mut self.server.slot, self.said.ticket))
    }
}
