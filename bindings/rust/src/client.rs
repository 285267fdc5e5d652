//! A client that sends its calls again.

use crate::cdr::{Reader, Writer};
use crate::error::{self, count, done, sure};
use crate::sys::{self, lr_completion, lr_slot};
use crate::types::codes_of;
use crate::{Completed, Ended, Error, Ior, Limits, Moment, Order, Type, Version, Wish};
use alloc::vec::Vec;
use core::mem::size_of;

/// A call of an operation.
#[derive(Clone, Copy, Debug)]
pub struct Call<'a> {
    /// The key of the object.
    pub key: &'a [u8],
    /// The name of the operation.
    pub operation: &'a str,
    /// The types of the arguments.
    pub types: &'a [Type<'a>],
    /// The arguments.
    pub arguments: &'a Writer,
    /// Up to when it may be sent again.
    pub expiration: Moment,
}

/// A call by a body of octets, written for a place divisible by 8, as a [`Writer`] writes it. A
/// oneway has [`Wish::None`]: it ends by [`Ended::Sent`].
#[derive(Clone, Copy, Debug)]
pub struct RawCall<'a> {
    /// The key of the object.
    pub key: &'a [u8],
    /// The name of the operation.
    pub operation: &'a str,
    /// Which reply it asks for.
    pub wish: Wish,
    /// The body.
    pub body: &'a Writer,
    /// Service contexts, as [`contexts`](crate::write::contexts) writes them in the order of the
    /// body; none where it is empty. FT_REQUEST is written by the client.
    pub contexts: &'a [u8],
    /// Up to when it may be sent again.
    pub expiration: Moment,
}

/// A client that sends its calls again. Each is sent with FT_REQUEST, once on each connection until
/// it is answered or its expiration is past, so that a server that keeps outcomes performs it once.
///
/// ```
/// use lemonrudder::cdr::Writer;
/// use lemonrudder::{Call, Client, Moment, Order, Type};
/// use std::time::Duration;
///
/// let mut client = Client::open("a name of its own")?;
/// let now = Moment::now();
/// let number = client.call(now, &Call {
///     key: b"c",
///     operation: "add",
///     types: &[Type::Long],
///     arguments: Writer::new(Order::Big).long(7)?,
///     expiration: now + Duration::from_secs(60),
/// })?;
/// assert_eq!(number, 1);
/// client.connected(now)?;
/// let due = client.take_output();
/// # assert_eq!(&due[..4], b"GIOP");
/// # Ok::<(), lemonrudder::Error>(())
/// ```
#[derive(Debug)]
pub struct Client {
    slot: lr_slot,
    /// The body of the completion taken last; a buffer that is used again.
    body: Vec<u8>,
    values_limit: Option<usize>,
}

impl Client {
    /// Opens a client that is not connected. Its id, 1 to 256 octets without a NUL, names it to
    /// each server. It writes GIOP 1.2, takes messages of a mebibyte, and joins four at a time.
    ///
    /// # Errors
    ///
    /// `Text`, `Memory`.
    pub fn open(id: impl AsRef<[u8]>) -> Result<Client, Error> {
        let (mut slot, id) = (lr_slot::empty(), id.as_ref());
        // SAFETY: the id is lent.
        done(unsafe { sys::lr_client_open(&mut slot, id.as_ptr().cast(), id.len()) })?;
        Ok(Client { slot, body: Vec::new(), values_limit: None })
    }

    /// Sets the version of its messages. This and the limits are set while it is not connected, and
    /// has no number of a call.
    ///
    /// # Errors
    ///
    /// `Open`: it is too late.
    pub fn set_version(&mut self, version: Version) -> Result<(), Error> {
        self.set(sys::LR_CLIENT_VERSION, version.number())
    }

    /// Sets the limits of what comes.
    ///
    /// # Errors
    ///
    /// `Range`, and `Open`: it is too late.
    pub fn set_limits(&mut self, limits: Limits) -> Result<(), Error> {
        self.set(sys::LR_CLIENT_MESSAGE, limits.message)?;
        self.set(sys::LR_CLIENT_PARTIALS, limits.partials)?;
        self.set(sys::LR_CLIENT_CUTS, limits.cuts.number())
    }

    /// Says how much memory may be taken for what is read of a reply, as [`Reader::limit`] does.
    pub fn set_values_limit(&mut self, octets: usize) {
        self.values_limit = Some(octets);
    }

    fn set(&mut self, what: u32, number: u32) -> Result<(), Error> {
        done(sys::lr_client_set(&mut self.slot, what, number.into()))
    }

    /// It is connected anew: what is pending, not led elsewhere and not past its expiration is due.
    /// Octets that were due for the connection before are dropped.
    ///
    /// # Errors
    ///
    /// `Lost`.
    pub fn connected(&mut self, now: Moment) -> Result<(), Error> {
        done(sys::lr_client_connected(&mut self.slot, now.0))
    }

    /// The connection is lost: what is pending stays so.
    pub fn lost(&mut self) {
        sure(sys::lr_client_lost(&mut self.slot));
    }

    /// Whether it is connected.
    pub fn is_connected(&mut self) -> bool {
        sure(sys::lr_client_is_connected(&mut self.slot)) != 0
    }

    /// Calls an operation of an object, and answers the number of the call: 1, 2 and so on.
    ///
    /// # Errors
    ///
    /// `Types`, `Text`, `Short`, `Value`, `Expired`, `Calls`, `Long`, `Memory`.
    pub fn call(&mut self, now: Moment, call: &Call<'_>) -> Result<i32, Error> {
        let types = codes_of(call.types)?;
        let arguments = call.arguments.as_octets();
        // SAFETY: the key, the name, the codes and the arguments are lent.
        let number = count(unsafe {
            sys::lr_client_call(
                &mut self.slot,
                now.0,
                call.expiration.0,
                call.key.as_ptr().cast(),
                call.key.len(),
                call.operation.as_ptr().cast(),
                call.operation.len(),
                types.as_ptr(),
                types.len(),
                call.arguments.order().number(),
                arguments.as_ptr().cast(),
                arguments.len(),
            )
        })?;
        i32::try_from(number).map_err(|_| Error::Range)
    }

    /// Takes a call of before up again under its number, in a client that was opened anew with the
    /// id of before: a server that performed it gives its first outcome. Its expiration is the one
    /// of before. The next call gets the number after this one.
    ///
    /// # Errors
    ///
    /// As of [`Client::call`]; `Range` where the number is below 0; and `Taken`, where it is 0, or
    /// not greater than each that this client gave, took up or skipped.
    pub fn recall(&mut self, number: i32, now: Moment, call: &Call<'_>) -> Result<(), Error> {
        let types = codes_of(call.types)?;
        let arguments = call.arguments.as_octets();
        // SAFETY: the key, the name, the codes and the arguments are lent.
        done(unsafe {
            sys::lr_client_recall(
                &mut self.slot,
                number.into(),
                now.0,
                call.expiration.0,
                call.key.as_ptr().cast(),
                call.key.len(),
                call.operation.as_ptr().cast(),
                call.operation.len(),
                types.as_ptr(),
                types.len(),
                call.arguments.order().number(),
                arguments.as_ptr().cast(),
                arguments.len(),
            )
        })
    }

    /// Calls an operation by a body of octets, and answers the number of the call.
    ///
    /// # Errors
    ///
    /// `Range`, where 1.0 and 1.1 lack the wish; `Text`; `Short` and `Value`, where the contexts are
    /// none, or one is FT_REQUEST; `Expired`, `Calls`, `Long`, `Memory`; and `Place`, where in 1.0
    /// and 1.1 the body would stand at a place that is not divisible by 8.
    pub fn call_raw(&mut self, now: Moment, call: &RawCall<'_>) -> Result<i32, Error> {
        let body = call.body.as_octets();
        // SAFETY: the key, the name, the contexts and the body are lent.
        let number = count(unsafe {
            sys::lr_client_call_raw(
                &mut self.slot,
                now.0,
                call.expiration.0,
                call.wish.number(),
                call.key.as_ptr().cast(),
                call.key.len(),
                call.operation.as_ptr().cast(),
                call.operation.len(),
                call.body.order().number(),
                call.contexts.as_ptr().cast(),
                call.contexts.len(),
                body.as_ptr().cast(),
                body.len(),
            )
        })?;
        i32::try_from(number).map_err(|_| Error::Range)
    }

    /// Takes such a call of before up again under its number, as [`recall`](Client::recall) does.
    ///
    /// # Errors
    ///
    /// As of [`Client::call_raw`], and `Taken`.
    pub fn recall_raw(
        &mut self,
        number: i32,
        now: Moment,
        call: &RawCall<'_>,
    ) -> Result<(), Error> {
        let body = call.body.as_octets();
        // SAFETY: the key, the name, the contexts and the body are lent.
        done(unsafe {
            sys::lr_client_recall_raw(
                &mut self.slot,
                number.into(),
                now.0,
                call.expiration.0,
                call.wish.number(),
                call.key.as_ptr().cast(),
                call.key.len(),
                call.operation.as_ptr().cast(),
                call.operation.len(),
                call.body.order().number(),
                call.contexts.as_ptr().cast(),
                call.contexts.len(),
                body.as_ptr().cast(),
                body.len(),
            )
        })
    }

    /// Numbers up to this one were used before: the next call gets a greater one.
    ///
    /// # Errors
    ///
    /// `Range`, where it is below 0.
    pub fn skip_to(&mut self, number: i32) -> Result<(), Error> {
        done(sys::lr_client_skip_to(&mut self.slot, number.into()))
    }

    /// Whether the system exception TRANSIENT leaves its call pending from now on, unless the
    /// operation was completed. In a new client it ends it.
    pub fn keep_transient(&mut self, keeps: bool) {
        sure(sys::lr_client_set(&mut self.slot, sys::LR_CLIENT_KEEP_TRANSIENT, keeps.into()));
    }

    /// Whether a forward leaves its call pending from now on, for [`Client::forwarded`]. In a new
    /// client it ends it.
    pub fn keep_forward(&mut self, keeps: bool) {
        sure(sys::lr_client_set(&mut self.slot, sys::LR_CLIENT_KEEP_FORWARD, keeps.into()));
    }

    /// What is pending, was not sent on this connection, is not led elsewhere and not past its
    /// expiration is due.
    ///
    /// # Errors
    ///
    /// `Lost`.
    pub fn resend(&mut self, now: Moment) -> Result<(), Error> {
        done(sys::lr_client_resend(&mut self.slot, now.0))
    }

    /// The first pending call, by its number, that is led elsewhere, if one is, as one that ended
    /// so: its body is the reference.
    ///
    /// # Errors
    ///
    /// `Range`, where it has a number that this version of the crate has no name for.
    pub fn forwarded(&mut self) -> Result<Option<Completion<'_>>, Error> {
        let mut said = lr_completion::default();
        loop {
            let (room, size) = (self.body.as_mut_ptr().cast(), self.body.len());
            // SAFETY: the room is lent, and what is said is as large as is said.
            let found = unsafe {
                let whole = size_of::<lr_completion>();
                sys::lr_client_forwarded(&mut self.slot, &mut said, whole, room, size)
            };
            if count(found)? == 0 {
                return Ok(None);
            }
            let whole = error::size(said.body_size)?;
            self.body.resize(whole, 0);
            if whole <= size {
                return Ok(Some(self.completion(&said)?));
            }
        }
    }

    /// Asks by another key for a call that is led elsewhere, with its number and its expiration:
    /// [`Client::resend`] sends it, or the next [`Client::connected`]. That the connection leads to
    /// where it is led is up to the caller. What it asks is given again, but for its expiration,
    /// which counts for nothing here; for another operation or other arguments nothing is promised
    /// of the client.
    ///
    /// # Errors
    ///
    /// `Forward`, where it is not led elsewhere, `Types`, `Text`, `Short`, `Value`, `Long`,
    /// `Memory`.
    pub fn redirect(&mut self, number: i32, call: &Call<'_>) -> Result<(), Error> {
        let types = codes_of(call.types)?;
        let arguments = call.arguments.as_octets();
        // SAFETY: the key, the name, the codes and the arguments are lent.
        done(unsafe {
            sys::lr_client_redirect(
                &mut self.slot,
                number.into(),
                call.key.as_ptr().cast(),
                call.key.len(),
                call.operation.as_ptr().cast(),
                call.operation.len(),
                types.as_ptr(),
                types.len(),
                call.arguments.order().number(),
                arguments.as_ptr().cast(),
                arguments.len(),
            )
        })
    }

    /// Asks so for such a call by a body of octets: what it asks is given again, but for its
    /// expiration.
    ///
    /// # Errors
    ///
    /// As of [`Client::call_raw`] but `Expired` and `Calls`, and `Forward`.
    pub fn redirect_raw(&mut self, number: i32, call: &RawCall<'_>) -> Result<(), Error> {
        let body = call.body.as_octets();
        // SAFETY: the key, the name, the contexts and the body are lent.
        done(unsafe {
            sys::lr_client_redirect_raw(
                &mut self.slot,
                number.into(),
                call.wish.number(),
                call.key.as_ptr().cast(),
                call.key.len(),
                call.operation.as_ptr().cast(),
                call.operation.len(),
                call.body.order().number(),
                call.contexts.as_ptr().cast(),
                call.contexts.len(),
                body.as_ptr().cast(),
                body.len(),
            )
        })
    }

    /// Cancels a call: whether it was pending, and completes as cancelled.
    ///
    /// # Errors
    ///
    /// `Range`, `Memory`.
    pub fn cancel(&mut self, call: i32) -> Result<bool, Error> {
        Ok(count(sys::lr_client_cancel(&mut self.slot, call.into()))? != 0)
    }

    /// A moment has come: calls whose expiration is before it complete as expired.
    pub fn tick(&mut self, now: Moment) {
        sure(sys::lr_client_tick(&mut self.slot, now.0));
    }

    /// Takes octets that came on the connection. After a fault of the stream, or where the server
    /// has said goodbye, it is not connected any more.
    ///
    /// # Errors
    ///
    /// `Lost`.
    pub fn feed(&mut self, octets: &[u8]) -> Result<(), Error> {
        // SAFETY: the octets are lent.
        done(unsafe { sys::lr_client_feed(&mut self.slot, octets.as_ptr().cast(), octets.len()) })
    }

    /// The next completion, if there is one. Its body is lent until the next is taken.
    ///
    /// # Errors
    ///
    /// `Range`, where it has a number that this version of the crate has no name for.
    pub fn completed(&mut self) -> Result<Option<Completion<'_>>, Error> {
        let mut said = lr_completion::default();
        // SAFETY: it is as large as is said.
        let found = unsafe {
            sys::lr_client_completed(&mut self.slot, &mut said, size_of::<lr_completion>())
        };
        if count(found)? == 0 {
            return Ok(None);
        }
        self.body.resize(error::size(said.body_size)?, 0);
        if !self.body.is_empty() {
            let (room, size) = (self.body.as_mut_ptr().cast(), self.body.len());
            // SAFETY: the room is lent.
            done(unsafe { sys::lr_client_body(&mut self.slot, room, size) })?;
        }
        Ok(Some(self.completion(&said)?))
    }

    /// What is said of a call whose body was copied.
    fn completion(&self, said: &lr_completion) -> Result<Completion<'_>, Error> {
        Ok(Completion {
            call: said.call,
            ended: Ended::of(said.how)?,
            body: &self.body,
            order: Order::of(said.body_order)?,
            at: said.body_at,
            limit: self.values_limit,
        })
    }

    /// Moves octets that are due on the connection into the room, as many as it has, and answers
    /// how many.
    pub fn output(&mut self, room: &mut [u8]) -> usize {
        // SAFETY: the room is lent.
        sure(unsafe { sys::lr_client_output(&mut self.slot, room.as_mut_ptr().cast(), room.len()) })
    }

    /// All octets that are due on the connection.
    pub fn take_output(&mut self) -> Vec<u8> {
        crate::all_of(|room| self.output(room))
    }
}

/// How a call ended.
#[derive(Clone, Copy, Debug, PartialEq, Eq)]
pub struct Completion<'c> {
    /// The number of the call.
    pub call: i32,
    /// How it ended, and so what its body has.
    pub ended: Ended,
    /// The body of the reply.
    pub body: &'c [u8],
    /// The order of the body's numbers.
    pub order: Order,
    /// The place of the body's first octet, from which it is aligned.
    pub at: u64,
    /// How much memory may be taken for what is read of it; none: what [`Reader::limit`] says of a
    /// new one.
    pub limit: Option<usize>,
}

/// A system exception (CORBA 3.3 Part 1, 8.4).
#[derive(Clone, Copy, Debug, PartialEq, Eq)]
pub struct SystemException<'c> {
    /// Its repository id, as `IDL:omg.org/CORBA/TRANSIENT:1.0`.
    pub id: &'c [u8],
    /// Its minor code.
    pub minor: u32,
    /// Whether the operation was completed.
    pub completed: Completed,
}

impl<'c> Completion<'c> {
    /// Reads the body.
    #[must_use]
    pub fn reader(&self) -> Reader<'c> {
        Reader::limited(self.body, self.order, self.at, self.limit)
    }

    /// The exception that it raised, if it raised one: its repository id, and a reader of its
    /// members.
    ///
    /// # Errors
    ///
    /// `Short` and `Value`, where the body doesn't read.
    pub fn raised(&self) -> Result<Option<(&'c [u8], Reader<'c>)>, Error> {
        if self.ended != Ended::Raised {
            return Ok(None);
        }
        let mut reader = self.reader();
        let id = reader.string()?;
        Ok(Some((id, reader)))
    }

    /// The reference that is to be asked in place of this one, if there is one.
    ///
    /// # Errors
    ///
    /// As of [`Ior::read`].
    pub fn forwarded(&self) -> Result<Option<Ior>, Error> {
        if self.ended != Ended::Forwarded {
            return Ok(None);
        }
        Ior::read(&mut self.reader()).map(Some)
    }

    /// The system exception by which it ended, if it ended by one.
    ///
    /// # Errors
    ///
    /// `Short` and `Value`, where the body doesn't read.
    pub fn system(&self) -> Result<Option<SystemException<'c>>, Error> {
        if self.ended != Ended::System {
            return Ok(None);
        }
        let mut reader = self.reader();
        let id = reader.string()?;
        let minor = reader.ulong()?;
        let completed = Completed::from_number(reader.ulong()?).ok_or(Error::Value)?;
        Ok(Some(SystemException { id, minor, completed }))
    }
}
