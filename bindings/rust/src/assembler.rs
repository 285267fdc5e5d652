//! The messages of a stream.

use crate::cdr::Reader;
use crate::contexts::Contexts;
use crate::error::{self, count, done, sure};
use crate::sys::{self, lr_message, lr_slot};
use crate::{
    Error, Fault, FtRequest, Limits, LocateStatus, MessageType, Moment, Order, Status, Version,
    Wish,
};
use alloc::vec::Vec;
use core::mem::size_of;

/// Takes the octets of a stream in pieces of any size, joins fragments, and lends each message that
/// completes.
///
/// ```
/// use lemonrudder::{write, Assembler, Limits, MessageType};
///
/// let stream = [write::close_connection()?, write::message_error()?].concat();
/// let mut assembler = Assembler::open(Limits::default())?;
/// let mut types = Vec::new();
/// for mut piece in stream.chunks(7) {
///     while !piece.is_empty() {
///         piece = &piece[assembler.feed(piece)?..];
///         types.extend(assembler.message()?.map(|message| message.message_type()));
///     }
/// }
/// assert_eq!(types, [MessageType::CloseConnection, MessageType::MessageError]);
/// # Ok::<(), lemonrudder::Error>(())
/// ```
#[derive(Debug)]
pub struct Assembler {
    slot: lr_slot,
    /// The parts of the message, by their numbers; buffers that are used again.
    parts: [Vec<u8>; 5],
}

impl Assembler {
    /// Opens an assembler of a stream of which nothing has come.
    ///
    /// # Errors
    ///
    /// `Range`, `Memory`.
    pub fn open(limits: Limits) -> Result<Assembler, Error> {
        let mut slot = lr_slot::empty();
        let Limits { message, partials, cuts } = limits;
        done(sys::lr_assembler_open_cuts(&mut slot, message, partials, cuts.number()))?;
        Ok(Assembler { slot, parts: Default::default() })
    }

    /// Takes octets up to and with the end of the next message, or all of them, and answers how
    /// many.
    ///
    /// # Errors
    ///
    /// `Stream`, at the end of the stream, and [`fault`](Assembler::fault) says why.
    pub fn feed(&mut self, octets: &[u8]) -> Result<usize, Error> {
        // SAFETY: the octets are lent.
        count(unsafe {
            sys::lr_assembler_feed(&mut self.slot, octets.as_ptr().cast(), octets.len())
        })
    }

    /// The first fault of the stream, if it has one.
    pub fn fault(&mut self) -> Option<Fault> {
        let number = sure(sys::lr_assembler_fault(&mut self.slot));
        u32::try_from(number).ok().and_then(Fault::from_number)
    }

    /// The message that the last `feed` completed, if it completed one.
    ///
    /// # Errors
    ///
    /// `Range`, where it has a number that this version of the crate has no name for.
    pub fn message(&mut self) -> Result<Option<Message<'_>>, Error> {
        self.message_in(&[])
    }

    /// The same, where these octets are all of a message that came in one frame: its body is taken
    /// from them, which is less work.
    ///
    /// # Errors
    ///
    /// As of [`message`](Assembler::message).
    pub fn message_in(&mut self, frame: &[u8]) -> Result<Option<Message<'_>>, Error> {
        let mut said = lr_message::default();
        // SAFETY: it is as large as is said.
        let found = unsafe {
            sys::lr_assembler_message(&mut self.slot, &mut said, size_of::<lr_message>())
        };
        if count(found)? == 0 {
            return Ok(None);
        }
        self.copy(sys::LR_PART_KEY, said.key_size)?;
        self.copy(sys::LR_PART_OPERATION, said.operation_size)?;
        match body_in(frame, &said) {
            Some(body) => {
                let room = &mut self.parts[sys::LR_PART_BODY as usize];
                room.clear();
                room.extend_from_slice(body);
            }
            None => self.copy(sys::LR_PART_BODY, said.body_size)?,
        }
        self.copy(sys::LR_PART_CLIENT, said.client_size)?;
        self.copy(sys::LR_PART_PAYLOAD, said.payload_size)?;
        Ok(Some(Message {
            order: Order::of(said.order)?,
            version: Version::of(said.version)?,
            message_type: MessageType::of(said.r#type)?,
            said,
            assembler: self,
        }))
    }

    /// Copies a part of the message into its buffer.
    fn copy(&mut self, part: u32, size: u64) -> Result<(), Error> {
        let room = &mut self.parts[part as usize];
        room.resize(error::size(size)?, 0);
        if room.is_empty() {
            return Ok(());
        }
        // SAFETY: the room is lent.
        done(unsafe {
            sys::lr_assembler_part(&mut self.slot, part, room.as_mut_ptr().cast(), room.len())
        })
    }
}

/// The body of a message, where it is in these octets.
fn body_in<'f>(frame: &'f [u8], said: &lr_message) -> Option<&'f [u8]> {
    let body = frame.get(error::size(said.body_at).ok()?..)?;
    (!body.is_empty() && body.len() as u64 == said.body_size).then_some(body)
}

/// A message, lent until more is fed.
#[derive(Debug)]
pub struct Message<'a> {
    assembler: &'a mut Assembler,
    said: lr_message,
    order: Order,
    version: Version,
    message_type: MessageType,
}

impl Message<'_> {
    /// Its type.
    #[must_use]
    pub fn message_type(&self) -> MessageType {
        self.message_type
    }

    /// Its version.
    #[must_use]
    pub fn version(&self) -> Version {
        self.version
    }

    /// The order of its numbers.
    #[must_use]
    pub fn order(&self) -> Order {
        self.order
    }

    /// Its request id; 0 where a message of its type has none.
    #[must_use]
    pub fn request_id(&self) -> u32 {
        self.said.request_id
    }

    /// Which reply a Request asks for.
    #[must_use]
    pub fn wish(&self) -> Option<Wish> {
        let is_request = self.message_type == MessageType::Request;
        is_request.then(|| Wish::from_number(self.said.wish)).flatten()
    }

    /// The status of a Reply.
    #[must_use]
    pub fn status(&self) -> Option<Status> {
        let is_reply = self.message_type == MessageType::Reply;
        is_reply.then(|| Status::from_number(self.said.status)).flatten()
    }

    /// The status of a LocateReply.
    #[must_use]
    pub fn locate_status(&self) -> Option<LocateStatus> {
        let is_reply = self.message_type == MessageType::LocateReply;
        is_reply.then(|| LocateStatus::from_number(self.said.status)).flatten()
    }

    /// The object key of a Request or LocateRequest, where its target has one.
    #[must_use]
    pub fn key(&self) -> Option<&[u8]> {
        (self.said.has_key != 0).then(|| self.part(sys::LR_PART_KEY))
    }

    /// The operation of a Request; empty of other messages.
    #[must_use]
    pub fn operation(&self) -> &[u8] {
        self.part(sys::LR_PART_OPERATION)
    }

    /// The body of a Request, Reply or LocateReply; empty of other messages.
    #[must_use]
    pub fn body(&self) -> &[u8] {
        self.part(sys::LR_PART_BODY)
    }

    /// The place of the body's first octet, from which it is aligned.
    #[must_use]
    pub fn place(&self) -> u64 {
        self.said.body_at
    }

    /// Reads the body.
    #[must_use]
    pub fn reader(&self) -> Reader<'_> {
        Reader::at(self.body(), self.order, self.said.body_at)
    }

    /// What a Fragment carries; empty of other messages.
    #[must_use]
    pub fn payload(&self) -> &[u8] {
        self.part(sys::LR_PART_PAYLOAD)
    }

    /// What a Request says by FT_REQUEST, if it carries that.
    #[must_use]
    pub fn ft_request(&self) -> Option<FtRequest<'_>> {
        (self.said.has_client != 0).then(|| FtRequest {
            client_id: self.part(sys::LR_PART_CLIENT),
            retention_id: self.said.retention_id,
            expiration: Moment(self.said.expiration),
        })
    }

    /// The service contexts of a Request or Reply, in order.
    pub fn contexts(&mut self) -> Contexts<'_> {
        Contexts::of(&mut self.assembler.slot, self.said.contexts, sys::lr_assembler_context)
    }

    /// The buffer of a part.
    fn part(&self, part: u32) -> &[u8] {
        &self.assembler.parts[part as usize]
    }
}
