//! Outcomes that are stored before they count.

use crate::cdr::Writer;
use crate::error::{copied, done};
use crate::sys;
use crate::{Error, Order, Request, Server, Status, Ticket};
use alloc::vec::Vec;

/// What became of a request, in the form in which it is stored: [`Server::answer_stored`] answers by
/// it, in another process too.
#[derive(Clone, Debug, PartialEq, Eq)]
pub struct Outcome {
    /// The status of its Reply.
    pub status: Status,
    /// The order of the body's numbers.
    pub order: Order,
    /// The body, aligned from place 0.
    pub body: Vec<u8>,
}

impl Server {
    /// Whether [`answer`](Server::answer) would take these results, before what they say is done.
    /// Nothing changes.
    ///
    /// # Errors
    ///
    /// `Ticket`.
    pub fn can_answer(&mut self, ticket: Ticket, results: &Writer) -> Result<bool, Error> {
        let (order, octets) = (results.order().number(), results.as_octets());
        let (at, size) = (octets.as_ptr().cast(), octets.len());
        // SAFETY: the octets are lent.
        let answer = done(unsafe {
            sys::lr_server_can_answer(&mut self.slot, ticket.number(), order, at, size)
        });
        match answer {
            Err(Error::Outcome) => Ok(false),
            answer => answer.map(|()| true),
        }
    }

    /// Results of a request as an outcome to store: nothing is answered.
    ///
    /// # Errors
    ///
    /// `Ticket`, and `Outcome`: `answer` would not take them.
    pub fn stored(&mut self, ticket: Ticket, results: &Writer) -> Result<Outcome, Error> {
        if !self.can_answer(ticket, results)? {
            return Err(Error::Outcome);
        }
        let body = results.as_octets().to_vec();
        Ok(Outcome { status: Status::NoException, order: results.order(), body })
    }

    /// The same of an exception that the operation declares: its repository id, and its members.
    ///
    /// # Errors
    ///
    /// `Ticket`, `Memory`, and `Outcome`: [`raise`](Server::raise) would not take it.
    pub fn stored_exception(
        &mut self,
        ticket: Ticket,
        id: impl AsRef<[u8]>,
        members: &Writer,
    ) -> Result<Outcome, Error> {
        let (id, octets) = (id.as_ref(), members.as_octets());
        // SAFETY: the id, the octets and the room are lent.
        let body = copied(64 + id.len() + octets.len(), |room| unsafe {
            sys::lr_server_exception(
                &mut self.slot,
                ticket.number(),
                id.as_ptr().cast(),
                id.len(),
                members.order().number(),
                octets.as_ptr().cast(),
                octets.len(),
                room.as_mut_ptr().cast(),
                room.len(),
            )
        })?;
        Ok(Outcome { status: Status::UserException, order: members.order(), body })
    }

    /// Answers by a stored outcome of the request.
    ///
    /// # Errors
    ///
    /// As of [`answer_raw`](Server::answer_raw).
    pub fn answer_stored(&mut self, ticket: Ticket, outcome: &Outcome) -> Result<(), Error> {
        self.reply(ticket, outcome.status, outcome.order, &outcome.body)
    }

    /// Answers by a stored outcome of the request, and keeps nothing: a store of yours does. Where
    /// the request comes again, it comes to you again. The reply carries no service contexts.
    ///
    /// # Errors
    ///
    /// As of [`answer_raw`](Server::answer_raw), but that of `Lost` nothing is kept.
    pub fn answer_unkept(&mut self, ticket: Ticket, outcome: &Outcome) -> Result<(), Error> {
        let (at, size) = (outcome.body.as_ptr().cast(), outcome.body.len());
        let (status, order) = (outcome.status.number(), outcome.order.number());
        // SAFETY: the octets are lent.
        done(unsafe {
            sys::lr_server_answer_unkept(&mut self.slot, ticket.number(), status, order, at, size)
        })
    }

    /// Service contexts for the replies that the next answer of a request makes due, unless it is
    /// refused: octets as [`contexts`](crate::write::contexts) writes them in that order, or none.
    /// They take the place of those that were said before, of any request, and are not kept: a
    /// repeat that comes later gets none. A reply goes without them where they take more than
    /// 1048576 octets, or in 1.0 and 1.1 its body would not stand behind them at a place divisible
    /// by 8.
    ///
    /// # Errors
    ///
    /// `Ticket`, `Memory`; `Short` and `Value`: they are no such list.
    pub fn reply_contexts(
        &mut self,
        ticket: Ticket,
        order: Order,
        contexts: &[u8],
    ) -> Result<(), Error> {
        let (at, size) = (contexts.as_ptr().cast(), contexts.len());
        // SAFETY: the octets are lent.
        done(unsafe {
            let order = order.number();
            sys::lr_server_reply_contexts(&mut self.slot, ticket.number(), order, at, size)
        })
    }
}

impl Request<'_> {
    /// Whether its answer would take these results, as of [`Server::can_answer`].
    pub fn can_answer(&mut self, results: &Writer) -> bool {
        self.server.can_answer(self.ticket(), results) == Ok(true)
    }

    /// Results as an outcome to store, as of [`Server::stored`].
    ///
    /// # Errors
    ///
    /// `Outcome`.
    pub fn stored(&mut self, results: &Writer) -> Result<Outcome, Error> {
        self.server.stored(self.ticket(), results)
    }

    /// An exception as an outcome to store, as of [`Server::stored_exception`].
    ///
    /// # Errors
    ///
    /// `Outcome`, `Memory`.
    pub fn stored_exception(
        &mut self,
        id: impl AsRef<[u8]>,
        members: &Writer,
    ) -> Result<Outcome, Error> {
        self.server.stored_exception(self.ticket(), id, members)
    }

    /// Answers by a stored outcome, as [`Server::answer_stored`] does.
    ///
    /// # Errors
    ///
    /// As of `answer`, and `Range`.
    pub fn answer_stored(&mut self, outcome: &Outcome) -> Result<(), Error> {
        self.server.answer_stored(self.ticket(), outcome)
    }

    /// .. and keeps nothing, as [`Server::answer_unkept`] does.
    ///
    /// # Errors
    ///
    /// As of `answer`, and `Range`.
    pub fn answer_unkept(&mut self, outcome: &Outcome) -> Result<(), Error> {
        self.server.answer_unkept(self.ticket(), outcome)
    }

    /// Service contexts for its replies, as of [`Server::reply_contexts`].
    ///
    /// # Errors
    ///
    /// `Memory`; `Short` and `Value`: they are no such list.
    pub fn reply_contexts(&mut self, order: Order, contexts: &[u8]) -> Result<(), Error> {
        self.server.reply_contexts(self.ticket(), order, contexts)
    }
}
