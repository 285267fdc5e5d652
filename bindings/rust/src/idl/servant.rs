//! Servants: what is offered, and how they answer.

use super::Operation;
use crate::cdr::Writer;
use crate::{Catalogue, Completed, Error, Order, Request, Server, Status, SystemName, Ticket};
use core::fmt;
use core::marker::PhantomData;

/// Adds an operation to an object of a catalogue.
///
/// # Errors
///
/// As of [`Catalogue::operation`].
pub fn offer<O: Operation>(catalogue: &mut Catalogue, key: &[u8]) -> Result<(), Error> {
    match O::SIGNATURE {
        Some(signature) => catalogue.operation(key, O::NAME, &signature),
        None => catalogue.raw_operation(key, O::NAME),
    }
}

/// Has a request for an operation performed. Where its arguments are none of their types it is
/// refused by `MARSHAL`.
///
/// # Errors
///
/// Those of `performed`, and of [`Request::refuse`].
pub fn perform<'r, 's, O: Operation>(
    request: &'r mut Request<'s>,
    performed: impl FnOnce(Asking<'r, 's, O>, O::Arguments) -> Result<(), Error>,
) -> Result<(), Error> {
    let arguments = O::read_arguments(&mut request.reader());
    match arguments {
        Ok(arguments) => performed(Asking { request, operation: PhantomData }, arguments),
        Err(_) => request.refuse(SystemName::Marshal, 0),
    }
}

/// Has a request performed for an operation that no interface has: `_is_a` and `_non_existent`,
/// where [`Server::serve_all`] gives them, or it is refused by `BAD_OPERATION`.
///
/// # Errors
///
/// Those of [`Request::identify`] and [`Request::refuse`].
pub fn otherwise(request: &mut Request<'_>) -> Result<(), Error> {
    if request.identify()? {
        return Ok(());
    }
    request.refuse(SystemName::BadOperation, 0)
}

/// Answers by results. Those that are none of their types answer `INTERNAL`, `Completed::Maybe`.
fn answer<O: Operation>(
    server: &mut Server,
    ticket: Ticket,
    results: &O::Results,
) -> Result<(), Error> {
    let mut writer = Writer::new(Order::NATIVE);
    if let Err(error) = O::write_results(&mut writer, results) {
        return fail(server, ticket, error);
    }
    match O::SIGNATURE {
        Some(_) => server.answer(ticket, &writer),
        None => server.answer_raw(ticket, Status::NoException, &writer),
    }
}

/// Answers by an exception, likewise.
fn raise<O: Operation>(server: &mut Server, ticket: Ticket, raised: &O) -> Result<(), Error> {
    let (mut writer, is_raw) = (Writer::new(Order::NATIVE), O::SIGNATURE.is_none());
    let id = if is_raw { writer.string(raised.id()).map(drop) } else { Ok(()) };
    if let Err(error) = id.and_then(|()| raised.write_members(&mut writer)) {
        return fail(server, ticket, error);
    }
    if is_raw {
        return server.answer_raw(ticket, Status::UserException, &writer);
    }
    server.raise(ticket, raised.id(), &writer)
}

/// Answers what has no outcome, and gives the error.
fn fail(server: &mut Server, ticket: Ticket, error: Error) -> Result<(), Error> {
    server.system(ticket, SystemName::Internal, 0, Completed::Maybe)?;
    Err(error)
}

/// A request for an operation, which its servant answers, or parks. Results, and members of an
/// exception, that are none of their types answer `INTERNAL`, `Completed::Maybe`.
pub struct Asking<'r, 's, O> {
    request: &'r mut Request<'s>,
    operation: PhantomData<fn() -> O>,
}

impl<O> fmt::Debug for Asking<'_, '_, O> {
    fn fmt(&self, out: &mut fmt::Formatter<'_>) -> fmt::Result {
        out.debug_tuple("Asking").field(&self.request).finish()
    }
}

impl<'s, O: Operation> Asking<'_, 's, O> {
    /// The request, as of which [`Request::ft_request`] says who sends it again.
    pub fn request(&mut self) -> &mut Request<'s> {
        self.request
    }

    /// Answers by results.
    ///
    /// # Errors
    ///
    /// `Range` and `Text`: they are none of their types; as of [`Request::answer`].
    pub fn answer(self, results: &O::Results) -> Result<(), Error> {
        let ticket = self.request.ticket();
        answer::<O>(self.request.server, ticket, results)
    }

    /// Answers by an exception that the operation declares.
    ///
    /// # Errors
    ///
    /// As of [`Asking::answer`].
    pub fn raise(self, raised: impl Into<O>) -> Result<(), Error> {
        let ticket = self.request.ticket();
        raise(self.request.server, ticket, &raised.into())
    }

    /// Answers by a system exception.
    ///
    /// # Errors
    ///
    /// As of [`Request::answer`].
    pub fn system(self, name: SystemName, completed: Completed) -> Result<(), Error> {
        self.request.system(name, 0, completed)
    }

    /// Refuses it for now, as [`Request::refuse`] does.
    ///
    /// # Errors
    ///
    /// `Lost`.
    pub fn refuse(self, name: SystemName) -> Result<(), Error> {
        self.request.refuse(name, 0)
    }

    /// Parks it, to be answered later.
    ///
    /// # Errors
    ///
    /// The same, where as many are parked as may be, or memory is short.
    pub fn park(self) -> Result<Parked<O>, Self> {
        match self.request.park() {
            Ok(ticket) => Ok(Parked { ticket, operation: PhantomData }),
            Err(_) => Err(self),
        }
    }
}

/// A request for an operation that was parked. It is answered once, by the server that it came to;
/// then [`Server::due`] has its replies.
pub struct Parked<O> {
    ticket: Ticket,
    operation: PhantomData<fn() -> O>,
}

impl<O> fmt::Debug for Parked<O> {
    fn fmt(&self, out: &mut fmt::Formatter<'_>) -> fmt::Result {
        out.debug_tuple("Parked").field(&self.ticket).finish()
    }
}

impl<O: Operation> Parked<O> {
    /// Its ticket.
    #[must_use]
    pub fn ticket(&self) -> Ticket {
        self.ticket
    }

    /// Answers by results.
    ///
    /// # Errors
    ///
    /// `Range` and `Text`: they are none of their types; as of [`Server::answer`].
    pub fn answer(&self, server: &mut Server, results: &O::Results) -> Result<(), Error> {
        answer::<O>(server, self.ticket, results)
    }

    /// Answers by an exception that the operation declares.
    ///
    /// # Errors
    ///
    /// As of [`Parked::answer`].
    pub fn raise(&self, server: &mut Server, raised: impl Into<O>) -> Result<(), Error> {
        raise(server, self.ticket, &raised.into())
    }

    /// Answers by a system exception.
    ///
    /// # Errors
    ///
    /// As of [`Server::answer`].
    pub fn system(
        &self,
        server: &mut Server,
        name: SystemName,
        completed: Completed,
    ) -> Result<(), Error> {
        server.system(self.ticket, name, 0, completed)
    }

    /// Refuses it for now, as [`Server::refuse`] does.
    ///
    /// # Errors
    ///
    /// As of [`Server::refuse`].
    pub fn refuse(&self, server: &mut Server, name: SystemName) -> Result<(), Error> {
        server.refuse(self.ticket, name, 0)
    }
}
