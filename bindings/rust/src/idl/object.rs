//! Calls of operations, and the objects of which they are.

use super::codec::{Boolean, Codec, Refused, Text};
use super::{Operation, String, Vec};
use crate::cdr::{Reader, Writer};
use crate::{Call, Client, Completed, Completion, Ended, Error, Moment, RawCall, Signature};
use crate::{Order, Type, Wish};
use core::fmt;

/// A system exception: of a server, or of a [`Caller`](super::Caller) that reaches none.
#[derive(Clone, Debug, PartialEq, Eq)]
pub struct SystemRaised {
    /// Its repository id, as `IDL:omg.org/CORBA/TRANSIENT:1.0`.
    pub id: String,
    /// Its minor code.
    pub minor: u32,
    /// Whether the operation was completed.
    pub completed: Completed,
}

/// Why a call of an operation has no results.
#[derive(Clone, Debug, PartialEq, Eq)]
pub enum Failure<O> {
    /// An exception that the operation declares.
    Raised(O),
    /// A system exception.
    System(SystemRaised),
    /// An argument is none of its type, and nothing was sent.
    Refused(Refused),
    /// `Expired`: no reply came. `Value` and `Short`: the reply has no results of their types, or
    /// they pass a limit. `Outcome`: it has another exception, or leads to no address. Else what
    /// [`Client`] answers.
    Error(Error),
}

impl<O> From<Refused> for Failure<O> {
    fn from(refused: Refused) -> Failure<O> {
        Failure::Refused(refused)
    }
}

impl<O> From<Error> for Failure<O> {
    fn from(error: Error) -> Failure<O> {
        Failure::Error(error)
    }
}

impl<O: Operation> fmt::Display for Failure<O> {
    fn fmt(&self, out: &mut fmt::Formatter<'_>) -> fmt::Result {
        match self {
            Failure::Raised(raised) => write!(out, "{}: {raised:?}", raised.id()),
            Failure::System(raised) => {
                write!(out, "{}: minor {}, {:?}", raised.id, raised.minor, raised.completed)
            }
            Failure::Refused(refused) => refused.fmt(out),
            Failure::Error(error) => error.fmt(out),
        }
    }
}

impl<O: Operation> core::error::Error for Failure<O> {}

/// Calls an operation of an object by a client, and answers the number of the call.
///
/// # Errors
///
/// As of [`Client::call`] and [`Client::call_raw`].
pub fn call<O: Operation>(
    client: &mut Client,
    now: Moment,
    expiration: Moment,
    key: &[u8],
    arguments: &Writer,
) -> Result<i32, Error> {
    let operation = O::NAME;
    if let (Some(Signature { arguments: types, .. }), false) = (O::SIGNATURE, O::IS_ONEWAY) {
        return client.call(now, &Call { key, operation, types, arguments, expiration });
    }
    let wish = if O::IS_ONEWAY { Wish::None } else { Wish::Full };
    let (body, contexts) = (arguments, &[][..]);
    client.call_raw(now, &RawCall { key, operation, wish, body, contexts, expiration })
}

/// What is read of all that a reader has.
fn whole<T>(
    mut reader: Reader<'_>,
    read: impl FnOnce(&mut Reader<'_>) -> Result<T, Error>,
) -> Result<T, Error> {
    let value = read(&mut reader)?;
    if reader.rest().is_empty() {
        Ok(value)
    } else {
        Err(Error::Value)
    }
}

/// What came of a call of an operation.
///
/// # Errors
///
/// Each [`Failure`].
pub fn outcome<O: Operation>(completion: &Completion<'_>) -> Result<O::Results, Failure<O>> {
    if let Some((id, reader)) = completion.raised()? {
        let raised = whole(reader, |reader| match O::read_raised(id, reader)? {
            Some(raised) => Ok(raised),
            None => Err(Error::Outcome),
        })?;
        return Err(Failure::Raised(raised));
    }
    if let Some(system) = completion.system()? {
        let id = system.id.iter().copied().map(char::from).collect();
        let (minor, completed) = (system.minor, system.completed);
        return Err(Failure::System(SystemRaised { id, minor, completed }));
    }
    match completion.ended {
        Ended::Returned => Ok(whole(completion.reader(), O::read_results)?),
        Ended::Sent => Ok(O::read_results(&mut Reader::new(&[], Order::NATIVE))?),
        Ended::Expired => Err(Error::Expired.into()),
        _ => Err(Error::Outcome.into()),
    }
}

/// What makes calls, and waits for what comes of each: a [`Caller`](super::Caller), or what calls
/// over sockets of your own.
pub trait Calls {
    /// Calls an operation of an object.
    ///
    /// # Errors
    ///
    /// Each [`Failure`].
    fn call<O: Operation>(
        &mut self,
        key: &[u8],
        arguments: &Writer,
    ) -> Result<O::Results, Failure<O>>;
}

impl<C: Calls> Calls for &mut C {
    fn call<O: Operation>(
        &mut self,
        key: &[u8],
        arguments: &Writer,
    ) -> Result<O::Results, Failure<O>> {
        C::call(self, key, arguments)
    }
}

/// An object, and what makes the calls of it. The stub of an interface is made of it, and it of
/// that, by `into`.
#[derive(Clone, Debug)]
pub struct Object<C> {
    calls: C,
    key: Vec<u8>,
}

impl<C> Object<C> {
    /// The object of a key.
    pub fn new(calls: C, key: impl Into<Vec<u8>>) -> Object<C> {
        Object { calls, key: key.into() }
    }

    /// What makes its calls.
    pub fn calls(&mut self) -> &mut C {
        &mut self.calls
    }

    /// Its key.
    #[must_use]
    pub fn key(&self) -> &[u8] {
        &self.key
    }
}

impl<C: Calls> Object<C> {
    /// Calls an operation of it.
    ///
    /// # Errors
    ///
    /// Each [`Failure`].
    pub fn call<O: Operation>(&mut self, arguments: &Writer) -> Result<O::Results, Failure<O>> {
        self.calls.call(&self.key, arguments)
    }

    /// Whether it is of the interface of a repository id, as its server says.
    ///
    /// # Errors
    ///
    /// Each [`Failure`] but `Raised`.
    pub fn is_a(&mut self, id: &str) -> Result<bool, Failure<IsA>> {
        let mut arguments = Writer::new(Order::NATIVE);
        <Text>::write(&mut arguments, id)?;
        self.call(&arguments)
    }

    /// Whether its server says that there is no such object.
    ///
    /// # Errors
    ///
    /// Each [`Failure`] but `Raised`.
    pub fn non_existent(&mut self) -> Result<bool, Failure<NonExistent>> {
        self.call(&Writer::new(Order::NATIVE))
    }
}

macro_rules! of_each_object {
    ($($(#[$doc:meta])* $operation:ident: $name:literal, $arguments:expr, $value:ty = $codec:ty;)*) => {$(
        $(#[$doc])*
        #[derive(Clone, Copy, Debug, PartialEq, Eq)]
        pub enum $operation {}

        impl Operation for $operation {
            const NAME: &'static str = $name;
            const SIGNATURE: Option<Signature<'static>> =
                Some(Signature::new($arguments, &[Type::Boolean]));
            const IS_ONEWAY: bool = false;
            type Arguments = $value;
            type Results = bool;

            fn read_arguments(reader: &mut Reader<'_>) -> Result<$value, Error> {
                <$codec>::read(reader)
            }

            fn read_results(reader: &mut Reader<'_>) -> Result<bool, Error> {
                Boolean::read(reader)
            }

            fn write_results(writer: &mut Writer, results: &bool) -> Result<(), Error> {
                Boolean::write(writer, results)
            }

            fn read_raised(_: &[u8], _: &mut Reader<'_>) -> Result<Option<$operation>, Error> {
                Ok(None)
            }

            fn id(&self) -> &'static str {
                match *self {}
            }

            fn write_members(&self, _: &mut Writer) -> Result<(), Error> {
                match *self {}
            }
        }
    )*};
}

/// Of no parameters.
enum Nothing {}

impl Codec for Nothing {
    type Value = ();
    type Lent = ();

    fn read(_: &mut Reader<'_>) -> Result<(), Error> {
        Ok(())
    }

    fn write(_: &mut Writer, (): &()) -> Result<(), Error> {
        Ok(())
    }
}

of_each_object! {
    /// The operation `_is_a` of each object, which raises nothing.
    IsA: "_is_a", &[Type::String], String = Text;
    /// The operation `_non_existent` of each object, which raises nothing.
    NonExistent: "_non_existent", &[], () = Nothing;
}
