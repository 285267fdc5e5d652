//! What stands below the code that omniidl makes of IDL by `-blemonrudder -Wbrust`: codecs of
//! types, servants over [`Server`](crate::Server), and stubs over [`Client`](crate::Client).
//! `docs/IDL.md` says what is made.
//!
//! A stub calls by whatever is a [`Calls`], as a [`Caller`] is, which waits for each call on a
//! socket. Over sockets of your own, [`call`] and [`outcome`] are its two halves.

mod any;
mod body;
#[cfg(feature = "std")]
mod caller;
mod codec;
mod object;
mod reference;
#[cfg(feature = "std")]
mod road;
mod servant;

pub use any::{Any, Plain};
pub use body::Body;
#[cfg(feature = "std")]
pub use caller::Caller;
pub use codec::{
    argument, read, write, write_in, Array, Boolean, Char, Codec, Double, Float, Long, LongLong,
    Octet, Octets, Refused, Sequence, Short, Text, Typed, ULong, ULongLong, UShort,
};
pub use object::{call, outcome, Calls, Failure, Object, SystemRaised};
pub use reference::Reference;
pub use servant::{offer, otherwise, perform, Asking, Parked};

#[doc(hidden)]
pub use alloc::{string::String, vec::Vec};
#[doc(hidden)]
pub use core::{option::Option, result::Result};

use crate::cdr::{Reader, Writer};
use crate::{Error, Signature};
use core::fmt::{self, Debug};

/// An exception of IDL.
pub trait Exception: Codec<Value = Self, Lent = Self> + Sized {
    /// Its repository id.
    const ID: &'static str;
}

/// Prints an exception: its id and its members.
///
/// # Errors
///
/// Those of what it is printed to.
pub fn show<E: Exception + Debug>(raised: &E, out: &mut fmt::Formatter<'_>) -> fmt::Result {
    write!(out, "{}: {raised:?}", E::ID)
}

/// An operation of IDL. A value of it is an exception that it raised, one of those that it declares.
pub trait Operation: Debug + Sized {
    /// Its name in a message.
    const NAME: &'static str;
    /// Its types; none where [`Type`](crate::Type) has not all of them, and it is raw.
    const SIGNATURE: Option<Signature<'static>>;
    /// Whether it has no reply.
    const IS_ONEWAY: bool;
    /// The values of its `in` and `inout` parameters.
    type Arguments;
    /// Its return value, and those of its `inout` and `out` parameters: a tuple but where it is one.
    type Results;

    /// Reads the arguments.
    ///
    /// # Errors
    ///
    /// `Short` and `Value`: the octets are none of their types.
    fn read_arguments(reader: &mut Reader<'_>) -> Result<Self::Arguments, Error>;

    /// Reads the results.
    ///
    /// # Errors
    ///
    /// `Short` and `Value`: the octets are none of their types.
    fn read_results(reader: &mut Reader<'_>) -> Result<Self::Results, Error>;

    /// Writes the results.
    ///
    /// # Errors
    ///
    /// `Range` and `Text`: they are none of their types; `Long`.
    fn write_results(writer: &mut Writer, results: &Self::Results) -> Result<(), Error>;

    /// Reads the members of the exception of an id; none where the operation does not declare it.
    ///
    /// # Errors
    ///
    /// `Short` and `Value`: the octets are none of their types.
    fn read_raised(id: &[u8], reader: &mut Reader<'_>) -> Result<Option<Self>, Error>;

    /// The repository id of the exception.
    fn id(&self) -> &str;

    /// Writes its members.
    ///
    /// # Errors
    ///
    /// `Range` and `Text`: they are none of their types; `Long`.
    fn write_members(&self, writer: &mut Writer) -> Result<(), Error>;
}
