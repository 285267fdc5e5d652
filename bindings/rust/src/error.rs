//! What a call answers where it fails.

use crate::sys::{self, *};
use alloc::vec;
use alloc::vec::Vec;
use core::ffi::{c_char, CStr};
use core::fmt;

macro_rules! errors {
    ($($(#[$doc:meta])* $name:ident = $code:expr,)*) => {
        /// Why a call failed. Nothing has changed then, unless the call says otherwise.
        #[derive(Clone, Copy, Debug, PartialEq, Eq, Hash)]
        #[non_exhaustive]
        pub enum Error {
            $($(#[$doc])* $name,)*
            /// An error that this version of the crate has no name for.
            Unknown(i64),
        }

        impl Error {
            /// The number of the error, `LR_E_..` of `lemonrudder.h`.
            pub const fn code(self) -> i64 {
                match self {
                    $(Error::$name => $code,)*
                    Error::Unknown(code) => code,
                }
            }

            /// The error of a number.
            pub(crate) const fn of(code: i64) -> Error {
                $(if code == $code {
                    return Error::$name;
                })*
                Error::Unknown(code)
            }
        }
    };
}

errors! {
    /// The slot is empty, or holds an object of another kind.
    ///
    /// So the object was closed, or has become another one.
    Empty = LR_E_EMPTY,
    /// The slot holds an object already, or it is too late for this.
    Open = LR_E_OPEN,
    /// An allocation failed, and nothing has changed.
    Memory = LR_E_MEMORY,
    /// A number is none of those that are allowed.
    Range = LR_E_RANGE,
    /// There is no such connection, or the number of a new one is not greater than each before.
    Connection = LR_E_CONNECTION,
    /// A request waits for its outcome.
    Asking = LR_E_ASKING,
    /// No request waits.
    Idle = LR_E_IDLE,
    /// As many requests are parked as may be; or it is to be given up, and somebody waits on its
    /// connection for one that is.
    Parks = LR_E_PARKS,
    /// No outcome of the operation, or one that can't be sent.
    Outcome = LR_E_OUTCOME,
    /// The room is too small.
    Room = LR_E_ROOM,
    /// Octets are missing at the end.
    Short = LR_E_SHORT,
    /// The octets are no value of the type.
    Value = LR_E_VALUE,
    /// The codes spell no valid types.
    Types = LR_E_TYPES,
    /// A NUL where none may be, or a name of a length that is not allowed.
    Text = LR_E_TEXT,
    /// There is an object or operation of that name, or a call of that number or a greater one.
    Taken = LR_E_TAKEN,
    /// There is no object of that key.
    Object = LR_E_OBJECT,
    /// Every operation of the object is raw.
    Raw = LR_E_RAW,
    /// No stringified reference.
    Reference = LR_E_REFERENCE,
    /// The stream has a fault, and is at its end.
    Stream = LR_E_STREAM,
    /// There is no such part.
    NoPart = LR_E_NONE,
    /// The moment is past the expiration.
    Expired = LR_E_EXPIRED,
    /// As many calls are pending as a client keeps, or it has given all its numbers.
    Calls = LR_E_CALLS,
    /// The message would be longer than its size can say.
    Long = LR_E_LONG,
    /// An allocation failed, and the connection is gone.
    Lost = LR_E_LOST,
    /// The body would stand at a place that is not divisible by 8.
    Place = LR_E_PLACE,
    /// No request of that ticket waits or is parked.
    Ticket = LR_E_TICKET,
    /// No pending call of that number is led elsewhere.
    Forward = LR_E_FORWARD,
}

/// What the library says of a number by one of two functions: lr_strerror, lr_error_name.
fn said(by: impl Fn(i64) -> *const c_char, code: i64) -> &'static str {
    // SAFETY: both answer a text with a NUL at its end, which is there as long as the program.
    let text = unsafe { CStr::from_ptr(by(code)) };
    text.to_str().unwrap_or("an unknown error")
}

impl Error {
    /// The name of the error in `lemonrudder.h`, as `LR_E_RANGE`: `LR_E_UNKNOWN` where the library
    /// has none.
    #[must_use]
    pub fn name(self) -> &'static str {
        said(|code| sys::lr_error_name(code), self.code())
    }
}

impl fmt::Display for Error {
    fn fmt(&self, out: &mut fmt::Formatter<'_>) -> fmt::Result {
        out.write_str(said(|code| sys::lr_strerror(code), self.code()))
    }
}

impl core::error::Error for Error {}

/// What a function of the library answered: a count, or an error.
pub(crate) fn count(answer: i64) -> Result<usize, Error> {
    usize::try_from(answer).map_err(|_| Error::of(answer))
}

/// What a function of the library answered whose count says nothing.
pub(crate) fn done(answer: i64) -> Result<(), Error> {
    count(answer).map(|_| ())
}

/// A size that the library said: of what fits into memory.
pub(crate) fn size(said: u64) -> Result<usize, Error> {
    usize::try_from(said).map_err(|_| Error::Memory)
}

/// The count of a function whose one error is that its slot is empty, which none is here.
pub(crate) fn sure(answer: i64) -> usize {
    count(answer).unwrap_or(0)
}

/// What a function copies that answers how much there is, and copies as much of it as its room has
/// octets. There are probably so many.
pub(crate) fn copied(
    size: usize,
    mut call: impl FnMut(&mut [u8]) -> i64,
) -> Result<Vec<u8>, Error> {
    let mut room = vec![0; size];
    loop {
        let size = count(call(&mut room))?;
        let is_whole = size <= room.len();
        room.resize(size, 0);
        if is_whole {
            return Ok(room);
        }
    }
}

/// What a function writes that answers `Room` where its room is too small. It needs probably at
/// most so much.
pub(crate) fn written(
    size: usize,
    mut call: impl FnMut(&mut [u8]) -> i64,
) -> Result<Vec<u8>, Error> {
    let mut room = vec![0; size];
    loop {
        match count(call(&mut room)) {
            Err(Error::Room) => room.resize(2 * room.len().max(64), 0),
            answer => {
                room.truncate(answer?);
                return Ok(room);
            }
        }
    }
}

#[cfg(test)]
mod tests {
    use super::*;
    use std::string::ToString;

    #[test]
    fn each_code_has_its_error() {
        for code in -40..=-1 {
            let error = Error::of(code);
            assert_eq!(error.code(), code);
            assert_eq!(matches!(error, Error::Unknown(_)), error.name() == "LR_E_UNKNOWN");
        }
        assert_eq!(Error::NoPart.name(), "LR_E_NONE");
        assert_eq!(Error::of(-1000), Error::Unknown(-1000));
        assert_eq!(count(7), Ok(7));
        assert_eq!(done(7), Ok(()));
        assert_eq!(done(-7), Err(Error::Idle));
        assert_eq!(size(7), Ok(7));
    }

    #[test]
    fn an_error_has_the_text_of_the_library() {
        for code in -27..=-1 {
            assert!(!Error::of(code).to_string().is_empty());
        }
        assert_ne!(Error::Memory.to_string(), Error::Lost.to_string());
    }

    #[test]
    fn room_grows_until_it_is_enough() {
        let whole: Vec<u8> = (0..200).collect();
        let copy = |room: &mut [u8]| {
            let size = room.len().min(whole.len());
            room[..size].copy_from_slice(&whole[..size]);
            200
        };
        let write = |room: &mut [u8]| if room.len() < 200 { -10 } else { copy(room) };
        for size in [0, 1, 199, 200, 201, 1000] {
            assert_eq!(copied(size, copy).as_ref(), Ok(&whole));
            assert_eq!(written(size, write).as_ref(), Ok(&whole));
        }
        assert_eq!(copied(5, |_| -20), Err(Error::NoPart));
        assert_eq!(written(5, |_| -4), Err(Error::Range));
    }
}
