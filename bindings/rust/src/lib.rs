//! GIOP 1.0, 1.1 and 1.2 over IIOP (OMG CORBA 3.3 Part 2, clause 9) and the FT_REQUEST service
//! context of Fault Tolerant CORBA, by the library `liblemonrudder`, whose every function is
//! proved.
//!
//! A [`Server`] takes octets of connections at moments, says which request is to be performed, and
//! makes the replies: a request that is sent again acts once. A [`Client`] sends its calls again
//! until they are answered. An [`Assembler`] makes messages of a stream, [`write`](mod@write)
//! writes them, [`cdr`] reads and writes values, and [`Ior`] is a reference to an object.
//!
//! [`store`] has the tables in which outcomes outlive their process.
//!
//! Nothing here opens a socket (but `idl::Caller`), reads a clock (but `Moment::now`) or starts a
//! thread. An object may be given to another thread, but not be used by two at once.
//!
//! The functions of the library are proved; this crate over them is tested.
//!
//! The crate is without `std`, and wants an allocator. Its feature `std`, which is on by default,
//! adds what asks the system: `Moment::now`, `Settings::default` and `idl::Caller`. `examples/bare`
//! is a program without it.

#![no_std]
#![deny(missing_docs)]

extern crate alloc;
#[cfg(any(feature = "std", test))]
extern crate std;

mod assembler;
mod catalogue;
pub mod cdr;
mod changes;
mod client;
mod contexts;
mod error;
pub mod idl;
mod ior;
mod limits;
mod moment;
mod numbers;
mod outcome;
#[cfg(feature = "std")]
mod seeds;
mod server;
pub mod store;
mod types;
pub mod write;

use lemonrudder_sys as sys;

pub use assembler::{Assembler, Message};
pub use catalogue::{Catalogue, Signature};
pub use client::{Call, Client, Completion, RawCall, SystemException};
pub use contexts::Contexts;
pub use error::Error;
pub use ior::{Address, Components, Ior, Profile, Profiles};
pub use limits::Limits;
pub use moment::Moment;
pub use numbers::{
    Completed, Counted, Cuts, Ended, Fault, LocateStatus, MessageType, Order, Part, Status,
    SystemName, Version, Why, Wish,
};
pub use outcome::Outcome;
pub use server::{Due, FtRequest, Request, Server, Settings, Ticket};
pub use types::Type;

use alloc::vec::Vec;
use core::ffi::c_void;

/// The version of the library: major, minor and patch.
#[must_use]
pub fn version() -> (u32, u32, u32) {
    let version = sys::lr_version();
    (version >> 16, version >> 8 & 0xff, version & 0xff)
}

/// Has all memory of the library come from these functions in place of `malloc`, `realloc` and
/// `free`. Each of the first two gives memory aligned to 16, or NULL where there is none.
///
/// # Errors
///
/// `Open`, where memory was taken before: the heap is as it was.
///
/// # Safety
///
/// They do what the functions of C do that they stand for, and this is called before any other
/// function of the crate.
pub unsafe fn set_heap(
    allocate: unsafe extern "C" fn(usize) -> *mut c_void,
    reallocate: unsafe extern "C" fn(*mut c_void, usize) -> *mut c_void,
    release: unsafe extern "C" fn(*mut c_void),
) -> Result<(), Error> {
    // SAFETY: as the caller says.
    error::done(unsafe { sys::lr_set_heap(Some(allocate), Some(reallocate), Some(release)) })
}

/// All octets that calls move into their room, which answer how many: 0 where none are left.
fn all_of(mut output: impl FnMut(&mut [u8]) -> usize) -> Vec<u8> {
    const MORE: usize = 4096;
    let mut all = Vec::new();
    loop {
        let size = all.len();
        all.resize(size + MORE, 0);
        let moved = output(&mut all[size..]);
        all.truncate(size + moved);
        if moved < MORE {
            return all;
        }
    }
}
