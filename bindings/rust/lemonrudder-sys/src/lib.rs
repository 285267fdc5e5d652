//! The functions of `lemonrudder.h`, which says what each does.
//!
//! Those that take slots and numbers alone are safe: a slot is made empty here, is never copied,
//! and is filled and emptied by the library alone; and who has a `&mut` of it is the only one that
//! uses it. Those that take a pointer or a size are not. A slot of any kind is one type here; the
//! library answers `LR_E_EMPTY` where it is given a slot of another kind.
//!
//! `build.rs` links the library, and ends the build where that is not of the version of this crate,
//! or a later one of its series: of the same minor version, before 1.0. It reads
//! `pkgconfig/lemonrudder.pc` beside the library for this.

#![no_std]
#![allow(non_camel_case_types)]

use core::ffi::c_void;
use core::ptr;

#[cfg(test)]
extern crate std;

mod header;
#[cfg(test)]
mod versions;

pub use header::*;

/// A slot, in which an object lives. It is closed where it is dropped.
#[repr(C)]
#[derive(Debug)]
pub struct lr_slot {
    kind: u32,
    at: *mut c_void,
}

impl lr_slot {
    /// An empty slot.
    #[must_use]
    pub const fn empty() -> lr_slot {
        lr_slot { kind: 0, at: ptr::null_mut() }
    }
}

impl Drop for lr_slot {
    fn drop(&mut self) {
        lr_close(self);
    }
}

// SAFETY: an object may be used by any thread, if no two use it at once; nothing in the library is
// of one thread.
unsafe impl Send for lr_slot {}
