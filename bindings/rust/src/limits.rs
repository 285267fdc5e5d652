//! Limits of what is taken in.

use crate::Cuts;

/// Limits of a stream.
#[derive(Clone, Copy, Debug, PartialEq, Eq)]
pub struct Limits {
    /// How many octets a message may have, its header included: 4096 to 16777216.
    pub message: u32,
    /// How many messages may be partial at a time: 1 to 16.
    pub partials: u32,
    /// Where a message of 1.1 may be cut.
    pub cuts: Cuts,
}

/// Messages of a mebibyte, four of them partial, with aligned cuts.
impl Default for Limits {
    fn default() -> Limits {
        Limits { message: 1 << 20, partials: 4, cuts: Cuts::Aligned }
    }
}
