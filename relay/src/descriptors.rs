//! How many descriptors this process may have, and how many of them are for connections of clients.

use rustix::process::{getrlimit, setrlimit, Resource, Rlimit};
use tracing::warn;

/// How many are kept for the store, listeners, counters, and what looks whether servers are there.
const RESERVE: usize = 64;

/// How many there may be, once as many are allowed as the system lets this process allow itself.
fn allowed() -> usize {
    let Rlimit { current, maximum } = getrlimit(Resource::Nofile);
    let raised = setrlimit(Resource::Nofile, Rlimit { current: maximum, maximum });
    let most = if raised.is_ok() { maximum } else { current };
    // (without a number there is no limit)
    most.map_or(usize::MAX, |most| usize::try_from(most).unwrap_or(usize::MAX))
}

/// How many connections of clients there may be of so many that are wanted, so that so many to
/// servers or guards find descriptors.
#[must_use]
pub fn peers(wanted: usize, lines: usize) -> usize {
    let descriptors = allowed();
    let peers = part_of(descriptors, wanted, lines);
    if peers < wanted {
        warn!(
            peers,
            descriptors, "fewer connections of clients than --peers says find descriptors"
        );
    }
    peers
}

/// Half of all is the least that clients have.
fn part_of(descriptors: usize, wanted: usize, lines: usize) -> usize {
    let others = lines.saturating_add(RESERVE).min(descriptors.div_ceil(2));
    wanted.min(descriptors - others)
}

#[cfg(test)]
mod tests {
    use super::*;

    #[test]
    fn clients_have_what_is_left() {
        for (descriptors, wanted, lines, peers) in [
            (usize::MAX, 16384, 256, 16384),
            (65536, 16384, 256, 16384),
            (1024, 16384, 256, 704),
            (1024, 704, 256, 704),
            (1024, 703, 256, 703),
            (200, 16384, 256, 100),
            (201, 16384, 256, 100),
            (3, 16384, usize::MAX, 1),
        ] {
            assert_eq!(
                part_of(descriptors, wanted, lines),
                peers,
                "{descriptors} {wanted} {lines}"
            );
        }
    }
}
