//! The connections of clients that there may be: of all, and of each address.

use crate::descriptors;
use crate::settings::Limits;
use crate::wire::locked;
use std::collections::HashMap;
use std::net::IpAddr;
use std::sync::{Arc, Mutex};

/// Those that there are.
pub struct Peers {
    /// How many connections there may be to servers or guards.
    lines: usize,
    state: Mutex<State>,
}

#[derive(Default)]
struct State {
    /// How many were wanted when it was last looked, and how many of those find descriptors.
    wanted: usize,
    most: usize,
    count: usize,
    addresses: HashMap<IpAddr, usize>,
}

/// One of them, as long as this is there.
pub struct Place(Arc<Peers>, IpAddr);

impl Peers {
    /// None, beside so many connections to servers or guards.
    #[must_use]
    pub fn new(limits: &Limits, lines: usize) -> Arc<Peers> {
        let mut state = State::default();
        state.looks(limits.peers, lines);
        Arc::new(Peers { lines, state: Mutex::new(state) })
    }

    /// A place for one of an address, within limits.
    ///
    /// # Errors
    ///
    /// Why there is none.
    pub fn place(
        self: &Arc<Self>,
        address: IpAddr,
        limits: &Limits,
    ) -> Result<Place, &'static str> {
        let mut state = locked(&self.state);
        state.looks(limits.peers, self.lines);
        if state.count >= state.most {
            return Err("there are too many");
        }
        let of_address = state.addresses.entry(address).or_default();
        if *of_address >= limits.peers_per_address {
            return Err("its address has too many");
        }
        *of_address += 1;
        state.count += 1;
        Ok(Place(self.clone(), address))
    }
}

impl State {
    /// Looks how many find descriptors, where others are wanted than were.
    fn looks(&mut self, wanted: usize, lines: usize) {
        if self.wanted != wanted {
            (self.wanted, self.most) = (wanted, descriptors::peers(wanted, lines));
        }
    }
}

impl Drop for Place {
    fn drop(&mut self) {
        let mut state = locked(&self.0.state);
        state.count -= 1;
        if let Some(count) = state.addresses.get_mut(&self.1) {
            *count -= 1;
            if *count == 0 {
                state.addresses.remove(&self.1);
            }
        }
    }
}

#[cfg(test)]
mod tests {
    use super::*;

    #[test]
    fn there_are_as_many_as_are_wanted_now() {
        let (one, other): (IpAddr, IpAddr) = ([10, 0, 0, 1].into(), [10, 0, 0, 2].into());
        let limits =
            |peers, peers_per_address| Limits { peers, peers_per_address, ..Limits::default() };
        let peers = Peers::new(&limits(2, 2), 1);
        let first = peers.place(one, &limits(2, 2));
        assert_eq!(peers.place(one, &limits(2, 1)).err(), Some("its address has too many"));
        let _second = peers.place(other, &limits(2, 1));
        assert_eq!(peers.place(other, &limits(2, 2)).err(), Some("there are too many"));
        assert!(peers.place(other, &limits(3, 2)).is_ok());
        drop(first);
        assert!(peers.place(one, &limits(2, 1)).is_ok());
        assert_eq!(peers.place(one, &limits(1, 1)).err(), Some("there are too many"));
        assert_eq!(locked(&peers.state).addresses.len(), 1);
    }
}
