//! How many requests are under way, and whose they are.
//!
//! The more places are taken, the less anybody may add. What is under way of a request's address, of
//! its connection and of its client id is added up. Where its connection, or its client id if it has
//! one, has none under way, that has to be less than three times what is free; else less than that
//! times the part of all that is free. So one address has four of seven places by few connections
//! whose calls hang, and less than three of four by many; and who has none finds one beside them.
//! Who is over waits; those who wait are looked at in turn.

use crate::wire::locked;
use std::borrow::Borrow;
use std::collections::{HashMap, VecDeque};
use std::hash::Hash;
use std::net::IpAddr;
use std::sync::atomic::{AtomicUsize, Ordering};
use std::sync::{Arc, Mutex};
use tokio::sync::{oneshot, Notify};

/// How many times what is free somebody may have at most.
const PART: usize = 3;
/// How many of those who wait are looked at where a place is left.
const LOOK: usize = 64;
/// How many names have a count at least, though nothing is under way of them.
const NAMES: usize = 1024;

/// How many are under way of somebody: it changes where the shares are locked.
type Count = Arc<AtomicUsize>;

fn of(count: &AtomicUsize) -> usize {
    count.load(Ordering::Relaxed)
}

/// Counts by names, and how many there may be before those are taken out that nobody uses.
struct Counts<K> {
    counts: HashMap<K, Count>,
    most: usize,
}

impl<K: Hash + Eq> Counts<K> {
    fn new() -> Counts<K> {
        Counts { counts: HashMap::new(), most: NAMES }
    }

    /// The count of a name.
    fn of<N: Hash + Eq + ToOwned<Owned = K> + ?Sized>(&mut self, name: &N) -> Count
    where
        K: Borrow<N>,
    {
        if let Some(count) = self.counts.get(name) {
            return count.clone();
        }
        if self.counts.len() >= self.most {
            self.counts.retain(|_, count| Arc::strong_count(count) > 1);
            self.most = (2 * self.counts.len()).max(NAMES);
        }
        self.counts.entry(name.to_owned()).or_default().clone()
    }
}

/// Whose a connection is, and how many are under way of it.
struct Connection {
    shares: Arc<Shares>,
    address: Count,
    count: AtomicUsize,
}

/// Whose a request is.
#[derive(Clone)]
struct Owner {
    connection: Arc<Connection>,
    client: Option<Count>,
}

impl Owner {
    fn counts(&self) -> impl Iterator<Item = &AtomicUsize> {
        let Connection { address, count, .. } = &*self.connection;
        [&**address, count].into_iter().chain(self.client.as_deref())
    }
}

/// Who have waited, and get places.
type Turns = Vec<(oneshot::Sender<Place>, Place)>;

/// A request that waits for a place.
type Waiter = (Owner, oneshot::Sender<Place>);

struct State {
    most: Most,
    taken: usize,
    addresses: Counts<IpAddr>,
    clients: Counts<Vec<u8>>,
    waiting: VecDeque<Waiter>,
}

/// How many requests may be under way.
#[derive(Clone, Copy, Debug)]
pub struct Most {
    pub of_all: usize,
    /// Of a connection, but for those that a client id has.
    pub of_connection: usize,
    pub of_client: usize,
}

/// The places of requests under way.
pub struct Shares {
    state: Mutex<State>,
}

/// A request that is under way, as long as this is there.
pub struct Place(Owner);

/// What a connection has of the places.
pub struct Share(Arc<Connection>);

impl Shares {
    #[must_use]
    pub fn new(most: Most) -> Arc<Shares> {
        let (addresses, clients) = (Counts::new(), Counts::new());
        let state = State { most, taken: 0, addresses, clients, waiting: VecDeque::new() };
        Arc::new(Shares { state: Mutex::new(state) })
    }

    /// So many may be under way from now on. (Who waits for a place looks when one is given back.)
    pub fn becomes(&self, most: Most) {
        let given = {
            let mut state = locked(&self.state);
            state.most = most;
            Shares::gives(&mut state)
        };
        tell(given);
    }

    /// The share of a connection from an address.
    #[must_use]
    pub fn share(self: &Arc<Self>, address: IpAddr) -> Share {
        let address = locked(&self.state).addresses.of(&address);
        Share(Connection { shares: self.clone(), address, count: AtomicUsize::new(0) }.into())
    }

    /// Whether there is a place for one more.
    fn may(owner: &Owner, most: Most, taken: usize) -> bool {
        let free = most.of_all.saturating_sub(taken);
        let is_left = match &owner.client {
            Some(client) => of(client) < most.of_client,
            None => of(&owner.connection.count) < most.of_connection,
        };
        let has_none = of(owner.client.as_deref().unwrap_or(&owner.connection.count)) == 0;
        let (all, sum) = (most.of_all, owner.counts().map(of).sum::<usize>());
        let (part, whole) = if has_none { (1, 1) } else { (free, all) };
        is_left && sum.saturating_mul(whole) < PART.saturating_mul(free).saturating_mul(part)
    }

    /// Takes a place, where there is one; else the owner is given back.
    fn take(state: &mut State, owner: Owner) -> Result<Place, Owner> {
        if !Shares::may(&owner, state.most, state.taken) {
            return Err(owner);
        }
        state.taken += 1;
        for count in owner.counts() {
            count.fetch_add(1, Ordering::Relaxed);
        }
        Ok(Place(owner))
    }

    /// Gives a place back, and answers who gets one by that.
    fn leave(&self, owner: &Owner) -> Turns {
        let mut state = locked(&self.state);
        state.taken -= 1;
        for count in owner.counts() {
            count.fetch_sub(1, Ordering::Relaxed);
        }
        Shares::gives(&mut state)
    }

    /// Looks who of those that wait first gets a place.
    fn gives(state: &mut State) -> Turns {
        let mut given = Vec::new();
        for _ in 0..state.waiting.len().min(LOOK) {
            let Some((owner, told)) = state.waiting.pop_front() else { break };
            if told.is_closed() {
                continue;
            }
            match Shares::take(state, owner) {
                Ok(place) => given.push((told, place)),
                Err(owner) => state.waiting.push_back((owner, told)),
            }
        }
        given
    }
}

/// Tells those who get places. (Who is gone by now gives it back.)
fn tell(turns: Turns) {
    for (told, place) in turns {
        _ = told.send(place);
    }
}

impl Drop for Place {
    fn drop(&mut self) {
        tell(self.0.connection.shares.leave(&self.0));
    }
}

impl Share {
    /// A place for a request of this connection, once there is one.
    pub async fn place(&self) -> Option<Place> {
        let asked = self.asks(&mut locked(&self.0.shares.state), None);
        asked.given().await
    }

    /// The same for a request of a client id; none where that has as many under way as it may, or
    /// too many wait.
    pub async fn place_of(&self, client: &[u8]) -> Option<Place> {
        let asked = {
            let mut state = locked(&self.0.shares.state);
            let (most, client) = (state.most, state.clients.of(client));
            if of(&client) >= most.of_client || state.waiting.len() >= most.of_all {
                return None;
            }
            self.asks(&mut state, Some(client))
        };
        asked.given().await
    }

    /// A place, or what tells of one.
    fn asks(&self, state: &mut State, client: Option<Count>) -> Given {
        match Shares::take(state, Owner { connection: self.0.clone(), client }) {
            Ok(place) => Given::Now(place),
            Err(owner) => {
                let (tell, told) = oneshot::channel();
                state.waiting.push_back((owner, tell));
                Given::Later(told)
            }
        }
    }
}

/// A place that is there, or will be.
enum Given {
    Now(Place),
    Later(oneshot::Receiver<Place>),
}

impl Given {
    async fn given(self) -> Option<Place> {
        match self {
            Given::Now(place) => Some(place),
            Given::Later(told) => told.await.ok(),
        }
    }
}

/// How many of something there are, of which somebody waits for the end.
#[derive(Default)]
pub struct Tally {
    count: AtomicUsize,
    none: Notify,
    /// That it is itself one of another.
    _one: Option<One>,
}

/// One of them, as long as this is there.
pub struct One(Arc<Tally>);

impl Tally {
    /// One that is itself one of another, as long as it is there or any of its own are.
    #[must_use]
    pub fn within(all: &Arc<Tally>) -> Arc<Tally> {
        Arc::new(Tally { _one: Some(all.one()), ..Tally::default() })
    }

    /// One more.
    #[must_use]
    pub fn one(self: &Arc<Self>) -> One {
        self.count.fetch_add(1, Ordering::AcqRel);
        One(self.clone())
    }

    #[must_use]
    pub fn is_none(&self) -> bool {
        self.count.load(Ordering::Acquire) == 0
    }

    /// Ends once there is none.
    pub async fn ends(&self) {
        while !self.is_none() {
            self.none.notified().await;
        }
    }
}

impl Drop for One {
    fn drop(&mut self) {
        if self.0.count.fetch_sub(1, Ordering::AcqRel) == 1 {
            self.0.none.notify_one();
        }
    }
}

#[cfg(test)]
mod tests {
    use super::*;
    use futures_util::poll;
    use std::pin::pin;
    use std::task::Poll;

    fn shares(of_all: usize, of_connection: usize, of_client: usize) -> Arc<Shares> {
        Shares::new(Most { of_all, of_connection, of_client })
    }

    fn address(number: u8) -> IpAddr {
        [10, 0, 0, number].into()
    }

    /// Takes places until there is none: those that it took.
    async fn all_of(share: &Share) -> Vec<Place> {
        let mut places = Vec::new();
        loop {
            match poll!(pin!(share.place())) {
                Poll::Ready(place) => places.push(place.unwrap()),
                Poll::Pending => return places,
            }
        }
    }

    /// However many connections of an address take what they can, the next one finds a place; and so
    /// does one of the next address, where several addresses do.
    #[tokio::test]
    async fn who_has_none_finds_a_place() {
        for (addresses, connections) in [(1, 1), (1, 17), (5, 17), (40, 3)] {
            let shares = shares(4096, 256, 1024);
            let mut held = Vec::new();
            for number in 0..addresses {
                for _ in 0..connections {
                    let share = shares.share(address(number));
                    held.push(all_of(&share).await);
                }
            }
            let most = held.iter().map(Vec::len).max().unwrap();
            assert!(most <= 256 && held.iter().all(|it| !it.is_empty()));
            let of_same = (addresses == 1).then_some(0);
            for number in of_same.into_iter().chain([99]) {
                let share = shares.share(address(number));
                let found = matches!(poll!(pin!(share.place())), Poll::Ready(Some(_)));
                assert!(found, "{addresses} {connections} {number}");
            }
        }
    }

    #[tokio::test]
    async fn all_together_have_no_more_than_there_are() {
        let shares = shares(10, 256, 1024);
        let mut held = Vec::new();
        for number in 0..30 {
            held.extend(all_of(&shares.share(address(number))).await);
        }
        assert_eq!(held.len(), 10);
    }

    #[tokio::test]
    async fn a_client_id_has_its_share_and_stops_no_other() {
        let shares = shares(4096, 2, 1024);
        let share = shares.share(address(1));
        let mut held = Vec::new();
        for number in 0..1025 {
            let place = share.place_of(b"one").await;
            assert_eq!(place.is_some(), number < 1024);
            held.extend(place);
        }
        assert!(share.place_of(b"two").await.is_some());
        // (what has a client id is not counted among those of a connection)
        assert!(matches!(poll!(pin!(share.place())), Poll::Pending));
        held.clear();
        assert!(share.place_of(b"one").await.is_some());
    }

    #[tokio::test]
    async fn those_who_wait_have_turns() {
        let shares = shares(1, 256, 1024);
        let of: Vec<Share> = (0..3).map(|number| shares.share(address(number))).collect();
        let first = of[0].place().await;
        let mut waiting: Vec<_> = of.iter().map(|share| Box::pin(share.place())).collect();
        for it in &mut waiting {
            assert!(poll!(it).is_pending());
        }
        // (one that is gone is passed over)
        drop(waiting.remove(1));
        drop(first);
        let Poll::Ready(second) = poll!(&mut waiting[0]) else { panic!("the first has no turn") };
        assert!(poll!(&mut waiting[1]).is_pending());
        drop(second);
        assert!(matches!(poll!(&mut waiting[1]), Poll::Ready(Some(_))));
    }

    #[tokio::test]
    async fn those_who_wait_go_by_what_may_be_now() {
        let shares = shares(1, 256, 1);
        let share = shares.share(address(1));
        let _first = share.place().await;
        let other = shares.share(address(2));
        let mut waits = Box::pin(other.place());
        assert!(poll!(&mut waits).is_pending());
        shares.becomes(Most { of_all: 99, of_connection: 256, of_client: 2 });
        let Poll::Ready(Some(_second)) = poll!(&mut waits) else { panic!("it has no place") };
        let _third = other.place_of(b"one").await;
        assert!(matches!(poll!(pin!(share.place_of(b"one"))), Poll::Ready(Some(_))));
        shares.becomes(Most { of_all: 99, of_connection: 256, of_client: 1 });
        assert!(other.place_of(b"one").await.is_none());
    }

    #[tokio::test]
    async fn an_end_is_waited_for() {
        let tally = Arc::<Tally>::default();
        tally.ends().await;
        let (one, two) = (tally.one(), tally.one());
        let mut ends = pin!(tally.ends());
        assert!(poll!(&mut ends).is_pending());
        drop(one);
        assert!(poll!(&mut ends).is_pending() && !tally.is_none());
        drop(two);
        ends.await;
    }

    #[tokio::test]
    async fn what_is_within_another_is_waited_for_there() {
        let all = Arc::<Tally>::default();
        let within = Tally::within(&all);
        let one = within.one();
        drop(within);
        let mut ends = pin!(all.ends());
        assert!(poll!(&mut ends).is_pending());
        drop(one);
        ends.await;
    }
}
