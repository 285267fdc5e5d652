//! The code sets of requests, and how many different ones a peer may have under way.

use crate::compose::Contexts;
use crate::forward::CODE_SETS;
use crate::wire::locked;
use lemonrudder::cdr::Reader;
use lemonrudder::Order;
use std::collections::BTreeMap;
use std::net::IpAddr;
use std::ops::RangeInclusive;
use std::sync::{Arc, Mutex};

/// Those of char and of wchar, by their numbers.
pub type CodeSets = (u32, u32);

/// What the service context of code sets says: an encapsulation of two numbers (CORBA 3.3 Part 2,
/// 7.10.2.5), behind which nothing is looked at. One that reads otherwise says nothing.
#[must_use]
pub fn read(data: &[u8]) -> Option<CodeSets> {
    let (order, numbers) = data.split_first()?;
    let order = match order {
        0 => Order::Big,
        1 => Order::Little,
        _ => return None,
    };
    let mut reader = Reader::at(numbers, order, 1);
    Some((reader.ulong().ok()?, reader.ulong().ok()?))
}

/// What the service contexts of a request say.
#[must_use]
pub fn said_in(contexts: &Contexts) -> Option<CodeSets> {
    contexts.iter().find(|(id, _)| *id == CODE_SETS).and_then(|(_, data)| read(data))
}

/// For how many addresses at least it is known what code sets they used.
const KNOWN: usize = 1024;

/// The code sets of each address: of so many there may be requests of one under way, and of those that
/// it used last besides, half as many.
#[derive(Debug)]
pub struct Shares {
    most: usize,
    uses: Mutex<Uses>,
}

#[derive(Debug, Default)]
struct Uses {
    uses: BTreeMap<(IpAddr, CodeSets), Use>,
    /// How many there may be before those are forgotten of which nothing is under way.
    most: usize,
    /// How many requests there were.
    count: u64,
}

/// How many requests are under way of an address and its code sets, and which was the last.
#[derive(Debug, Default)]
struct Use {
    count: usize,
    last: u64,
}

/// A request's place in the share of its address.
#[derive(Debug)]
pub struct Held(Arc<Shares>, (IpAddr, CodeSets));

impl Shares {
    #[must_use]
    pub fn new(most: usize) -> Arc<Shares> {
        Arc::new(Shares { most, uses: Mutex::default() })
    }

    /// A place for a request with these code sets, if there is one left.
    pub fn hold(self: &Arc<Self>, from: IpAddr, sets: CodeSets) -> Option<Held> {
        let Uses { uses, most, count } = &mut *locked(&self.uses);
        *count += 1;
        if !uses.contains_key(&(from, sets)) {
            let under_way = uses.range(all_of(from)).filter(|(_, it)| it.count > 0);
            if under_way.count() >= self.most {
                return None;
            }
            if uses.len() >= *most {
                uses.retain(|_, it| it.count > 0);
                *most = (2 * uses.len()).max(KNOWN);
            }
        }
        let it = uses.entry((from, sets)).or_default();
        (it.count, it.last) = (it.count + 1, *count);
        Some(Held(self.clone(), (from, sets)))
    }
}

/// All code sets of an address.
fn all_of(from: IpAddr) -> RangeInclusive<(IpAddr, CodeSets)> {
    (from, CodeSets::default())..=(from, (u32::MAX, u32::MAX))
}

impl Drop for Held {
    fn drop(&mut self) {
        let Held(shares, of) = self;
        let uses = &mut locked(&shares.uses).uses;
        let Some(it) = uses.get_mut(of) else { return };
        it.count -= 1;
        if it.count > 0 {
            return;
        }
        let idle = || uses.range(all_of(of.0)).filter(|(_, it)| it.count == 0);
        if idle().count() > shares.most / 2 {
            let oldest = idle().min_by_key(|(_, it)| it.last).map(|(of, _)| *of);
            oldest.and_then(|of| uses.remove(&of));
        }
    }
}

#[cfg(test)]
mod tests {
    use super::*;
    use std::net::Ipv4Addr;

    #[test]
    fn what_reads_as_two_numbers_is_code_sets() {
        for (data, sets) in [
            (&b"\0\0\0\0\x05\x01\0\x01\0\x01\x01\x09"[..], Some((0x0501_0001, 0x0001_0109))),
            (b"\x01\0\0\0\x01\0\x01\x05\x09\x01\x01\0", Some((0x0501_0001, 0x0001_0109))),
            (b"\0xyz\x05\x01\0\x01\0\x01\x01\x09more", Some((0x0501_0001, 0x0001_0109))),
            (b"\0\0\0\0\x05\x01\0\x01\0\x01\x01", None),
            (b"\0\0\0\0\x05\x01\0\x01", None),
            (b"\x02\0\0\0\x05\x01\0\x01\0\x01\x01\x09", None),
            (b"\0\0\0\0", None),
            (b"", None),
        ] {
            assert_eq!(read(data), sets, "{data:?}");
        }
    }

    #[test]
    fn an_address_has_its_share() {
        let shares = Shares::new(2);
        let (one, other) = ("10.0.0.1".parse().unwrap(), "10.0.0.2".parse().unwrap());
        let held = [(1, 1), (1, 1), (u32::MAX, u32::MAX)].map(|sets| shares.hold(one, sets));
        assert!(held.iter().all(Option::is_some));
        assert!(shares.hold(one, (2, 1)).is_none());
        assert!(shares.hold(other, (2, 1)).is_some());
        let [first, second, third] = held;
        drop(first);
        assert!(shares.hold(one, (2, 1)).is_none());
        drop(second);
        let held = shares.hold(one, (2, 1));
        assert!(held.is_some() && shares.hold(one, (3, 1)).is_none());
        // (what it used last has a place besides, and one only)
        assert!(shares.hold(one, (1, 1)).is_some());
        drop((third, held));
        assert!(locked(&shares.uses).uses.keys().eq(&[(one, (1, 1)), (other, (2, 1))]));
    }

    #[test]
    fn of_many_addresses_those_are_forgotten_of_which_nothing_is_under_way() {
        let shares = Shares::new(2);
        let of = |number: u32| shares.hold(Ipv4Addr::from(number).into(), (1, 1));
        let held = of(0).unwrap();
        for number in 1..5000 {
            assert!(of(number).is_some());
            assert!(locked(&shares.uses).uses.len() <= KNOWN);
        }
        assert!(locked(&shares.uses).uses.contains_key(&held.1));
    }
}
