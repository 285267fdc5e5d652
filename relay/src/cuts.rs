//! Where a message of GIOP 1.1 was cut into fragments.
//!
//! It is left open whether what is aligned in a Fragment of 1.1 is so from its own beginning or the
//! message's (CORBA 3.3 Part 2, 9.4.9). So a body goes on as it came: cut at the same octets, and at
//! the same place modulo 8 in its message.

use std::mem;

/// What each takes in memory, and as octets.
const SIZE: usize = mem::size_of::<usize>();
const OCTETS: usize = 4;
const HEADER: usize = 12;
const FRAGMENT: u8 = 7;
const MORE: u8 = 2;
/// At how many octets a message may be cut.
const MOST: usize = 1 << 14;

/// Before how many octets of a message, or of its body, it was cut, each time; once where empty
/// fragments follow one another.
#[derive(Clone, Debug, Default, PartialEq, Eq)]
pub struct Cuts(Vec<usize>);

impl Cuts {
    /// One more, behind all others.
    pub fn push(&mut self, at: usize) {
        if self.0.last() != Some(&at) {
            self.0.push(at);
        }
    }

    pub fn clear(&mut self) {
        self.0.clear();
    }

    /// These, of which none are left.
    pub fn take(&mut self) -> Cuts {
        mem::take(self)
    }

    /// Whether it was not cut.
    #[must_use]
    pub fn are_none(&self) -> bool {
        self.0.is_empty()
    }

    /// Whether there may be no more.
    #[must_use]
    pub fn are_most(&self) -> bool {
        self.0.len() >= MOST
    }

    /// What they take of memory.
    #[must_use]
    pub fn size(&self) -> usize {
        self.0.len() * SIZE
    }

    /// As octets: each is four in big order. None where it was not cut.
    #[must_use]
    pub fn octets(&self) -> Option<Vec<u8>> {
        let number = |at: &usize| u32::try_from(*at).unwrap_or(u32::MAX).to_be_bytes();
        (!self.are_none()).then(|| self.0.iter().flat_map(number).collect())
    }

    /// Those that octets are, where there are any.
    #[must_use]
    pub fn read(octets: Option<&[u8]>) -> Cuts {
        let number = |four: &[u8]| four.try_into().map(u32::from_be_bytes).ok();
        let numbers = octets.unwrap_or_default().chunks(OCTETS).filter_map(number);
        Cuts(numbers.filter_map(|at| usize::try_from(at).ok()).collect())
    }

    /// Those of the body that begins at a place of a message. (Others are not known to mean anything.)
    #[must_use]
    pub fn behind(&self, place: u64) -> Cuts {
        let place = usize::try_from(place).unwrap_or(usize::MAX);
        Cuts(self.0.iter().filter_map(|at| at.checked_sub(place)).collect())
    }

    /// A message of 1.1, with its body cut so, of so many octets.
    #[must_use]
    pub fn cut(&self, message: Vec<u8>, body: usize) -> Vec<u8> {
        if self.0.is_empty() {
            return message;
        }
        let place = message.len() - body;
        let ends = self.0.iter().map(|at| place + at.min(&body)).chain([message.len()]);
        let mut octets = Vec::with_capacity(message.len() + (self.0.len() + 1) * HEADER);
        let (mut from, mut kind) = (HEADER, message[7]);
        for (index, end) in ends.enumerate() {
            let more = if index < self.0.len() { MORE } else { 0 };
            let size = u32::try_from(end - from).unwrap_or(u32::MAX);
            let is_big = message[6] & 1 == 0;
            octets.extend_from_slice(&message[..6]);
            octets.extend_from_slice(&[message[6] | more, kind]);
            octets.extend(if is_big { size.to_be_bytes() } else { size.to_le_bytes() });
            octets.extend_from_slice(&message[from..end]);
            (from, kind) = (end, FRAGMENT);
        }
        octets
    }
}

#[cfg(test)]
mod tests {
    use super::*;

    fn cuts(at: &[usize]) -> Cuts {
        let mut cuts = Cuts::default();
        at.iter().for_each(|at| cuts.push(*at));
        cuts
    }

    /// A Request of 1.1 of 16 octets, four of them a body.
    const BIG: &[u8] = b"GIOP\x01\x01\0\0\0\0\0\x04body";
    const LITTLE: &[u8] = b"GIOP\x01\x01\x01\0\x04\0\0\0body";

    #[test]
    fn a_body_is_cut_where_it_was() {
        for (at, wanted) in [
            (&[][..], BIG.to_vec()),
            (&[4], b"GIOP\x01\x01\x02\0\0\0\0\x04bodyGIOP\x01\x01\0\x07\0\0\0\0".to_vec()),
            (&[1], b"GIOP\x01\x01\x02\0\0\0\0\x01bGIOP\x01\x01\0\x07\0\0\0\x03ody".to_vec()),
            (
                &[0, 3],
                b"GIOP\x01\x01\x02\0\0\0\0\0GIOP\x01\x01\x02\x07\0\0\0\x03bodGIOP\x01\x01\0\x07\0\0\0\x01y"
                    .to_vec(),
            ),
        ] {
            assert_eq!(cuts(at).cut(BIG.to_vec(), 4), wanted, "{at:?}");
        }
        let wanted = b"GIOP\x01\x01\x03\0\x02\0\0\0boGIOP\x01\x01\x01\x07\x02\0\0\0dy";
        assert_eq!(cuts(&[2]).cut(LITTLE.to_vec(), 4), wanted);
    }

    #[test]
    fn those_of_a_body_are_counted_from_it() {
        assert_eq!(cuts(&[20, 28, 44, 44, 60]).behind(28), cuts(&[0, 16, 32]));
        assert_eq!(cuts(&[20]).behind(28), Cuts::default());
    }

    #[test]
    fn they_are_octets() {
        for (at, octets) in [
            (&[][..], None),
            (&[0], Some(&b"\0\0\0\0"[..])),
            (&[3, 260, 1 << 24], Some(b"\0\0\0\x03\0\0\x01\x04\x01\0\0\0")),
        ] {
            assert_eq!(cuts(at).octets().as_deref(), octets, "{at:?}");
            assert_eq!(Cuts::read(octets), cuts(at));
        }
        assert_eq!(Cuts::read(Some(b"\0\0\0\x05\0\0")), cuts(&[5]));
    }

    #[test]
    fn there_are_not_more_than_may_be() {
        let all: Vec<usize> = (0..MOST).collect();
        assert!(cuts(&all).are_most() && !cuts(&all[1..]).are_most());
        let same = vec![7; MOST];
        assert!(!cuts(&same).are_most());
    }
}
