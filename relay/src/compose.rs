//! Requests and replies as octets (CORBA 3.3 Part 2, 9.4.2 and 9.4.3).
//!
//! Values in a body are aligned from the beginning of its message, so a body is written at the place,
//! modulo 8, at which it came. In 1.2 that is a multiple of 8. In 1.0 and 1.1 it stands where the
//! header ends, which is moved by a service context that says nothing.

use crate::cuts::Cuts;
use lemonrudder::{Order, Version, Wish};
use std::sync::Arc;

/// How many octets a message may have.
pub const LONGEST: usize = 16 << 20;
/// The id of the service context that says nothing, of a vendor's range (9.7.1, 7.7.1): who does not
/// know it passes over it.
pub const PADDING: u32 = 0x4c52_0000;
/// That of the one that says of which store a guard is.
pub const STORE: u32 = 0x4c52_0001;

const HEADER: usize = 12;
const REQUEST: u8 = 0;
const REPLY: u8 = 1;
/// What stands in a message beside names and a body, with a few service contexts.
const ROOM: usize = 128;

/// Service contexts: the id and the data of each.
pub type Contexts = Vec<(u32, Vec<u8>)>;

/// What stands before a body, but the request id.
#[derive(Clone, Debug, PartialEq, Eq)]
pub struct Head {
    pub version: Version,
    /// The order of the numbers, those of the body among them.
    pub order: Order,
    pub wish: Wish,
    pub key: Vec<u8>,
    pub operation: Vec<u8>,
    pub contexts: Contexts,
}

/// A body, and the place of its first octet.
#[derive(Clone, Debug, PartialEq, Eq, Default)]
pub struct Body {
    pub octets: Vec<u8>,
    pub place: u64,
    /// Where it was cut in a message of 1.1.
    pub cuts: Cuts,
}

impl Body {
    /// One that was not cut.
    #[must_use]
    pub fn at(place: u64, octets: Vec<u8>) -> Body {
        Body { octets, place, cuts: Cuts::default() }
    }

    /// What it takes of memory.
    #[must_use]
    pub fn size(&self) -> usize {
        self.octets.len() + self.cuts.size()
    }
}

/// A Request of this id: its octets up to its body, and that; or all of them, and none, where it has
/// to be cut. None, where it would be too long, or its body can't stand where it has to.
pub fn request(head: &Head, id: u32, body: &Arc<Body>) -> Option<(Vec<u8>, Arc<Body>)> {
    let mut octets = head_of_request(head, id, body)?;
    if head.version != Version::V11 || body.cuts.are_none() {
        return Some((octets, body.clone()));
    }
    octets.extend_from_slice(&body.octets);
    Some((cut(head.version, octets, body), Arc::default()))
}

/// A message with its body behind it, in 1.1 cut where that was.
fn cut(version: Version, message: Vec<u8>, body: &Body) -> Vec<u8> {
    match version {
        Version::V11 => body.cuts.cut(message, body.octets.len()),
        Version::V10 | Version::V12 => message,
    }
}

/// What stands before the body in a Request of this id.
fn head_of_request(head: &Head, id: u32, body: &Body) -> Option<Vec<u8>> {
    let size = head.key.len() + head.operation.len();
    moved(body, head.version, |padding| {
        let mut out = begun(head.version, head.order, REQUEST, size);
        if head.version != Version::V12 {
            out.contexts(&head.contexts, padding)?;
        }
        out.ulong(id);
        out.octets.push(flags_of(head.version, head.wish));
        if head.version != Version::V10 {
            out.octets.extend_from_slice(&[0; 3]);
        }
        if head.version == Version::V12 {
            out.octets.extend_from_slice(&[0; 2]); // (the target is an object key)
        }
        out.sequence(&head.key)?;
        out.string(&head.operation)?;
        if head.version == Version::V12 {
            out.contexts(&head.contexts, None)?;
        } else {
            // (a principal, which nobody reads, moves the body by what is no multiple of 4)
            out.sequence(&[0; 4][..usize::try_from(body.place % 4).unwrap_or(0)])?;
        }
        Some(out.octets)
    })
}

/// A Reply to the request of this id.
pub fn reply(
    version: Version,
    order: Order,
    id: u32,
    status: u32,
    contexts: &Contexts,
    body: &Body,
) -> Option<Vec<u8>> {
    let mut reply = moved(body, version, |padding| {
        let mut out = begun(version, order, REPLY, body.octets.len());
        if version != Version::V12 {
            out.contexts(contexts, padding)?;
        }
        out.ulong(id);
        out.ulong(status);
        if version == Version::V12 {
            out.contexts(contexts, None)?;
        }
        Some(out.octets)
    })?;
    reply.extend_from_slice(&body.octets);
    Some(cut(version, reply, body))
}

/// What FT_REQUEST says (FT 23.2.7): an encapsulation of a client id, a number and an expiration. None,
/// where the id has a NUL.
pub fn ft_request(order: Order, client: &[u8], number: i32, expiration: u64) -> Option<Vec<u8>> {
    let mut octets = Vec::with_capacity(client.len() + ROOM);
    octets.push(u8::from(order == Order::Little));
    let mut out = Out { order, octets };
    out.string(client)?;
    out.ulong(u32::from_ne_bytes(number.to_ne_bytes()));
    out.octets.resize(out.octets.len().next_multiple_of(8), 0);
    out.octets.extend_from_slice(&match order {
        Order::Big => expiration.to_be_bytes(),
        Order::Little => expiration.to_le_bytes(),
    });
    Some(out.octets)
}

/// The header of a message that has a body behind it, and at most [`LONGEST`] octets. It is written
/// without a context that says nothing, or with one of so many octets.
fn moved(
    body: &Body,
    version: Version,
    write: impl Fn(Option<usize>) -> Option<Vec<u8>>,
) -> Option<Vec<u8>> {
    let is_at =
        |header: &Vec<u8>| body.octets.is_empty() || header.len() as u64 % 8 == body.place % 8;
    let mut octets = write(None)?;
    if version == Version::V12 && !body.octets.is_empty() {
        octets.resize(octets.len().next_multiple_of(8), 0);
    } else if !is_at(&octets) {
        octets = write(Some(4))?;
    }
    if !is_at(&octets) || octets.len() + body.octets.len() > LONGEST {
        return None;
    }
    let size = u32::try_from(octets.len() + body.octets.len() - HEADER).ok()?;
    let order = if octets[6] & 1 == 1 { Order::Little } else { Order::Big };
    octets[8..HEADER].copy_from_slice(&in_order(order, size));
    Some(octets)
}

/// A number in an order.
fn in_order(order: Order, number: u32) -> [u8; 4] {
    match order {
        Order::Big => number.to_be_bytes(),
        Order::Little => number.to_le_bytes(),
    }
}

/// A message that is written, each value aligned from its beginning.
struct Out {
    order: Order,
    octets: Vec<u8>,
}

/// A message that has its header, but for its size, and room for so many octets and some numbers.
fn begun(version: Version, order: Order, kind: u8, size: usize) -> Out {
    let minor = [0, 1, 2][version as usize];
    let flags = u8::from(order == Order::Little);
    let mut octets = Vec::with_capacity(size.min(LONGEST) + ROOM);
    octets.extend_from_slice(&[b'G', b'I', b'O', b'P', 1, minor, flags, kind, 0, 0, 0, 0]);
    Out { order, octets }
}

impl Out {
    /// An unsigned long.
    fn ulong(&mut self, number: u32) {
        self.octets.resize(self.octets.len().next_multiple_of(4), 0);
        self.octets.extend_from_slice(&in_order(self.order, number));
    }

    /// A sequence of octets, unless it is too long.
    fn sequence(&mut self, octets: &[u8]) -> Option<()> {
        self.ulong(u32::try_from(octets.len()).ok()?);
        self.octets.extend_from_slice(octets);
        Some(())
    }

    /// A string, unless it is too long, or has a NUL.
    fn string(&mut self, text: &[u8]) -> Option<()> {
        if text.contains(&0) {
            return None;
        }
        self.ulong(u32::try_from(text.len() + 1).ok()?);
        self.octets.extend_from_slice(text);
        self.octets.push(0);
        Some(())
    }

    /// A list of service contexts, the last of which says nothing where there is padding.
    fn contexts(&mut self, contexts: &Contexts, padding: Option<usize>) -> Option<()> {
        let count = contexts.len() + usize::from(padding.is_some());
        self.ulong(u32::try_from(count).ok()?);
        for (id, data) in contexts {
            self.ulong(*id);
            self.sequence(data)?;
        }
        if let Some(size) = padding {
            self.ulong(PADDING);
            self.sequence(&vec![0; size])?;
        }
        Some(())
    }
}

/// The octet that says which reply is wished (9.4.2.1).
fn flags_of(version: Version, wish: Wish) -> u8 {
    match wish {
        Wish::None => 0,
        Wish::Empty => 1,
        Wish::Full if version == Version::V12 => 3,
        Wish::Full => 1,
    }
}

#[cfg(test)]
mod tests {
    use super::*;
    use lemonrudder::{write, Assembler, FtRequest, Limits, MessageType, Moment};

    const VERSIONS: [Version; 3] = [Version::V10, Version::V11, Version::V12];
    const ORDERS: [Order; 2] = [Order::Big, Order::Little];

    fn head(version: Version, order: Order, key: usize) -> Head {
        let contexts = vec![(1, vec![7; key % 5]), (13, b"123".to_vec())];
        let (wish, operation) = (Wish::Full, b"add".to_vec());
        Head { version, order, wish, key: vec![b'k'; key], operation, contexts }
    }

    fn request(head: &Head, id: u32, body: &Body) -> Option<Vec<u8>> {
        Some([head_of_request(head, id, body)?, body.octets.clone()].concat())
    }

    /// Whether it reads again as what it was made of.
    fn is_read(octets: &[u8], id: u32, body: &Body, contexts: &Contexts) -> bool {
        let mut assembler = Assembler::open(Limits::default()).unwrap();
        assert_eq!(assembler.feed(octets), Ok(octets.len()));
        let mut message = assembler.message().unwrap().unwrap();
        let found: Contexts = message.contexts().map(Result::unwrap).collect();
        let found: Contexts = found.into_iter().filter(|(id, _)| *id != PADDING).collect();
        let is_there = body.octets.is_empty() || message.place() % 8 == body.place % 8;
        message.request_id() == id
            && message.body() == body.octets
            && is_there
            && &found == contexts
    }

    #[test]
    fn a_request_has_its_body_at_its_place() {
        for version in VERSIONS {
            for (order, key, place) in ORDERS
                .into_iter()
                .flat_map(|order| (0..64).map(move |n| (order, n / 8, n % 8)))
                .map(|(order, key, place): (_, u8, u8)| (order, key.into(), place.into()))
            {
                let body = Body::at(place, b"abcdefg".to_vec());
                let head = head(version, order, key);
                let made = request(&head, 9, &body);
                if version == Version::V12 && place != 0 {
                    assert_eq!(made, None);
                } else {
                    assert!(
                        is_read(&made.unwrap(), 9, &body, &head.contexts),
                        "{version} {key} {place}"
                    );
                }
            }
        }
    }

    #[test]
    fn a_reply_has_its_body_at_its_place() {
        let contexts = vec![(1, b"12345".to_vec())];
        for version in VERSIONS {
            for (order, place) in ORDERS.into_iter().flat_map(|order| [(order, 0), (order, 4)]) {
                let body = Body::at(place, b"abcdefg".to_vec());
                let made = reply(version, order, 7, 0, &contexts, &body);
                if version == Version::V12 && place != 0 {
                    assert_eq!(made, None);
                } else {
                    assert!(is_read(&made.unwrap(), 7, &body, &contexts), "{version} {place}");
                }
            }
        }
    }

    #[test]
    fn what_has_no_body_stands_anywhere() {
        for version in VERSIONS {
            let (head, body) = (head(version, Order::Big, 3), Body::at(3, Vec::new()));
            assert!(is_read(&request(&head, 1, &body).unwrap(), 1, &body, &head.contexts));
            let none = Contexts::new();
            assert!(is_read(
                &reply(version, Order::Big, 1, 0, &none, &body).unwrap(),
                1,
                &body,
                &none
            ));
        }
    }

    #[test]
    fn ft_request_is_what_the_standard_says() {
        let big = b"\0\0\0\0\0\0\0\x02A\0\0\0\xff\xff\xff\xfe\x01\0\0\0\0\0\0\x02";
        let moment = 0x0100_0000_0000_0002;
        assert_eq!(ft_request(Order::Big, b"A", -2, moment).unwrap(), big);
        assert_eq!(ft_request(Order::Big, b"A\0", -2, moment), None);
        for size in 0..9 {
            let client = vec![b'c'; size];
            let (client_id, retention_id) = (&client[..], 7);
            let said = FtRequest { client_id, retention_id, expiration: Moment(moment) };
            for order in ORDERS {
                let made = ft_request(order, &client, 7, moment);
                assert_eq!(made, Some(write::ft_request(order, &said).unwrap()));
            }
        }
    }

    #[test]
    fn a_message_has_sixteen_mebibytes_at_most() {
        for (size, is_made) in [(LONGEST - 24, true), (LONGEST - 23, false)] {
            let body = Body::at(0, vec![1; size]);
            let made = reply(Version::V12, Order::Big, 7, 0, &Contexts::new(), &body);
            assert_eq!(made.map(|octets| octets.len()), is_made.then_some(LONGEST));
        }
    }

    #[test]
    fn a_request_is_what_the_standard_says() {
        let head = Head { contexts: Contexts::new(), ..head(Version::V12, Order::Big, 1) };
        let body = Body::at(8, vec![0, 0, 0, 7]);
        let text = b"GIOP\x01\x02\0\0\0\0\0\x28\0\0\0\x05\x03\0\0\0\0\0\0\0\0\0\0\x01k\0\0\0\0\0\0\x04add\0\
            \0\0\0\0\0\0\0\0\0\0\0\x07";
        assert_eq!(request(&head, 5, &body).unwrap(), text);
        let made = request(&head, 5, &Body::default()).unwrap();
        assert_eq!(lemonrudder_type(&made), MessageType::Request);
    }

    fn lemonrudder_type(octets: &[u8]) -> MessageType {
        let mut assembler = Assembler::open(Limits::default()).unwrap();
        assembler.feed(octets).unwrap();
        assembler.message().unwrap().unwrap().message_type()
    }
}
