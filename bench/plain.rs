//! A plain assembler of GIOP streams and a plain server, to measure against: no proofs, no crates.
//!
//! usage: plain N PIECE [KIND]        does N times a kind of work, as `benches frames` does, and prints a count and a checksum
//!        plain serve N PIECE KIND [ENTRIES [SHARE]]    serves N messages of a kind, as `benches server` does, prints what was written
//!        plain script CAPACITY SHARE START LIMIT PARTIALS EVENT..     plays events on a server, as `benches script` does, prints the same
//!        plain log N ENTRIES SHARE rising | scattered | together [one]     keeps N outcomes in a log, as `benches log` does
//!        plain check | show          reads digits on standard input, prints how the stream ends, or its messages too
//!
//! It keeps to the rules of the proved server but for one: a request or a locate whose target is a profile or a reference has
//! no object here, also where the profile is one of IIOP that names the counter.

use std::cmp::Reverse;
use std::collections::hash_map::RandomState;
use std::collections::{BTreeMap, BinaryHeap, HashMap, TryReserveError};
use std::fmt;
use std::hash::{BuildHasher, Hasher};
use std::io::{BufWriter, Read, Write};
use std::time::Instant;

const HEADER: usize = 12;

#[derive(Clone, Copy, Debug, PartialEq, Eq)]
pub enum Order {
    Big,
    Little,
}

#[derive(Clone, Copy, Debug, PartialEq, Eq)]
pub enum Version {
    V10,
    V11,
    V12,
}

#[derive(Clone, Copy, Debug, PartialEq, Eq)]
pub enum Kind {
    Request,
    Reply,
    CancelRequest,
    LocateRequest,
    LocateReply,
    CloseConnection,
    MessageError,
    Fragment,
}

#[derive(Clone, Copy, Debug, PartialEq, Eq)]
pub enum Fault {
    BadMagic,
    BadVersion,
    BadFlags,
    BadType,
    BadCut,
    TooLarge,
    UnalignedFragment,
    StrayFragment,
    TwiceStarted,
    TooManyPartial,
    MixedOrder,
    Body(BodyFault),
    Memory,
    Failed,
}

#[derive(Clone, Copy, Debug, PartialEq, Eq)]
pub enum BodyFault {
    Short(u64),
    BadBoolean(u64),
    BadEnum(u64),
    InteriorNul(u64),
    NoTerminator(u64),
    BadAddressing(u64),
}

impl From<BodyFault> for Fault {
    fn from(fault: BodyFault) -> Fault {
        Fault::Body(fault)
    }
}

impl From<TryReserveError> for Fault {
    fn from(_: TryReserveError) -> Fault {
        Fault::Memory
    }
}

impl fmt::Display for BodyFault {
    fn fmt(&self, f: &mut fmt::Formatter) -> fmt::Result {
        let (text, at) = match self {
            BodyFault::Short(at) => ("short", at),
            BodyFault::BadBoolean(at) => ("bad boolean", at),
            BodyFault::BadEnum(at) => ("bad enum", at),
            BodyFault::InteriorNul(at) => ("interior nul", at),
            BodyFault::NoTerminator(at) => ("no terminator", at),
            BodyFault::BadAddressing(at) => ("bad addressing", at),
        };
        write!(f, "{text} at {at}")
    }
}

impl fmt::Display for Fault {
    fn fmt(&self, f: &mut fmt::Formatter) -> fmt::Result {
        f.write_str(match self {
            Fault::BadMagic => "bad magic",
            Fault::BadVersion => "bad version",
            Fault::BadFlags => "bad flags",
            Fault::BadType => "bad type",
            Fault::BadCut => "bad cut",
            Fault::TooLarge => "too large",
            Fault::UnalignedFragment => "unaligned fragment",
            Fault::StrayFragment => "stray fragment",
            Fault::TwiceStarted => "twice started",
            Fault::TooManyPartial => "too many partial",
            Fault::MixedOrder => "mixed order",
            Fault::Body(fault) => return write!(f, "body: {fault}"),
            Fault::Memory => "memory",
            Fault::Failed => "failed",
        })
    }
}

#[derive(Clone, Copy, Debug)]
pub struct Header {
    pub version: Version,
    pub order: Order,
    pub more: bool,
    pub kind: Kind,
    pub size: u32,
}

impl Header {
    #[inline(always)]
    pub fn read(h: &[u8; HEADER]) -> Result<Header, Fault> {
        if &h[..4] != b"GIOP" {
            return Err(Fault::BadMagic);
        }
        let version = match (h[4], h[5]) {
            (1, 0) => Version::V10,
            (1, 1) => Version::V11,
            (1, 2) => Version::V12,
            _ => return Err(Fault::BadVersion),
        };
        let flags = h[6];
        if flags > if version == Version::V10 { 1 } else { 3 } {
            return Err(Fault::BadFlags);
        }
        let order = if flags & 1 == 0 { Order::Big } else { Order::Little };
        let more = flags & 2 != 0;
        let kind = match h[7] {
            0 => Kind::Request,
            1 => Kind::Reply,
            2 => Kind::CancelRequest,
            3 => Kind::LocateRequest,
            4 => Kind::LocateReply,
            5 => Kind::CloseConnection,
            6 => Kind::MessageError,
            7 if version != Version::V10 => Kind::Fragment,
            _ => return Err(Fault::BadType),
        };
        if more {
            let cuttable = match kind {
                Kind::Request | Kind::Reply | Kind::Fragment => true,
                Kind::LocateRequest | Kind::LocateReply => version == Version::V12,
                _ => false,
            };
            if !cuttable {
                return Err(Fault::BadCut);
            }
        }
        let size = [h[8], h[9], h[10], h[11]];
        let size = match order {
            Order::Big => u32::from_be_bytes(size),
            Order::Little => u32::from_le_bytes(size),
        };
        Ok(Header { version, order, more, kind, size })
    }
}

/// Reads parts of a whole frame or encapsulation; a position is a place.
#[derive(Clone, Copy)]
struct Reader<'a> {
    octets: &'a [u8],
    at: usize,
    order: Order,
}

impl<'a> Reader<'a> {
    #[inline(always)]
    fn take(&mut self, n: usize) -> Result<&'a [u8], BodyFault> {
        match self.octets.get(self.at..).and_then(|left| left.get(..n)) {
            Some(octets) => {
                self.at += n;
                Ok(octets)
            }
            None => Err(BodyFault::Short(self.at as u64)),
        }
    }

    #[inline(always)]
    fn align(&mut self, n: usize) {
        self.at = (self.at + (n - 1)) & !(n - 1);
    }

    #[inline(always)]
    fn octet(&mut self) -> Result<u8, BodyFault> {
        Ok(self.take(1)?[0])
    }

    #[inline(always)]
    fn ushort(&mut self) -> Result<u16, BodyFault> {
        self.align(2);
        let octets = self.take(2)?.try_into().unwrap();
        Ok(match self.order {
            Order::Big => u16::from_be_bytes(octets),
            Order::Little => u16::from_le_bytes(octets),
        })
    }

    #[inline(always)]
    fn ulong(&mut self) -> Result<u32, BodyFault> {
        self.align(4);
        let octets = self.take(4)?.try_into().unwrap();
        Ok(match self.order {
            Order::Big => u32::from_be_bytes(octets),
            Order::Little => u32::from_le_bytes(octets),
        })
    }

    #[inline(always)]
    fn boolean(&mut self) -> Result<bool, BodyFault> {
        match self.octet()? {
            0 => Ok(false),
            1 => Ok(true),
            _ => Err(BodyFault::BadBoolean(self.at as u64 - 1)),
        }
    }

    #[inline(always)]
    fn ordinal(&mut self, names: u32) -> Result<u32, BodyFault> {
        let x = self.ulong()?;
        if x >= names {
            return Err(BodyFault::BadEnum(self.at as u64 - 4));
        }
        Ok(x)
    }

    #[inline(always)]
    fn sequence(&mut self) -> Result<&'a [u8], BodyFault> {
        let n = self.ulong()?;
        self.take(n as usize)
    }

    #[inline(always)]
    fn string(&mut self) -> Result<&'a [u8], BodyFault> {
        let octets = self.sequence()?;
        let Some((last, text)) = octets.split_last() else {
            return Ok(octets);
        };
        let start = self.at - octets.len();
        if let Some(i) = text.iter().position(|x| *x == 0) {
            return Err(BodyFault::InteriorNul((start + i) as u64));
        }
        if *last != 0 {
            return Err(BodyFault::NoTerminator(self.at as u64 - 1));
        }
        Ok(text)
    }

    #[inline(always)]
    fn tagged(&mut self) -> Result<(u32, &'a [u8]), BodyFault> {
        Ok((self.ulong()?, self.sequence()?))
    }

    /// Walks over tagged octets and lends them.
    #[inline(always)]
    fn contexts(&mut self) -> Result<Contexts<'a>, BodyFault> {
        let left = self.ulong()?;
        let reader = *self;
        for _ in 0..left {
            self.tagged()?;
        }
        Ok(Contexts { reader, left })
    }

    #[inline(always)]
    fn target(&mut self) -> Result<Target<'a>, BodyFault> {
        let mut other = *self;
        if self.ushort()? == 0 {
            return Ok(Target::Key(self.sequence()?));
        }
        let target = other.any_target()?;
        *self = other;
        Ok(target)
    }

    #[inline(never)]
    fn any_target(&mut self) -> Result<Target<'a>, BodyFault> {
        match self.ushort()? {
            0 => Ok(Target::Key(self.sequence()?)),
            1 => {
                let (tag, data) = self.tagged()?;
                Ok(Target::Profile(tag, data))
            }
            2 => {
                let index = self.ulong()?;
                let type_id = self.string()?;
                let profiles = self.contexts()?;
                Ok(Target::Reference { index, type_id, profiles })
            }
            _ => Err(BodyFault::BadAddressing(self.at as u64 - 2)),
        }
    }

    #[inline(always)]
    fn rest(&self) -> Body<'a> {
        Body {
            at: self.at,
            octets: self.octets.get(self.at..).unwrap_or(&[]),
        }
    }
}

pub struct Contexts<'a> {
    reader: Reader<'a>,
    left: u32,
}

impl<'a> Iterator for Contexts<'a> {
    type Item = (u32, &'a [u8]);

    fn next(&mut self) -> Option<(u32, &'a [u8])> {
        self.left = self.left.checked_sub(1)?;
        self.reader.tagged().ok()
    }
}

pub enum Target<'a> {
    Key(&'a [u8]),
    Profile(u32, &'a [u8]),
    Reference { index: u32, type_id: &'a [u8], profiles: Contexts<'a> },
}

#[derive(Clone, Copy)]
pub struct Body<'a> {
    pub at: usize,
    pub octets: &'a [u8],
}

#[derive(Clone, Copy, PartialEq, Eq)]
pub enum Wish {
    None,
    Empty,
    Full,
}

pub struct Request<'a> {
    pub id: u32,
    pub wish: Wish,
    pub target: Target<'a>,
    pub operation: &'a [u8],
    pub contexts: Contexts<'a>,
    pub body: Body<'a>,
}

pub struct Reply<'a> {
    pub id: u32,
    pub status: u32,
    pub contexts: Contexts<'a>,
    pub body: Body<'a>,
}

pub enum Message<'a> {
    Request(Request<'a>),
    Reply(Reply<'a>),
    Cancel(u32),
    LocateRequest(u32, Target<'a>),
    LocateReply(u32, u32, Body<'a>),
    Close,
    Error,
}

/// Reads a Request of 1.2, the usual message.
#[inline(always)]
fn read_request_12(order: Order, frame: &[u8]) -> Result<Request<'_>, BodyFault> {
    let mut r = Reader { octets: frame, at: HEADER, order };
    let id = r.ulong()?;
    let flags = r.octet()?;
    r.take(3)?;
    let target = r.target()?;
    let operation = r.string()?;
    let contexts = r.contexts()?;
    r.align(8);
    let wish = match flags & 3 {
        1 => Wish::Empty,
        3 => Wish::Full,
        _ => Wish::None,
    };
    Ok(Request { id, wish, target, operation, contexts, body: r.rest() })
}

/// Reads a whole message; the octets are those of the whole frame, its header among them.
#[inline(always)]
pub fn read_message<'a>(header: &Header, frame: &'a [u8]) -> Result<Message<'a>, BodyFault> {
    if header.kind == Kind::Request && header.version == Version::V12 {
        return match read_request_12(header.order, frame) {
            Ok(request) => Ok(Message::Request(request)),
            Err(fault) => Err(fault),
        };
    }
    read_any(header, frame)
}

#[inline(never)]
fn read_any<'a>(header: &Header, frame: &'a [u8]) -> Result<Message<'a>, BodyFault> {
    let mut r = Reader { octets: frame, at: HEADER, order: header.order };
    match header.kind {
        Kind::Request => Ok(Message::Request(if header.version == Version::V12 {
            read_request_12(header.order, frame)?
        } else {
            let contexts = r.contexts()?;
            let id = r.ulong()?;
            let wish = if r.boolean()? { Wish::Full } else { Wish::None };
            if header.version == Version::V11 {
                for _ in 0..3 {
                    r.octet()?;
                }
            }
            let target = Target::Key(r.sequence()?);
            let operation = r.string()?;
            r.sequence()?;
            Request { id, wish, target, operation, contexts, body: r.rest() }
        })),
        Kind::Reply => Ok(Message::Reply(if header.version == Version::V12 {
            let id = r.ulong()?;
            let status = r.ordinal(6)?;
            let contexts = r.contexts()?;
            r.align(8);
            Reply { id, status, contexts, body: r.rest() }
        } else {
            let contexts = r.contexts()?;
            let id = r.ulong()?;
            let status = r.ordinal(4)?;
            Reply { id, status, contexts, body: r.rest() }
        })),
        Kind::CancelRequest => Ok(Message::Cancel(r.ulong()?)),
        Kind::LocateRequest => {
            let id = r.ulong()?;
            let target = match header.version {
                Version::V12 => r.target()?,
                _ => Target::Key(r.sequence()?),
            };
            Ok(Message::LocateRequest(id, target))
        }
        Kind::LocateReply => {
            let id = r.ulong()?;
            let status = r.ordinal(if header.version == Version::V12 { 6 } else { 3 })?;
            Ok(Message::LocateReply(id, status, r.rest()))
        }
        Kind::CloseConnection => Ok(Message::Close),
        Kind::MessageError => Ok(Message::Error),
        Kind::Fragment => unreachable!("fragments are joined before they are read"),
    }
}

#[derive(Clone, Copy)]
pub struct Limits {
    pub message: u32,
    pub partials: u8,
}

struct Partial {
    /// The request id of a message of 1.2; none of one of 1.1.
    id: Option<u32>,
    header: Header,
    octets: Vec<u8>,
}

/// Takes the octets of one direction of a connection, and lends each message that completes.
pub struct Assembler {
    limits: Limits,
    frame: Vec<u8>,
    /// How many octets are wanted until something can be judged.
    wanted: usize,
    /// The header of the frame, once it was judged.
    header: Option<Header>,
    partials: Vec<Partial>,
    /// Whether the frame is a message that was lent.
    is_complete: bool,
    failed: bool,
}

/// A message that is complete: its header, and whether it lies at the end of what was taken of the piece, or in the frame.
struct Complete {
    header: Header,
    is_in_piece: bool,
}

impl Complete {
    #[inline(always)]
    fn frame<'a>(&self, taken: &'a [u8], frame: &'a [u8]) -> &'a [u8] {
        if self.is_in_piece { &taken[taken.len() - HEADER - self.header.size as usize..] } else { frame }
    }
}

impl Assembler {
    pub fn new(limits: Limits) -> Assembler {
        Assembler {
            limits,
            frame: Vec::new(),
            wanted: HEADER,
            header: None,
            partials: Vec::new(),
            is_complete: false,
            failed: false,
        }
    }

    /// Takes octets up to the end of the next message that completes, or all: how many, and the message, which is read
    /// once.
    pub fn feed_once<'a>(&'a mut self, piece: &'a [u8]) -> Result<(usize, Option<Message<'a>>), Fault> {
        match self.advance(piece) {
            Ok((taken, None)) => Ok((taken, None)),
            Ok((taken, Some(complete))) => match read_message(&complete.header, complete.frame(&piece[..taken], &self.frame)) {
                Ok(message) => Ok((taken, Some(message))),
                Err(fault) => {
                    self.failed = true;
                    Err(fault.into())
                }
            },
            Err(fault) => Err(self.fail(fault)),
        }
    }

    /// The same, with the message's header.
    #[inline(always)]
    fn take<'a>(&'a mut self, piece: &'a [u8]) -> Result<(usize, Option<(Header, Message<'a>)>), Fault> {
        let (taken, complete) = self.advance(piece)?;
        match complete {
            Some(complete) => {
                let frame = complete.frame(&piece[..taken], &self.frame);
                Ok((taken, Some((complete.header, read_message(&complete.header, frame)?))))
            }
            None => Ok((taken, None)),
        }
    }

    pub fn pending(&self) -> usize {
        if self.is_complete { 0 } else { self.frame.len() }
    }

    pub fn partial(&self) -> usize {
        self.partials.len()
    }

    pub fn held(&self) -> usize {
        self.frame.len() + self.partials.iter().map(|p| p.octets.len()).sum::<usize>()
    }

    fn fail(&mut self, fault: Fault) -> Fault {
        self.failed = true;
        self.is_complete = false;
        self.frame.clear();
        self.partials.clear();
        fault
    }

    /// A message that is whole in the piece, where nothing else has begun, is not copied.
    #[inline(always)]
    fn advance(&mut self, piece: &[u8]) -> Result<(usize, Option<Complete>), Fault> {
        if self.failed {
            return Err(Fault::Failed);
        }
        if self.is_complete {
            self.frame.clear();
            self.is_complete = false;
        }
        if self.frame.is_empty() && self.partials.is_empty() {
            if let Some(head) = piece.first_chunk() {
                let header = self.judge(head)?;
                let size = HEADER + header.size as usize;
                if size <= piece.len() && !header.more && header.kind != Kind::Fragment {
                    return Ok((size, Some(Complete { header, is_in_piece: true })));
                }
            }
        }
        let (taken, complete) = self.gather(piece)?;
        self.is_complete = complete.is_some();
        Ok((taken, complete.map(|header| Complete { header, is_in_piece: false })))
    }

    /// Takes octets up to the end of the next message that completes in the frame, or all.
    #[inline(never)]
    fn gather(&mut self, piece: &[u8]) -> Result<(usize, Option<Header>), Fault> {
        let mut left = piece;
        while !left.is_empty() {
            if self.frame.is_empty() {
                if let Some(head) = left.first_chunk() {
                    // the header is judged in the piece, and the frame grows once
                    let header = self.judge(head)?;
                    let size = HEADER + header.size as usize;
                    let (front, others) = left.split_at(size.min(left.len()));
                    self.frame.try_reserve(front.len())?;
                    self.frame.extend_from_slice(front);
                    left = others;
                    if front.len() < size {
                        self.wanted = size - front.len();
                        self.header = Some(header);
                        break;
                    }
                    if let Some(done) = self.settle(header)? {
                        return Ok((piece.len() - left.len(), Some(done)));
                    }
                    continue;
                }
            }
            let n = self.wanted.min(left.len());
            let (front, others) = left.split_at(n);
            self.frame.try_reserve(n)?;
            self.frame.extend_from_slice(front);
            left = others;
            self.wanted -= n;
            if self.wanted > 0 {
                break;
            }
            let header = match self.header.take() {
                Some(header) => header,
                None => {
                    let header = self.judge(self.frame.first_chunk().unwrap())?;
                    if header.size > 0 {
                        self.wanted = header.size as usize;
                        self.header = Some(header);
                        continue;
                    }
                    header
                }
            };
            self.wanted = HEADER;
            if let Some(done) = self.settle(header)? {
                return Ok((piece.len() - left.len(), Some(done)));
            }
        }
        Ok((piece.len(), None))
    }

    /// Judges a header by itself.
    fn judge(&self, head: &[u8; HEADER]) -> Result<Header, Fault> {
        let header = Header::read(head)?;
        let size = HEADER as u64 + u64::from(header.size);
        if size > u64::from(self.limits.message) {
            return Err(Fault::TooLarge);
        }
        match header.version {
            Version::V12 if header.more && size % 8 != 0 => Err(Fault::UnalignedFragment),
            Version::V11 if header.more && size % 8 != 4 => Err(Fault::UnalignedFragment),
            _ => Ok(header),
        }
    }

    /// The request id at the head of a frame.
    fn id(&self, header: &Header) -> Result<u32, BodyFault> {
        Reader { octets: &self.frame, at: HEADER, order: header.order }.ulong()
    }

    fn place(&self, id: Option<u32>) -> Option<usize> {
        self.partials.iter().position(|p| p.id == id)
    }

    /// Whether a partial message of 1.1 has this request id, as far as its octets have come.
    fn has_id(&self, i: usize, id: u32) -> bool {
        let Partial { header, octets, .. } = &self.partials[i];
        let mut reader = Reader { octets, at: HEADER, order: header.order };
        reader.contexts().is_ok() && reader.ulong() == Ok(id)
    }

    /// Drops what has come of the message of a request id.
    fn cancel(&mut self, id: u32) {
        if let Some(i) = self.place(Some(id)) {
            self.partials.swap_remove(i);
        }
        if let Some(i) = self.place(None) {
            if self.has_id(i, id) {
                self.partials.swap_remove(i);
            }
        }
    }

    /// Takes a first frame.
    fn begun(&mut self, id: Option<u32>, header: Header) -> Result<Option<Header>, Fault> {
        if self.partials.len() >= usize::from(self.limits.partials) {
            return Err(Fault::TooManyPartial);
        }
        self.partials.try_reserve(1)?;
        let octets = std::mem::take(&mut self.frame);
        self.partials.push(Partial { id, header, octets });
        Ok(None)
    }

    /// Takes a whole frame; the header of the message in `frame`, if it completes one.
    fn settle(&mut self, header: Header) -> Result<Option<Header>, Fault> {
        match (header.version, header.kind) {
            (_, Kind::CancelRequest) => {
                let id = self.id(&header)?;
                self.cancel(id);
                Ok(Some(header))
            }
            (Version::V11, Kind::Fragment) => self.continued(None, 0, header),
            _ if self.place(None).is_some() => Err(Fault::TwiceStarted),
            (_, Kind::CloseConnection | Kind::MessageError) => Ok(Some(header)),
            (Version::V12, Kind::Fragment) => {
                let id = self.id(&header)?;
                self.continued(Some(id), 4, header)
            }
            (Version::V12, _) => {
                let id = self.id(&header)?;
                if self.place(Some(id)).is_some() {
                    return Err(Fault::TwiceStarted);
                }
                if header.more { self.begun(Some(id), header) } else { Ok(Some(header)) }
            }
            _ if header.more => self.begun(None, header),
            _ => Ok(Some(header)),
        }
    }

    /// Takes a Fragment, whose payload follows so many octets after its header.
    fn continued(&mut self, id: Option<u32>, skipped: usize, header: Header) -> Result<Option<Header>, Fault> {
        let i = self.place(id).ok_or(Fault::StrayFragment)?;
        let partial = &mut self.partials[i];
        if partial.header.order != header.order {
            return Err(Fault::MixedOrder);
        }
        let data = &self.frame[HEADER + skipped..];
        let size = partial.octets.len() + data.len();
        if size > self.limits.message as usize {
            return Err(Fault::TooLarge);
        }
        partial.octets.try_reserve(data.len())?;
        partial.octets.extend_from_slice(data);
        if header.more {
            self.frame.clear();
            return Ok(None);
        }
        let Partial { header, octets, .. } = self.partials.swap_remove(i);
        self.frame = octets;
        Ok(Some(Header { more: false, size: (size - HEADER) as u32, ..header }))
    }
}

/// The type of an argument, as far as the counter needs it.
#[derive(Clone, Copy)]
pub enum Ty {
    Long,
    LongLong,
}

#[derive(Clone, Copy)]
pub enum Val {
    Long(i32),
    LongLong(i64),
}

/// Values, of which one needs no heap.
pub enum Values {
    None,
    One(Val),
    Many(Vec<Val>),
}

impl Values {
    fn as_slice(&self) -> &[Val] {
        match self {
            Values::None => &[],
            Values::One(value) => std::slice::from_ref(value),
            Values::Many(values) => values,
        }
    }
}

pub struct Signature {
    pub arguments: Vec<Ty>,
}

pub enum Lookup<'s> {
    NoObject,
    NoOperation,
    Operation(&'s Signature),
}

pub enum Outcome {
    Returned(Values),
    Raised(&'static [u8]),
    System(&'static [u8]),
}

pub trait Servant {
    fn interface(&self, key: &[u8], operation: &[u8]) -> Lookup<'_>;
    fn has_object(&self, key: &[u8]) -> bool;
    fn perform(&mut self, key: &[u8], operation: &[u8], arguments: &[Val]) -> Result<Outcome, TryReserveError>;
}

/// The counter of the program.
pub struct Counter {
    total: i64,
    add: Signature,
    get: Signature,
}

impl Counter {
    fn new(total: i64) -> Counter {
        Counter { total, add: Signature { arguments: vec![Ty::Long] }, get: Signature { arguments: vec![] } }
    }
}

fn one(value: Val) -> Outcome {
    Outcome::Returned(Values::One(value))
}

impl Servant for Counter {
    fn interface(&self, key: &[u8], operation: &[u8]) -> Lookup<'_> {
        if key != b"c" {
            return Lookup::NoObject;
        }
        match operation {
            b"add" => Lookup::Operation(&self.add),
            b"get" => Lookup::Operation(&self.get),
            _ => Lookup::NoOperation,
        }
    }

    fn has_object(&self, key: &[u8]) -> bool {
        key == b"c"
    }

    fn perform(&mut self, _: &[u8], _: &[u8], arguments: &[Val]) -> Result<Outcome, TryReserveError> {
        let Some(Val::Long(n)) = arguments.first() else {
            return Ok(one(Val::LongLong(self.total)));
        };
        let Some(total) = self.total.checked_add(i64::from(*n)) else {
            return Ok(Outcome::Raised(b"IDL:Counter/Overflow:1.0"));
        };
        self.total = total;
        Ok(one(Val::LongLong(total)))
    }
}

/// An outcome under its key.
struct Entry {
    client_id: Box<[u8]>,
    retention_id: i32,
    hash: u64,
    outcome: Outcome,
}

/// Outcomes in a slab, an open table of their places by the hashes of their keys, and a queue of their expirations.
struct Log {
    hasher: RandomState,
    entries: Vec<Option<Entry>>,
    free: Vec<u32>,
    /// For each entry 32 bits of its hash and, above them, its place and 1. Zero is a free cell; at most half are taken.
    table: Vec<u64>,
    order: BinaryHeap<Reverse<(u64, u32)>>,
    /// How many entries the log may have, in all and of each client, and how many each client has. Where the two are one
    /// number, clients aren't counted.
    capacity: usize,
    share: usize,
    counts: HashMap<Box<[u8]>, usize>,
}

impl Log {
    fn new(capacity: usize, share: usize) -> Log {
        Log {
            hasher: RandomState::new(),
            entries: Vec::new(),
            free: Vec::new(),
            table: Vec::new(),
            order: BinaryHeap::new(),
            capacity,
            share,
            counts: HashMap::new(),
        }
    }

    fn counts_clients(&self) -> bool {
        self.share < self.capacity
    }

    /// Whether one entry more of a client may be kept.
    fn has_room(&self, client_id: &[u8]) -> bool {
        self.len() < self.capacity && (!self.counts_clients() || self.counts.get(client_id).map_or(0, |n| *n) < self.share)
    }

    fn len(&self) -> usize {
        self.order.len()
    }

    fn hash(&self, client_id: &[u8], retention_id: i32) -> u64 {
        let mut hasher = self.hasher.build_hasher();
        hasher.write_u64(retention_id as u32 as u64);
        hasher.write(client_id);
        hasher.finish()
    }

    /// The outcome of a key of this hash.
    fn find(&self, hash: u64, client_id: &[u8], retention_id: i32) -> Option<&Outcome> {
        let mask = self.table.len().checked_sub(1)?;
        let mut cell = hash as usize & mask;
        while self.table[cell] != 0 {
            if self.table[cell] as u32 == hash as u32 {
                let place = (self.table[cell] >> 32) as usize - 1;
                if let Some(entry) = &self.entries[place] {
                    if entry.retention_id == retention_id && *entry.client_id == *client_id {
                        return Some(&entry.outcome);
                    }
                }
            }
            cell = (cell + 1) & mask;
        }
        None
    }

    /// Makes room for one entry more.
    fn reserve(&mut self) -> Result<(), TryReserveError> {
        self.order.try_reserve(1)?;
        if self.counts_clients() {
            self.counts.try_reserve(1)?;
        }
        if self.free.is_empty() {
            self.entries.try_reserve(1)?;
            self.free.try_reserve(self.entries.len() + 1)?;
        }
        if (self.len() + 1) * 2 > self.table.len() {
            let mut table = Vec::new();
            table.try_reserve_exact((self.table.len() * 2).max(16))?;
            table.resize((self.table.len() * 2).max(16), 0);
            std::mem::swap(&mut self.table, &mut table);
            for cell in table.into_iter().filter(|cell| *cell != 0) {
                self.put(cell);
            }
        }
        Ok(())
    }

    fn put(&mut self, entry: u64) {
        let mask = self.table.len() - 1;
        let mut cell = entry as u32 as usize & mask;
        while self.table[cell] != 0 {
            cell = (cell + 1) & mask;
        }
        self.table[cell] = entry;
    }

    /// Keeps an entry, for which room is made.
    fn keep(&mut self, expiration: u64, entry: Entry) {
        let hash = entry.hash;
        if self.counts_clients() {
            match self.counts.get_mut(&entry.client_id) {
                Some(count) => *count += 1,
                None => drop(self.counts.insert(entry.client_id.clone(), 1)),
            }
        }
        let place = match self.free.pop() {
            Some(place) => {
                self.entries[place as usize] = Some(entry);
                place
            }
            None => {
                self.entries.push(Some(entry));
                self.entries.len() as u32 - 1
            }
        };
        self.put((u64::from(place) + 1) << 32 | u64::from(hash as u32));
        self.order.push(Reverse((expiration, place)));
    }

    /// Drops the entries that expired before a moment.
    fn forget(&mut self, now: u64) {
        while let Some(Reverse((expiration, place))) = self.order.peek() {
            if *expiration >= now {
                return;
            }
            let place = *place;
            self.order.pop();
            if let Some(entry) = self.entries[place as usize].take() {
                self.take(entry.hash, place);
                self.count_down(&entry.client_id);
            }
            self.free.push(place);
        }
    }

    /// Counts one entry of a client less, where clients are counted. A client that has none left is forgotten.
    fn count_down(&mut self, client_id: &[u8]) {
        if !self.counts_clients() {
            return;
        }
        match self.counts.get_mut(client_id) {
            Some(count) if *count > 1 => *count -= 1,
            _ => drop(self.counts.remove(client_id)),
        }
    }

    /// Frees the cell of a place, and moves those after it that then stand nearer to where they belong.
    fn take(&mut self, hash: u64, place: u32) {
        let mask = self.table.len() - 1;
        let mut gap = hash as usize & mask;
        while self.table[gap] >> 32 != u64::from(place) + 1 {
            gap = (gap + 1) & mask;
        }
        let mut next = (gap + 1) & mask;
        while self.table[next] != 0 {
            let home = self.table[next] as u32 as usize & mask;
            if next.wrapping_sub(home) & mask >= next.wrapping_sub(gap) & mask {
                self.table[gap] = self.table[next];
                gap = next;
            }
            next = (next + 1) & mask;
        }
        self.table[gap] = 0;
    }
}

enum Field<'a> {
    Absent,
    Bad,
    Present { client_id: &'a [u8], retention_id: i32, expiration: u64 },
}

/// What the first FT_REQUEST says.
fn field(contexts: Contexts) -> Field {
    for (id, data) in contexts {
        if id != 13 {
            continue;
        }
        let order = match data.first() {
            Some(0) => Order::Big,
            Some(1) => Order::Little,
            _ => return Field::Bad,
        };
        let mut r = Reader { octets: data, at: 1, order };
        let mut read = || {
            let client_id = r.string()?;
            let retention_id = r.ulong()? as i32;
            r.align(8);
            let octets = r.take(8)?.try_into().unwrap();
            let expiration = match order {
                Order::Big => u64::from_be_bytes(octets),
                Order::Little => u64::from_le_bytes(octets),
            };
            Ok::<_, BodyFault>((client_id, retention_id, expiration))
        };
        return match read() {
            Ok((client_id, retention_id, expiration)) => Field::Present { client_id, retention_id, expiration },
            Err(_) => Field::Bad,
        };
    }
    Field::Absent
}

fn put_header(version: Version, kind: u8, start: usize, out: &mut [u8]) {
    let size = (out.len() - start - HEADER) as u32;
    out[start..start + 8].copy_from_slice(&[b'G', b'I', b'O', b'P', 1, version as u8, 0, kind]);
    out[start + 8..start + HEADER].copy_from_slice(&size.to_be_bytes());
}

fn put_string(text: &[u8], start: usize, out: &mut Vec<u8>) -> Result<(), TryReserveError> {
    out.try_reserve(text.len() + 9)?;
    while (out.len() - start) % 4 != 0 {
        out.push(0);
    }
    out.extend_from_slice(&(text.len() as u32 + 1).to_be_bytes());
    out.extend_from_slice(text);
    out.push(0);
    Ok(())
}

/// Appends a Reply, or nothing by the wish. One of a number is put at once.
#[inline(always)]
fn put_reply(version: Version, id: u32, wish: Wish, outcome: &Outcome, out: &mut Vec<u8>) -> Result<(), TryReserveError> {
    let Outcome::Returned(Values::One(value)) = outcome else {
        return put_any(version, id, wish, outcome, out);
    };
    if wish != Wish::Full {
        return put_any(version, id, wish, outcome, out);
    }
    let mut reply = [0; 32];
    let (head, body) = reply.split_at_mut(24);
    head[..8].copy_from_slice(&[b'G', b'I', b'O', b'P', 1, version as u8, 0, 1]);
    let at = if version == Version::V12 { HEADER } else { HEADER + 4 };
    head[at..at + 4].copy_from_slice(&id.to_be_bytes());
    let size = match value {
        Val::Long(x) => {
            body[..4].copy_from_slice(&x.to_be_bytes());
            28
        }
        Val::LongLong(x) => {
            body.copy_from_slice(&x.to_be_bytes());
            32
        }
    };
    reply[11] = size as u8 - HEADER as u8;
    out.try_reserve(size)?;
    out.extend_from_slice(&reply[..size]);
    Ok(())
}

#[inline(never)]
fn put_any(version: Version, id: u32, wish: Wish, outcome: &Outcome, out: &mut Vec<u8>) -> Result<(), TryReserveError> {
    if wish == Wish::None {
        return Ok(());
    }
    let start = out.len();
    out.try_reserve(96)?;
    out.extend_from_slice(&[0; HEADER]);
    let status: u32 = match outcome {
        Outcome::Returned(_) => 0,
        Outcome::Raised(_) => 1,
        Outcome::System(_) => 2,
    };
    let fields = if version == Version::V12 { [id, status, 0] } else { [0, id, status] };
    for x in fields {
        out.extend_from_slice(&x.to_be_bytes());
    }
    match outcome {
        Outcome::Returned(_) if wish == Wish::Empty => {}
        Outcome::Returned(values) => {
            for value in values.as_slice() {
                out.try_reserve(16)?;
                let n = match value {
                    Val::Long(_) => 4,
                    Val::LongLong(_) => 8,
                };
                while (out.len() - start) % n != 0 {
                    out.push(0);
                }
                match value {
                    Val::Long(x) => out.extend_from_slice(&x.to_be_bytes()),
                    Val::LongLong(x) => out.extend_from_slice(&x.to_be_bytes()),
                }
            }
        }
        Outcome::Raised(name) => put_string(name, start, out)?,
        Outcome::System(name) => {
            put_string(name, start, out)?;
            while (out.len() - start) % 4 != 0 {
                out.push(0);
            }
            out.extend_from_slice(&[0, 0, 0, 0, 0, 0, 0, 1]);
        }
    }
    put_header(version, 1, start, out);
    Ok(())
}

const MARSHAL: &[u8] = b"IDL:omg.org/CORBA/MARSHAL:1.0";
const BAD_CONTEXT: &[u8] = b"IDL:omg.org/CORBA/BAD_CONTEXT:1.0";
const NO_RESOURCES: &[u8] = b"IDL:omg.org/CORBA/NO_RESOURCES:1.0";
const BAD_OPERATION: &[u8] = b"IDL:omg.org/CORBA/BAD_OPERATION:1.0";
const OBJECT_NOT_EXIST: &[u8] = b"IDL:omg.org/CORBA/OBJECT_NOT_EXIST:1.0";

/// One value of a body that begins at a place of its message.
#[inline(always)]
fn value(ty: Ty, start: usize, r: &mut Reader) -> Result<Val, BodyFault> {
    let n = match ty {
        Ty::Long => 4,
        Ty::LongLong => 8,
    };
    r.at = ((start + r.at + (n - 1)) & !(n - 1)) - start;
    let octets = r.take(n)?;
    Ok(match (ty, r.order) {
        (Ty::Long, Order::Big) => Val::Long(i32::from_be_bytes(octets.try_into().unwrap())),
        (Ty::Long, Order::Little) => Val::Long(i32::from_le_bytes(octets.try_into().unwrap())),
        (Ty::LongLong, Order::Big) => Val::LongLong(i64::from_be_bytes(octets.try_into().unwrap())),
        (Ty::LongLong, Order::Little) => Val::LongLong(i64::from_le_bytes(octets.try_into().unwrap())),
    })
}

/// The arguments of a request by their types.
#[inline(always)]
fn arguments(types: &[Ty], order: Order, body: Body) -> Result<Result<Values, BodyFault>, TryReserveError> {
    let mut r = Reader { octets: body.octets, at: 0, order };
    match types {
        [] => Ok(Ok(Values::None)),
        [ty] => Ok(value(*ty, body.at, &mut r).map(Values::One)),
        types => many_arguments(types, body.at, r),
    }
}

#[inline(never)]
fn many_arguments(types: &[Ty], start: usize, mut r: Reader) -> Result<Result<Values, BodyFault>, TryReserveError> {
    let mut values = Vec::new();
    values.try_reserve_exact(types.len())?;
    for ty in types {
        match value(*ty, start, &mut r) {
            Ok(value) => values.push(value),
            Err(fault) => return Ok(Err(fault)),
        }
    }
    Ok(Ok(Values::Many(values)))
}

/// A servant with what is kept for its clients.
struct Desk<S> {
    servant: S,
    clock: u64,
    log: Log,
}

/// What comes of a request that is not in the log: it is refused, or what is to be performed.
enum Asked<'a> {
    Refused(&'static [u8]),
    Call(&'a [u8], Values),
}

impl<S: Servant> Desk<S> {
    /// What a request asks for that is not in the log.
    fn asked<'a>(&self, request: &Request<'a>, order: Order) -> Result<Asked<'a>, TryReserveError> {
        let Target::Key(key) = request.target else {
            return Ok(Asked::Refused(OBJECT_NOT_EXIST));
        };
        let signature = match self.servant.interface(key, request.operation) {
            Lookup::NoObject => return Ok(Asked::Refused(OBJECT_NOT_EXIST)),
            Lookup::NoOperation => return Ok(Asked::Refused(BAD_OPERATION)),
            Lookup::Operation(signature) => signature,
        };
        match arguments(&signature.arguments, order, request.body)? {
            Ok(values) => Ok(Asked::Call(key, values)),
            Err(_) => Ok(Asked::Refused(MARSHAL)),
        }
    }

    fn handle(&mut self, version: Version, order: Order, request: Request, out: &mut Vec<u8>) -> Result<(), TryReserveError> {
        let (id, wish) = (request.id, request.wish);
        let contexts = Contexts { reader: request.contexts.reader, left: request.contexts.left };
        match field(contexts) {
            Field::Absent => {
                let outcome = match self.asked(&request, order)? {
                    Asked::Refused(name) => Outcome::System(name),
                    Asked::Call(key, values) => self.servant.perform(key, request.operation, values.as_slice())?,
                };
                put_reply(version, id, wish, &outcome, out)
            }
            Field::Bad => put_reply(version, id, wish, &Outcome::System(MARSHAL), out),
            Field::Present { expiration, .. } if expiration < self.clock => {
                put_reply(version, id, wish, &Outcome::System(BAD_CONTEXT), out)
            }
            Field::Present { client_id, retention_id, expiration } => {
                self.log.forget(self.clock);
                let hash = self.log.hash(client_id, retention_id);
                if let Some(outcome) = self.log.find(hash, client_id, retention_id) {
                    return put_reply(version, id, wish, outcome, out);
                }
                let (key, values) = match self.asked(&request, order)? {
                    Asked::Refused(name) => return put_reply(version, id, wish, &Outcome::System(name), out),
                    Asked::Call(key, values) => (key, values),
                };
                if !self.log.has_room(client_id) {
                    return put_reply(version, id, wish, &Outcome::System(NO_RESOURCES), out);
                }
                self.log.reserve()?;
                let outcome = self.servant.perform(key, request.operation, values.as_slice())?;
                let put = put_reply(version, id, wish, &outcome, out);
                self.log.keep(expiration, Entry { client_id: client_id.into(), retention_id, hash, outcome });
                put
            }
        }
    }
}

/// A connection: what has come on it, and whether nothing that comes has a meaning any more.
struct Link {
    assembler: Assembler,
    is_closed: bool,
}

/// The connections of a servant.
struct Server<S> {
    desk: Desk<S>,
    limits: Limits,
    greatest: Option<u64>,
    links: BTreeMap<u64, Link>,
}

const CLOSE_CONNECTION: &[u8; HEADER] = b"GIOP\x01\x00\x00\x05\x00\x00\x00\x00";
const MESSAGE_ERROR: &[u8; HEADER] = b"GIOP\x01\x00\x00\x06\x00\x00\x00\x00";

impl<S: Servant> Server<S> {
    fn new(servant: S, limits: Limits, capacity: usize, share: usize) -> Server<S> {
        let desk = Desk { servant, clock: 0, log: Log::new(capacity, share) };
        Server { desk, limits, greatest: None, links: BTreeMap::new() }
    }

    /// Opens a connection, whose number is greater than each one before.
    fn connect(&mut self, c: u64) {
        if self.greatest.is_none_or(|greatest| greatest < c) {
            self.greatest = Some(c);
            self.links.insert(c, Link { assembler: Assembler::new(self.limits), is_closed: false });
        }
    }

    /// Says CloseConnection, and closes a connection.
    fn close(&mut self, c: u64, out: &mut Vec<u8>) {
        if let Some(link) = self.links.get_mut(&c).filter(|link| !link.is_closed) {
            link.is_closed = true;
            out.extend_from_slice(CLOSE_CONNECTION);
        }
    }

    /// Answers what a piece completes. At a fault, or a message that only a server sends, it says MessageError and closes the
    /// connection. The one error is that memory ran out.
    fn feed(&mut self, c: u64, now: u64, piece: &[u8], out: &mut Vec<u8>) -> Result<(), TryReserveError> {
        self.desk.clock = self.desk.clock.max(now);
        let Some(link) = self.links.get_mut(&c).filter(|link| !link.is_closed) else {
            return Ok(());
        };
        let mut left = piece;
        while !left.is_empty() {
            let (taken, header, message) = match link.assembler.take(left) {
                Ok((taken, Some((header, message)))) => (taken, header, message),
                Ok((_, None)) => return Ok(()),
                Err(_) => {
                    link.is_closed = true;
                    out.extend_from_slice(MESSAGE_ERROR);
                    return Ok(());
                }
            };
            left = &left[taken..];
            match message {
                Message::Cancel(_) => {}
                Message::Request(request) => self.desk.handle(header.version, header.order, request, out)?,
                Message::LocateRequest(id, target) => {
                    let is_here = matches!(target, Target::Key(key) if self.desk.servant.has_object(key));
                    let mut reply = *b"GIOP\x01\x00\x00\x04\x00\x00\x00\x08\0\0\0\0\0\0\0\0";
                    reply[5] = header.version as u8;
                    reply[HEADER..16].copy_from_slice(&id.to_be_bytes());
                    reply[19] = u8::from(is_here);
                    out.try_reserve(reply.len())?;
                    out.extend_from_slice(&reply);
                }
                Message::Close | Message::Error => {
                    link.is_closed = true;
                    return Ok(());
                }
                Message::Reply(_) | Message::LocateReply(..) => {
                    link.is_closed = true;
                    out.extend_from_slice(MESSAGE_ERROR);
                    return Ok(());
                }
            }
        }
        Ok(())
    }
}

/// A Request of 1.2 without contexts: `add` with 7.
const ADD: [u8; 52] = [
    0x47, 0x49, 0x4f, 0x50, 1, 2, 0, 0, 0, 0, 0, 0x28, 0, 0, 0, 5, 3, 0, 0, 0, 0, 0, 0, 0, 0, 0, 0,
    1, 0x63, 0, 0, 0, 0, 0, 0, 4, 0x61, 0x64, 0x64, 0, 0, 0, 0, 0, 0, 0, 0, 0, 0, 0, 0, 7,
];

/// A LocateRequest of 1.2 of the counter's key.
const LOCATE: [u8; 25] = [
    0x47, 0x49, 0x4f, 0x50, 1, 2, 0, 3, 0, 0, 0, 0x0d, 0, 0, 0, 1, 0, 0, 0, 0, 0, 0, 0, 1, 0x63,
];

/// A server of a counter that keeps so many outcomes, so many of each client, with connection 1.
fn counting(entries: usize, share: usize) -> Server<Counter> {
    let mut server = Server::new(Counter::new(0), LIMITS, entries, share);
    server.connect(1);
    server
}

/// Serves N messages of a kind in pieces, each piece's answers in one output, and says what came out.
fn serve(kind: &str, count: usize, piece: usize) {
    let message: &[u8] = match kind {
        "add" => &ADD,
        "repeat" => &REQUEST,
        _ => &LOCATE,
    };
    let mut stream = Vec::with_capacity(count * message.len());
    for _ in 0..count {
        stream.extend_from_slice(message);
    }
    if piece == 0 {
        println!("octets {} sum 0 total 0", std::hint::black_box(&stream).len());
        return;
    }
    let mut server = counting(1024, 1024);
    let (mut out, mut written, mut sum) = (Vec::new(), 0, 0u64);
    for piece in stream.chunks(piece) {
        out.clear();
        if server.feed(1, 50, piece, &mut out).is_err() {
            println!("fault");
            return;
        }
        written += out.len();
        sum = sum.wrapping_mul(31).wrapping_add(u64::from(*out.last().unwrap_or(&0)));
    }
    println!("octets {written} sum {sum} total {}", server.desk.servant.total);
}

#[derive(Clone, Copy)]
enum Expiry {
    Rising,
    Scattered,
    Together,
}

impl Expiry {
    fn named(word: &str) -> Expiry {
        match word {
            "rising" | "clients" => Expiry::Rising,
            "scattered" => Expiry::Scattered,
            _ => Expiry::Together,
        }
    }

    /// The moment at which an outcome comes, and the last one at which it is kept, where so many are kept.
    #[inline(always)]
    fn moments(self, entries: u64, index: u64) -> (u64, u64) {
        let place = index & (entries - 1);
        let round = 1000 + index - place;
        match self {
            Expiry::Rising => (1000 + index, round + entries - 1 + place),
            Expiry::Scattered => (1000 + index, round + entries - 1 + (place.wrapping_mul(40_503).wrapping_add(97) & (entries - 1))),
            Expiry::Together => (round, round),
        }
    }
}

/// Serves N messages, each with a key of its own; of those that expire together it says how many nanoseconds the last took.
fn serve_keyed(kind: &str, count: u32, feeds: bool, entries: u64, share: usize) {
    let mut server = counting(entries as usize, share);
    let (mut out, mut written, mut sum) = (Vec::new(), 0, 0u64);
    let (mut usual, mut long) = (REQUEST, CLIENT_REQUEST);
    let is_one_client = matches!(kind, "rising" | "scattered");
    let expiry = Expiry::named(kind);
    let mut start = Instant::now();
    for index in 0..count {
        if index + 1 == count {
            start = Instant::now();
        }
        let (now, until) = expiry.moments(entries, index.into());
        let message: &[u8] = if is_one_client {
            usual[64..68].copy_from_slice(&(index + 1).to_be_bytes());
            usual[68..76].copy_from_slice(&until.to_be_bytes());
            &usual
        } else {
            long[60..64].copy_from_slice(&((index >> 4) & 0x0f0f_0f0f | 0x4040_4040).to_be_bytes());
            long[64..68].copy_from_slice(&(index & 0x0f0f_0f0f | 0x4040_4040).to_be_bytes());
            long[96..100].copy_from_slice(&(index + 1).to_be_bytes());
            long[100..108].copy_from_slice(&until.to_be_bytes());
            &long
        };
        let octets = if feeds {
            out.clear();
            if server.feed(1, now, message, &mut out).is_err() {
                println!("fault");
                return;
            }
            &out
        } else {
            std::hint::black_box(message)
        };
        written += octets.len();
        sum = sum.wrapping_mul(31).wrapping_add(u64::from(*octets.last().unwrap_or(&0)));
    }
    let took = start.elapsed().as_nanos();
    let last = if kind == "together" { format!(" last {took}") } else { String::new() };
    println!("octets {written} sum {sum} total {}{last}", server.desk.servant.total);
}

/// Plays an event of a script on a server, and prints what it writes.
fn play(server: &mut Server<Counter>, event: &str) {
    let words: Vec<&str> = event.split(' ').collect();
    let c = words[1].parse().unwrap();
    let mut out = Vec::new();
    match words[0] {
        "open" => server.connect(c),
        "close" => server.close(c, &mut out),
        "lost" => drop(server.links.remove(&c)),
        _ => server.feed(c, words[2].parse().unwrap(), &decode(words[3].as_bytes()).unwrap(), &mut out).unwrap(),
    }
    if !out.is_empty() {
        let mut line = Vec::new();
        put_digits(&out, &mut line);
        println!("{c} {}", String::from_utf8(line).unwrap());
    }
}

/// Keeps N outcomes in a log of so many entries, as `benches log` does, and says how many were found.
fn keep_each(count: u32, entries: u64, share: usize, expiry: &str, is_one_client: bool) {
    let mut log = Log::new(entries as usize, share);
    let (mut found, mut sum) = (0u64, 0u64);
    let expiry = Expiry::named(expiry);
    for index in 0..count {
        let at = u64::from(index);
        let (now, until) = expiry.moments(entries, at);
        let mut client_id = *b"........-client-of-the-benchmark";
        if !is_one_client {
            client_id[..8].copy_from_slice(&at.to_be_bytes());
        }
        log.forget(now);
        let hash = log.hash(&client_id, index as i32);
        if log.find(hash, &client_id, index as i32).is_some() {
            found += 1;
        } else if log.has_room(&client_id) && log.reserve().is_ok() {
            let outcome = one(Val::LongLong(i64::from(index)));
            log.keep(until, Entry { client_id: client_id.into(), retention_id: index as i32, hash, outcome });
        }
        if index % 2 == 1 {
            sum = sum.wrapping_mul(31).wrapping_add(log.len() as u64);
        }
    }
    println!("messages {found} sum {sum}");
}

/// A Request of 1.2 with an FT_REQUEST context.
const REQUEST: [u8; 84] = [
    0x47, 0x49, 0x4f, 0x50, 1, 2, 0, 0, 0, 0, 0, 0x48, 0, 0, 0, 5, 3, 0, 0, 0, 0, 0, 0, 0, 0, 0, 0,
    1, 0x63, 0, 0, 0, 0, 0, 0, 4, 0x61, 0x64, 0x64, 0, 0, 0, 0, 1, 0, 0, 0, 0x0d, 0, 0, 0, 0x18, 0,
    0, 0, 0, 0, 0, 0, 2, 0x41, 0, 0, 0, 0, 0, 0, 1, 0, 0, 0, 0, 0, 0, 0, 0x64, 0, 0, 0, 0, 0, 0, 0,
    7,
];

/// The same of a client whose id has 32 octets.
const CLIENT_REQUEST: [u8; 116] = [
    0x47, 0x49, 0x4f, 0x50, 1, 2, 0, 0, 0, 0, 0, 0x68, 0, 0, 0, 5, 3, 0, 0, 0, 0, 0, 0, 0, 0, 0, 0,
    1, 0x63, 0, 0, 0, 0, 0, 0, 4, 0x61, 0x64, 0x64, 0, 0, 0, 0, 1, 0, 0, 0, 0x0d, 0, 0, 0, 0x38, 0,
    0, 0, 0, 0, 0, 0, 0x21, 0x40, 0x40, 0x40, 0x40, 0x40, 0x40, 0x40, 0x40, 0x2d, 0x63, 0x6c, 0x69,
    0x65, 0x6e, 0x74, 0x2d, 0x6f, 0x66, 0x2d, 0x74, 0x68, 0x65, 0x2d, 0x62, 0x65, 0x6e, 0x63, 0x68,
    0x6d, 0x61, 0x72, 0x6b, 0, 0, 0, 0, 0, 0, 0, 1, 0, 0, 0, 0, 0, 0, 0, 0x64, 0, 0, 0, 0, 0, 0, 0,
    7,
];

const LIMITS: Limits = Limits { message: 1 << 20, partials: 8 };

#[derive(Default)]
struct Tally {
    messages: u64,
    sum: u64,
}

impl Tally {
    fn add(&mut self, message: &Message) {
        self.messages += 1;
        let numbers = match message {
            Message::Request(request) => [request.id, request.operation.len() as u32, request.body.octets.len() as u32],
            Message::Reply(reply) => [reply.id, reply.status, reply.body.octets.len() as u32],
            Message::LocateRequest(id, Target::Key(key)) => [*id, key.len() as u32, 0],
            _ => return,
        };
        for x in numbers {
            self.sum = self.sum.wrapping_mul(31).wrapping_add(u64::from(x));
        }
    }
}

/// Feeds a stream in pieces.
#[inline(never)]
fn drive(stream: &[u8], size: usize) -> Result<Tally, Fault> {
    let mut assembler = Assembler::new(LIMITS);
    let mut tally = Tally::default();
    for piece in stream.chunks(size) {
        let mut left = piece;
        while !left.is_empty() {
            let (taken, message) = assembler.feed_once(left)?;
            if let Some(message) = message {
                tally.add(&message);
            }
            left = &left[taken..];
        }
    }
    Ok(tally)
}

/// Reads each message of a stream by itself.
#[inline(never)]
fn read_each(stream: &[u8]) -> Result<Tally, Fault> {
    let mut tally = Tally::default();
    let mut left = stream;
    while let Some(head) = left.first_chunk() {
        let header = Header::read(head)?;
        let (frame, others) = left.split_at(HEADER + header.size as usize);
        tally.add(&read_message(&header, frame)?);
        left = others;
    }
    Ok(tally)
}

/// A Reply of 1.2.
const REPLY: [u8; 28] = [
    0x47, 0x49, 0x4f, 0x50, 1, 2, 0, 1, 0, 0, 0, 0x10, 0, 0, 0, 5, 0, 0, 0, 0, 0, 0, 0, 0, 0, 0, 0, 7,
];

/// A reference of 1.2 with one profile and one component.
const REFERENCE: &str = "IOR:000000000000001049444c3a436f756e7465723a312e300000000001000000000000002c000102000000000a3132372e302e302e31000af9000000000163000000000000010000000100000004\
00000007";

/// Appends a frame: its header, the request id, and octets after it, filled up with zeros to a size.
fn put_frame(flags: u8, kind: u8, size: usize, id: u32, after: &[u8], out: &mut Vec<u8>) {
    let start = out.len();
    out.extend_from_slice(&[b'G', b'I', b'O', b'P', 1, 2, flags, kind]);
    out.extend_from_slice(&((size - HEADER) as u32).to_be_bytes());
    out.extend_from_slice(&id.to_be_bytes());
    out.extend_from_slice(after);
    out.resize(start + size, 0);
}

/// Appends one round of a kind of stream.
#[inline(never)]
fn put_round(kind: &str, out: &mut Vec<u8>) {
    let fields = &REQUEST[16..80];
    match kind {
        "reply" => out.extend_from_slice(&REPLY),
        "locate" => out.extend_from_slice(&LOCATE),
        "cut" => {
            for turn in 0..4 {
                for id in 0..8 {
                    match turn {
                        0 => put_frame(2, 0, 256, id, fields, out),
                        3 => put_frame(0, 7, 256, id, &[], out),
                        _ => put_frame(2, 7, 256, id, &[], out),
                    }
                }
            }
        }
        "large" => put_frame(0, 0, 1 << 20, 5, fields, out),
        "large_cut" => {
            put_frame(2, 0, 4096, 5, fields, out);
            for _ in 0..254 {
                put_frame(2, 7, 4096, 5, &[], out);
            }
            put_frame(0, 7, 4096, 5, &[], out);
        }
        _ => out.extend_from_slice(&REQUEST),
    }
}

/// An object reference: its type, and its profiles, each with its tag.
struct Ior {
    type_id: Vec<u8>,
    profiles: Vec<(u32, Vec<u8>)>,
}

/// The reference in a text.
fn parse_reference(text: &str) -> Option<Ior> {
    let digits = text.get(..4).filter(|p| p.eq_ignore_ascii_case("ior:")).map(|_| &text.as_bytes()[4..])?;
    let octets = decode(digits)?;
    let order = match octets.first()? {
        0 => Order::Big,
        1 => Order::Little,
        _ => return None,
    };
    let mut reader = Reader { octets: &octets, at: 1, order };
    let type_id = reader.string().ok()?.to_vec();
    let mut profiles = Vec::new();
    for _ in 0..reader.ulong().ok()? {
        let (tag, data) = reader.tagged().ok()?;
        profiles.push((tag, data.to_vec()));
    }
    Some(Ior { type_id, profiles })
}

/// Reads a reference so many times.
#[inline(never)]
fn references(count: usize) -> Tally {
    let mut tally = Tally::default();
    for _ in 0..count {
        if let Some(ior) = parse_reference(std::hint::black_box(REFERENCE)) {
            tally.messages += 1;
            for x in [ior.type_id.len(), ior.profiles.len(), ior.profiles.first().map_or(0, |p| p.1.len())] {
                tally.sum = tally.sum.wrapping_mul(31).wrapping_add(x as u64);
            }
        }
    }
    tally
}

const NO: u8 = 255;

/// The value of each hexadecimal digit at its octet.
const VALUES: [u8; 256] = {
    let mut values = [NO; 256];
    let mut i = 0;
    while i < 16 {
        values[b"0123456789abcdef"[i] as usize] = i as u8;
        values[b"0123456789ABCDEF"[i] as usize] = i as u8;
        i += 1;
    }
    values
};

fn is_blank(octet: u8) -> bool {
    matches!(octet, b' ' | b'\t' | b'\r' | b'\n')
}

/// The octets that digits give, with blanks between them.
fn decode(text: &[u8]) -> Option<Vec<u8>> {
    let mut octets = Vec::with_capacity(text.len() / 2);
    let mut left = text;
    loop {
        // pairs that stand together
        let mut pairs = left.chunks_exact(2);
        let mut done = 0;
        for pair in &mut pairs {
            let (high, low) = (VALUES[pair[0] as usize], VALUES[pair[1] as usize]);
            if high | low == NO {
                break;
            }
            octets.push(high << 4 | low);
            done += 2;
        }
        left = &left[done..];
        // and one that a blank begins or parts
        let Some(first) = left.iter().position(|x| !is_blank(*x)) else {
            return Some(octets);
        };
        if first == 0 {
            let high = VALUES[left[0] as usize];
            let second = 1 + left[1..].iter().position(|x| !is_blank(*x))?;
            let low = VALUES[left[second] as usize];
            if high | low == NO {
                return None;
            }
            octets.push(high << 4 | low);
            left = &left[second + 1..];
        } else {
            left = &left[first..];
        }
    }
}

fn put_digits(octets: &[u8], out: &mut Vec<u8>) {
    if octets.is_empty() {
        out.push(b'-');
    }
    for x in octets {
        out.push(b"0123456789abcdef"[(x >> 4) as usize]);
        out.push(b"0123456789abcdef"[(x & 15) as usize]);
    }
}

fn put_text(octets: &[u8], out: &mut Vec<u8>) {
    for x in octets {
        if matches!(x, 0x20..=0x7e) && *x != b'\\' {
            out.push(*x);
        } else {
            out.extend_from_slice(b"\\x");
            put_digits(&[*x], out);
        }
    }
}

/// Appends the lines of a Request, the one kind that is shown here.
fn put_lines(header: Header, request: Request, out: &mut Vec<u8>) -> std::io::Result<()> {
    let version = match header.version {
        Version::V10 => "1.0",
        Version::V11 => "1.1",
        Version::V12 => "1.2",
    };
    let order = if header.order == Order::Big { "big" } else { "little" };
    let wish = match request.wish {
        Wish::None => "none",
        Wish::Empty => "empty",
        Wish::Full => "full",
    };
    write!(out, "{version} {order} Request id {} reply {wish} ", request.id)?;
    match request.target {
        Target::Key(key) => {
            out.extend_from_slice(b"key ");
            put_digits(key, out);
        }
        Target::Profile(tag, data) => {
            write!(out, "profile {tag} ")?;
            put_digits(data, out);
        }
        Target::Reference { index, .. } => write!(out, "reference {index}")?,
    }
    out.extend_from_slice(b" operation ");
    put_text(request.operation, out);
    out.extend_from_slice(b" body ");
    put_digits(request.body.octets, out);
    out.push(b'\n');
    let again = Contexts { reader: request.contexts.reader, left: request.contexts.left };
    for (id, data) in request.contexts {
        write!(out, "  context {id} ")?;
        put_digits(data, out);
        out.push(b'\n');
    }
    match field(again) {
        Field::Absent => {}
        Field::Bad => out.extend_from_slice(b"  ft bad\n"),
        Field::Present { client_id, retention_id, expiration } => {
            out.extend_from_slice(b"  ft client ");
            put_text(client_id, out);
            write!(out, " retention {retention_id} expiration {expiration}\n")?;
        }
    }
    Ok(())
}

/// Prints how a stream of digits ends, and before it the messages, where they are asked for.
fn show(text: &str, messages: bool) -> std::io::Result<()> {
    let mut out = BufWriter::new(std::io::stdout().lock());
    let Some(octets) = decode(text.as_bytes()) else {
        return writeln!(out, "bad digits");
    };
    let mut assembler = Assembler::new(LIMITS);
    let mut count = 0;
    let mut left = &octets[..];
    let mut lines = Vec::new();
    while !left.is_empty() {
        let taken = match assembler.feed_once(left) {
            Ok((taken, None)) => taken,
            Ok((taken, Some(message))) => {
                count += 1;
                if messages {
                    if let Message::Request(request) = message {
                        lines.clear();
                        let header = Header { version: Version::V12, order: request.contexts.reader.order, more: false, kind: Kind::Request, size: 0 };
                        put_lines(header, request, &mut lines)?;
                        out.write_all(&lines)?;
                    }
                }
                taken
            }
            Err(fault) => return writeln!(out, "fault after {count} messages: {fault}"),
        };
        left = &left[taken..];
    }
    match (assembler.pending(), assembler.partial()) {
        (0, 0) => writeln!(out, "end {count} messages"),
        (k, p) => writeln!(out, "rest {k} octets, {p} partial"),
    }
}

fn main() {
    let words: Vec<String> = std::env::args().skip(1).collect();
    if words[0] == "check" || words[0] == "show" {
        let mut text = String::new();
        std::io::stdin().read_to_string(&mut text).unwrap();
        show(&text, words[0] == "show").unwrap();
        return;
    }
    if words[0] == "serve" {
        let (count, piece): (u32, usize) = (words[1].parse().unwrap(), words[2].parse().unwrap());
        match words[3].as_str() {
            kind @ ("add" | "repeat" | "locate") => serve(kind, count as usize, piece),
            kind => {
                let entries = words[4].parse().unwrap();
                let share = words.get(5).map_or(entries as usize, |word| word.parse().unwrap());
                serve_keyed(kind, count, piece > 0, entries, share);
            }
        }
        return;
    }
    if words[0] == "script" {
        let (capacity, share): (usize, usize) = (words[1].parse().unwrap(), words[2].parse().unwrap());
        let limits = Limits { message: words[4].parse().unwrap(), partials: words[5].parse().unwrap() };
        let mut server = Server::new(Counter::new(words[3].parse().unwrap()), limits, capacity, share);
        for event in &words[6..] {
            play(&mut server, event);
        }
        println!("total {}", server.desk.servant.total);
        return;
    }
    if words[0] == "log" {
        let is_one_client = words.get(5).is_some_and(|word| word == "one");
        keep_each(words[1].parse().unwrap(), words[2].parse().unwrap(), words[3].parse().unwrap(), &words[4], is_one_client);
        return;
    }
    let count: usize = words[0].parse().unwrap();
    let piece: usize = words[1].parse().unwrap();
    let kind = words.get(2).map_or("request", |kind| kind);
    let mut stream = Vec::new();
    if kind != "reference" {
        for _ in 0..count {
            put_round(kind, &mut stream);
        }
    }
    if piece == 0 {
        println!("octets {}", std::hint::black_box(&stream).len());
        return;
    }
    let tally = match kind {
        "read" | "reply" | "locate" => read_each(&stream),
        "reference" => Ok(references(count)),
        _ => drive(&stream, piece),
    };
    match tally {
        Ok(tally) => println!("messages {} sum {}", tally.messages, tally.sum),
        Err(fault) => println!("fault {fault}"),
    }
}
