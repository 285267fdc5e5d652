//! Messages of a stream that are longer than they may be: all but their beginnings is passed over, so
//! that who waits for an answer can be told, and the stream goes on.

use crate::cuts::Cuts;
use lemonrudder::{Fault, Version};
use std::collections::{HashMap, HashSet};

/// How many octets a header has (CORBA 3.3 Part 2, 9.4.1), and one with a request id behind it.
const HEADER: usize = 12;
const WITH_ID: usize = HEADER + 4;
/// The types of messages that are looked at.
const REQUEST: u8 = 0;
const REPLY: u8 = 1;
const LOCATE_REQUEST: u8 = 3;
const LOCATE_REPLY: u8 = 4;
const FRAGMENT: u8 = 7;
/// What is said of a message of 1.1 and 1.2 that more fragments follow.
const MORE: u8 = 2;
/// How many octets stay at most of a frame that is too long.
const KEPT: usize = 1 << 16;
/// Of how many messages fragments are passed over.
const CUT: usize = 1024;
/// How many octets of a frame are looked at: a header, and what stands before the flags of a Request of
/// 1.0 and 1.1 that has no service contexts.
const SEEN: usize = HEADER + 9;

/// What was taken of a stream.
#[derive(Debug, PartialEq, Eq)]
pub enum Taken<'a> {
    /// Octets of messages.
    Octets(&'a [u8]),
    /// The same, of which some came before, or were changed.
    Held(Vec<u8>),
    /// What means nothing yet, or any more.
    Nothing,
}

/// The frames of a stream.
#[derive(Debug)]
pub struct Frames {
    longest: usize,
    /// What has come of a frame, until it is known what becomes of it.
    held: Vec<u8>,
    /// How many octets of a frame come, and behind those, how many that are passed over.
    left: usize,
    over: usize,
    /// How long the message is, so far, that ends in the frame of which octets come.
    whole: usize,
    /// How long the messages are whose fragments come, by their ids.
    partial: HashMap<u32, usize>,
    /// The same of messages of which none is cut.
    others: HashMap<u32, usize>,
    /// Those whose further fragments are passed over.
    cut: HashSet<u32>,
    /// What was seen of the frame, and of the first frame of the message of 1.1 whose fragments come.
    seen: Vec<u8>,
    early: Vec<u8>,
    /// The id of the message that the frame is a part of, where it is a part, whether that begins with
    /// what was taken, and whether more fragments follow.
    part: Option<u32>,
    is_opening: bool,
    has_more: bool,
    /// Where the message of 1.1 is cut whose fragments come, and where the one was that ends here.
    coming: Cuts,
    cuts: Cuts,
    /// Whether the message that ends in this frame was cut there.
    is_cut: bool,
    /// Whether what was taken is a message, from its first octet to its last.
    is_whole: bool,
    /// Whether what came is no frame: all that comes is for who judges that.
    is_lost: bool,
}

/// What is looked at of the header of a frame.
struct Head {
    size: usize,
    version: u8,
    has_more: bool,
    kind: u8,
    /// The id of a fragment, or of a message that fragments follow.
    id: u32,
}

/// The first octets of a message, the id of which is to be known.
#[derive(Debug)]
pub struct Beginning<'f>(&'f [u8]);

impl Beginning<'_> {
    /// Its version.
    #[must_use]
    pub fn version(&self) -> Version {
        match self.0[5] {
            0 => Version::V10,
            1 => Version::V11,
            _ => Version::V12,
        }
    }

    /// Where its id stands: in 1.0 and 1.1 behind its service contexts, of which there are to be none.
    fn place(&self) -> Option<usize> {
        match self.0[5] {
            2 => Some(HEADER),
            _ if number_of(self.0, HEADER) == 0 => Some(HEADER + 4),
            _ => None,
        }
    }

    /// Its id, where that is known, and it may be of a type.
    fn id(&self, kind: u8) -> Option<u32> {
        let is_it = self.0[7] == kind || self.0[7] == FRAGMENT && self.0[5] == 2;
        let at = self.place().filter(|at| is_it && self.0.len() >= at + 4)?;
        Some(number_of(self.0, at))
    }

    #[must_use]
    pub fn id_of_request(&self) -> Option<u32> {
        self.id(REQUEST)
    }

    #[must_use]
    pub fn id_of_reply(&self) -> Option<u32> {
        self.id(REPLY)
    }

    /// Whether a Request may wish for a reply.
    #[must_use]
    pub fn may_wish(&self) -> bool {
        let flags = self.place().and_then(|at| self.0.get(at + 4));
        self.0[7] == FRAGMENT || flags != Some(&0)
    }
}

impl Head {
    /// The id of the message that it is a part of, if it is one of a part.
    fn part(&self) -> Option<u32> {
        let is_first = self.has_more && may_be_cut(self.kind);
        (is_first || self.kind == FRAGMENT).then_some(self.id)
    }
}

impl Frames {
    /// Frames of messages of at most so many octets.
    #[must_use]
    pub fn new(longest: usize) -> Frames {
        Frames {
            longest,
            held: Vec::new(),
            left: 0,
            over: 0,
            whole: 0,
            partial: HashMap::new(),
            others: HashMap::new(),
            cut: HashSet::new(),
            seen: Vec::with_capacity(SEEN),
            early: Vec::new(),
            part: None,
            is_opening: false,
            has_more: false,
            coming: Cuts::default(),
            cuts: Cuts::default(),
            is_cut: false,
            is_whole: false,
            is_lost: false,
        }
    }

    /// Whether the message that what was taken completes is the beginning of one that is too long.
    #[must_use]
    pub fn is_cut(&self) -> bool {
        self.is_cut
    }

    /// Whether what was taken is a message, from its first octet to its last.
    #[must_use]
    pub fn is_whole(&self) -> bool {
        self.is_whole
    }

    /// Whether octets of a frame are still to come.
    #[must_use]
    pub fn is_amid(&self) -> bool {
        self.left + self.over > 0 || !self.held.is_empty()
    }

    /// How many octets have come of messages that are not whole.
    #[must_use]
    pub fn pending(&self) -> usize {
        let last = if self.left > 0 { self.whole } else { 0 };
        let all = last + self.partial.values().chain(self.others.values()).sum::<usize>();
        self.held.len() + self.coming.size() + all.saturating_sub(self.left)
    }

    /// Forgets a message that is not whole, whose client sends no more of it.
    pub fn forget(&mut self, id: u32) {
        self.partial.remove(&id);
        self.others.remove(&id);
    }

    /// The id of the message that what was taken is a part of, where that comes in fragments: 0 in 1.1,
    /// where those follow one another.
    #[must_use]
    pub fn part(&self) -> Option<u32> {
        self.part
    }

    /// Whether such a message begins with what was taken.
    #[must_use]
    pub fn is_opening(&self) -> bool {
        self.is_opening
    }

    /// Whether it ends with what was taken.
    #[must_use]
    pub fn is_ended(&self) -> bool {
        self.left == 0 && !self.has_more
    }

    /// Where the message of 1.1 was cut that what was taken completes.
    #[must_use]
    pub fn cuts(&self) -> &Cuts {
        &self.cuts
    }

    /// Passes over what is still to come of the message that what was taken is of, where that is at
    /// fault and the frames behind it are not. It answers what is known of that message.
    pub fn gives_up(&mut self, fault: Option<Fault>) -> Option<Beginning<'_>> {
        use Fault::{Body, MixedOrder, TooManyPartial, UnalignedFragment};
        if !matches!(fault, Some(Body | MixedOrder | TooManyPartial | UnalignedFragment)) {
            return None;
        }
        self.over += std::mem::take(&mut self.left);
        if let Some(id) = self.part.filter(|_| self.has_more) {
            self.partial.remove(&id);
            self.cut.insert(id);
        }
        let is_early = self.seen.get(7) == Some(&FRAGMENT) && self.seen.get(5) != Some(&2);
        let octets = if is_early { &self.early } else { &self.seen };
        (self.cut.len() <= CUT && octets.len() > HEADER).then_some(Beginning(octets))
    }

    /// Takes what comes next of a stream.
    pub fn take<'a>(&mut self, octets: &mut &'a [u8]) -> Taken<'a> {
        (self.is_whole, self.is_opening) = (false, false);
        if self.is_lost {
            return Taken::Octets(std::mem::take(octets));
        }
        if self.left == 0 && self.over > 0 {
            let size = self.over.min(octets.len());
            *octets = &octets[size..];
            self.over -= size;
            return Taken::Nothing;
        }
        let is_first = self.left == 0;
        if is_first && !self.begins(octets) {
            return self.hold(octets);
        }
        let (taken, rest) = octets.split_at(self.left.min(octets.len()));
        *octets = rest;
        self.left -= taken.len();
        self.is_whole = is_first && self.left == 0;
        self.sees(taken);
        Taken::Octets(taken)
    }

    /// Notes the first octets of a frame.
    fn sees(&mut self, octets: &[u8]) {
        self.seen.extend(octets.iter().take(SEEN - self.seen.len()));
    }

    /// Begins with another frame, which is a part of a message or is not.
    fn turns(&mut self, part: Option<u32>, has_more: bool) {
        let is_first = self.has_more && self.seen.get(7).is_some_and(|kind| *kind <= REPLY);
        if is_first && self.seen.get(5) != Some(&2) {
            self.early.clone_from(&self.seen);
        }
        self.seen.clear();
        self.cuts.clear();
        (self.part, self.has_more) = (part, has_more);
    }

    /// Begins with a frame whose header has come in one piece, where nothing is to be changed of it.
    fn begins(&mut self, octets: &[u8]) -> bool {
        let Some(size) = octets.get(..HEADER).filter(|_| self.held.is_empty()).map(size_of) else {
            return false;
        };
        let is_part = octets[6] & MORE != 0 || octets[7] == FRAGMENT;
        if is_part || size.is_none_or(|size| size > self.longest) {
            return false;
        }
        self.is_cut = false;
        self.turns(None, false);
        self.left = size.unwrap_or(0);
        self.whole = self.left;
        true
    }

    /// Holds octets of a frame until it is known what becomes of it.
    fn hold<'a>(&mut self, octets: &mut &'a [u8]) -> Taken<'a> {
        let more = (wanted(&self.held) - self.held.len()).min(octets.len());
        let (taken, rest) = octets.split_at(more);
        *octets = rest;
        self.held.extend(taken);
        if self.held.len() < wanted(&self.held) {
            return Taken::Nothing;
        }
        let mut held = std::mem::take(&mut self.held);
        self.is_cut = false;
        let Some(head) = head_of(&held) else {
            self.is_lost = true;
            self.part = None;
            return Taken::Held(held);
        };
        self.turns(head.part(), head.has_more);
        self.sees(&held);
        self.left = head.size - held.len();
        self.whole = if head.has_more { 0 } else { head.size };
        match self.length(&head) {
            None => {
                (self.left, self.over) = (0, self.left);
                Taken::Nothing
            }
            Some(length) => {
                if length < head.size || self.is_cut {
                    self.left = length - held.len();
                    self.over = head.size - length;
                    self.whole = self.whole.min(length);
                    set_length(&mut held, length);
                }
                Taken::Held(held)
            }
        }
    }

    /// How many octets of a frame go on; none where it belongs to a message that was cut.
    fn length(&mut self, head: &Head) -> Option<usize> {
        let Head { size, id, .. } = *head;
        let is_long = size > self.longest;
        match head.kind {
            ..=REPLY if is_long && self.cut.len() < CUT => {
                self.is_cut = true;
                if head.has_more {
                    self.cut.insert(id);
                }
                (self.part, self.has_more) = (None, false);
                Some(KEPT.min(self.longest))
            }
            ..=REPLY if head.has_more => {
                self.is_opening = true;
                self.partial.insert(id, size);
                if head.version == 1 {
                    self.coming.clear();
                    self.coming.push(size);
                }
                Some(size)
            }
            LOCATE_REQUEST | LOCATE_REPLY if head.has_more => {
                self.is_opening = true;
                Some(size)
            }
            FRAGMENT if self.cut.contains(&id) => {
                if !head.has_more {
                    self.cut.remove(&id);
                }
                None
            }
            FRAGMENT => Some(self.length_of_fragment(head)),
            _ => {
                if head.has_more {
                    self.others.insert(id, size);
                }
                Some(size)
            }
        }
    }

    /// The same of a fragment. The one by which its message is too long becomes an empty one, the last.
    fn length_of_fragment(&mut self, head: &Head) -> usize {
        let least = if head.version == 2 { WITH_ID } else { HEADER };
        let Some(whole) = self.partial.get_mut(&head.id) else {
            if let Some(whole) = self.others.get_mut(&head.id) {
                *whole += head.size - least.min(head.size);
                if !head.has_more {
                    self.whole = *whole;
                    self.others.remove(&head.id);
                }
            }
            return head.size;
        };
        *whole += head.size.saturating_sub(least);
        let whole = *whole;
        let is_long = whole > self.longest || head.version == 1 && self.coming.are_most();
        self.is_cut = is_long && self.cut.len() < CUT;
        if head.version == 1 && head.has_more {
            self.coming.push(whole);
        }
        if self.is_cut && head.has_more {
            self.cut.insert(head.id);
        }
        if self.is_cut || !head.has_more {
            self.whole = whole;
            self.partial.remove(&head.id);
            self.has_more = false;
            if head.version == 1 {
                let coming = self.coming.take();
                self.cuts = if self.is_cut { Cuts::default() } else { coming };
            }
        }
        if self.is_cut {
            least
        } else {
            head.size
        }
    }
}

/// Whether messages of a type may come in fragments (9.4.9).
fn may_be_cut(kind: u8) -> bool {
    kind <= REPLY || [LOCATE_REQUEST, LOCATE_REPLY].contains(&kind)
}

/// Whether octets are the beginning of a frame that has an id which is looked at.
fn has_id(octets: &[u8]) -> bool {
    octets[5] == 2 && (octets[7] == FRAGMENT || octets[6] & MORE != 0 && may_be_cut(octets[7]))
}

/// How many octets say what is to be known of the frame of which some are held.
fn wanted(held: &[u8]) -> usize {
    match size_of(held) {
        Some(size) if has_id(held) && size >= WITH_ID => WITH_ID,
        _ => HEADER,
    }
}

/// How many octets a frame has by its header, if that is one.
fn size_of(octets: &[u8]) -> Option<usize> {
    let header = octets.get(..HEADER).filter(|it| it.starts_with(b"GIOP\x01"))?;
    usize::try_from(number_of(header, 8)).ok()?.checked_add(HEADER)
}

/// What the octets say that stand before all others of a frame.
fn head_of(octets: &[u8]) -> Option<Head> {
    let (size, version) = (size_of(octets)?, octets[5]);
    // (in 1.1 fragments follow one another, and there is no id)
    let id = if octets.len() < WITH_ID { 0 } else { number_of(octets, HEADER) };
    let has_more = version > 0 && octets[6] & MORE != 0;
    Some(Head { size, version, has_more, kind: octets[7], id })
}

/// The number at a place of a message.
fn number_of(octets: &[u8], at: usize) -> u32 {
    let number = octets.get(at..at + 4).and_then(|it| it.try_into().ok()).unwrap_or_default();
    if octets[6] & 1 == 0 {
        u32::from_be_bytes(number)
    } else {
        u32::from_le_bytes(number)
    }
}

/// Makes a frame one of so many octets, that nothing follows.
fn set_length(octets: &mut [u8], length: usize) {
    let size = u32::try_from(length - HEADER).unwrap_or(u32::MAX);
    let size = if octets[6] & 1 == 0 { size.to_be_bytes() } else { size.to_le_bytes() };
    octets[8..HEADER].copy_from_slice(&size);
    octets[6] &= !MORE;
}

impl Taken<'_> {
    /// The octets, where there are any.
    #[must_use]
    pub fn octets(&self) -> &[u8] {
        match self {
            Taken::Octets(octets) => octets,
            Taken::Held(octets) => octets,
            Taken::Nothing => &[],
        }
    }
}

#[cfg(test)]
mod tests {
    use super::*;

    const LONGEST: usize = 40;

    /// What a stream gives, in pieces of a size: the octets of all, and behind how many of those a
    /// message was cut.
    fn taken(stream: &[u8], size: usize) -> (Vec<u8>, Vec<usize>) {
        let (mut frames, mut all, mut cuts) = (Frames::new(LONGEST), Vec::new(), Vec::new());
        for mut piece in stream.chunks(size) {
            while !piece.is_empty() {
                let is_new = {
                    let taken = frames.take(&mut piece);
                    all.extend(taken.octets());
                    !taken.octets().is_empty()
                };
                if is_new && frames.is_cut() && frames.left == 0 {
                    cuts.push(all.len());
                }
            }
        }
        (all, cuts)
    }

    /// A message: its minor version, its flags, its type, and what stands behind the header.
    fn message(minor: u8, flags: u8, kind: u8, content: &[u8]) -> Vec<u8> {
        let size = u32::try_from(content.len()).unwrap();
        let size = if flags & 1 == 0 { size.to_be_bytes() } else { size.to_le_bytes() };
        [b"GIOP\x01".as_slice(), &[minor, flags, kind], &size, content].concat()
    }

    const SHORT: [u8; 28] = [7; 28];
    const LONG: [u8; 29] = [9; 29];

    #[test]
    fn what_is_whole_is_no_fragment() {
        let (whole, cut) = (message(2, 0, 0, &SHORT), message(2, 2, 0, &SHORT));
        let (fragment, long) = (message(2, 0, 7, &SHORT), message(2, 0, 0, &LONG));
        let is_whole = |octets: &[&[u8]]| {
            let mut frames = Frames::new(LONGEST);
            let mut last = false;
            for mut octets in octets.iter().copied() {
                while !octets.is_empty() {
                    frames.take(&mut octets);
                    last = frames.is_whole();
                }
            }
            last
        };
        assert!(is_whole(&[&whole]) && is_whole(&[&whole[..9], &whole[9..], &whole]));
        for octets in [&cut, &fragment, &long] {
            assert!(!is_whole(&[octets]));
        }
        for size in 1..whole.len() {
            assert!(!is_whole(&[&whole[..size]]) && !is_whole(&[&whole[..size], &whole[size..]]));
        }
    }

    #[test]
    fn what_is_pending_is_known() {
        let fragments = [message(2, 2, 0, b"\0\0\0\x05abcd"), message(2, 0, 7, b"\0\0\0\x05efgh")];
        let (whole, long) = (message(2, 0, 0, &SHORT), message(2, 0, 0, &LONG));
        let mut frames = Frames::new(LONGEST);
        let mut pending = |octets: &[u8]| {
            let mut octets = octets;
            while !octets.is_empty() {
                frames.take(&mut octets);
            }
            frames.pending()
        };
        // (of a fragment its header is none of what its message takes)
        assert_eq!(
            (pending(&whole[..9]), pending(&whole[9..39]), pending(&whole[39..])),
            (9, 39, 0)
        );
        assert_eq!(
            (pending(&fragments[0]), pending(&whole[..13]), pending(&whole[13..])),
            (20, 33, 20)
        );
        assert_eq!((pending(&fragments[1][..18]), pending(&fragments[1][18..])), (22, 0));
        assert_eq!((pending(&long[..20]), pending(&long[20..]), pending(b"")), (20, 0, 0));
        assert_eq!(pending(&fragments[0]), 20);
        frames.forget(5);
        assert_eq!(frames.pending(), 0);
    }

    #[test]
    fn what_is_short_passes() {
        let fragments = [message(2, 2, 0, b"\0\0\0\x05abcd"), message(2, 0, 7, b"\0\0\0\x05efgh")];
        let stream = [
            message(2, 0, 0, &SHORT),
            message(0, 1, 1, b""),
            message(2, 0, 5, b""),
            fragments.concat(),
            message(1, 2, 1, b"abcd"),
            message(1, 0, 7, b"efgh"),
            fragments.concat(),
        ]
        .concat();
        for size in 1..stream.len() {
            assert_eq!(taken(&stream, size), (stream.clone(), vec![]), "{size}");
        }
    }

    #[test]
    fn of_what_is_long_the_beginning_stays() {
        let other = message(2, 0, 1, &SHORT);
        for (minor, flags, kind) in [(2, 0, 0), (2, 1, 1), (1, 0, 0), (0, 1, 0)] {
            let (long, cut) =
                (message(minor, flags, kind, &LONG), message(minor, flags, kind, &LONG[1..]));
            let stream = [&other[..], &long, &other, &long].concat();
            let wanted = [&other[..], &cut, &other, &cut].concat();
            for size in 1..stream.len() {
                assert_eq!(taken(&stream, size), (wanted.clone(), vec![80, 160]), "{size}");
            }
        }
    }

    #[test]
    fn fragments_behind_those_that_fit_are_passed_over() {
        let other = message(2, 0, 1, &SHORT);
        for (minor, id, id_of_next) in [(2, &b"\0\0\0\x05"[..], &b"\0\0\0\x06"[..]), (1, b"", b"")]
        {
            let part = |flags, kind, id: &[u8], size| {
                message(minor, flags, kind, &[id, &[3; 20][..size]].concat())
            };
            let (first, fits) = (part(2, 0, id, 8), part(2, 7, id, 8));
            let (long, last) = (part(2, 7, id, 20), part(0, 7, id, 4));
            let next = [part(2, 0, id_of_next, 8), part(0, 7, id_of_next, 8)].concat();
            let stream = [&first[..], &fits, &long, &long, &last, &next, &other].concat();
            let empty = part(0, 7, id, 0);
            let wanted = [&first[..], &fits, &empty, &next, &other].concat();
            let cut = first.len() + fits.len() + empty.len();
            for size in 1..stream.len() {
                assert_eq!(taken(&stream, size), (wanted.clone(), vec![cut]), "{minor} {size}");
            }
        }
    }

    #[test]
    fn a_first_frame_that_is_too_long_has_no_fragments() {
        let content = [b"\0\0\0\x05".as_slice(), &[3; 40]].concat();
        let stream = [
            message(2, 2, 0, &content),
            message(2, 2, 7, &content[..9]),
            message(2, 0, 7, &content[..5]),
            message(2, 0, 5, b""),
        ]
        .concat();
        let wanted = [message(2, 0, 0, &content[..28]), message(2, 0, 5, b"")].concat();
        for size in 1..stream.len() {
            assert_eq!(taken(&stream, size), (wanted.clone(), vec![40]), "{size}");
        }
    }

    #[test]
    fn what_can_not_be_told_is_judged_by_others() {
        for stream in [
            b"GET / HTTP/1.1\r\n\r\nand so on".to_vec(),
            message(2, 0, 3, &LONG),
            message(2, 0, 7, b"\0\0\0\x05abcd"),
            message(2, 0, 7, b"ab"),
        ] {
            for size in 1..stream.len() {
                assert_eq!(taken(&stream, size), (stream.clone(), vec![]), "{size}");
            }
        }
    }
}
