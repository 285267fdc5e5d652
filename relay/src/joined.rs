//! The messages of a stream: each that comes in fragments is joined by an assembler of its own, so
//! that what is at fault in one is no fault of another.

use crate::frames::Frames;
use lemonrudder::{Assembler, Error, Fault, Limits, Message};
use std::collections::BTreeMap;

/// The assemblers of a stream.
#[derive(Debug)]
pub struct Joined {
    limits: Limits,
    /// That of what comes in one frame.
    whole: Assembler,
    /// Those of messages whose fragments come, by their ids.
    partial: BTreeMap<u32, Assembler>,
    /// The one that was fed last, where that is one of those, and whether it has all of its message.
    fed: Option<u32>,
    is_ended: bool,
}

impl Joined {
    /// Those of a stream of which nothing has come.
    ///
    /// # Errors
    ///
    /// As of [`Assembler::open`].
    pub fn open(limits: Limits) -> Result<Joined, Error> {
        let whole = Assembler::open(limits)?;
        Ok(Joined { limits, whole, partial: BTreeMap::new(), fed: None, is_ended: false })
    }

    /// Takes octets of a frame, and answers how many.
    ///
    /// # Errors
    ///
    /// What is at fault in its message, of which no more is to be fed.
    pub fn feed(&mut self, frames: &Frames, octets: &[u8]) -> Result<usize, Option<Fault>> {
        if let Some(id) = self.fed.take().filter(|_| self.is_ended) {
            self.partial.remove(&id);
        }
        let Some(id) = frames.part() else { return self.feed_whole(octets) };
        if frames.is_opening() && !self.opens(id)? {
            return Err(Some(Fault::TooManyPartial));
        }
        (self.fed, self.is_ended) = (Some(id), frames.is_ended());
        let Some(assembler) = self.partial.get_mut(&id) else {
            return Err(Some(Fault::StrayFragment));
        };
        match assembler.feed(octets) {
            Ok(fed) => Ok(fed),
            Err(_) => {
                let fault = assembler.fault();
                self.partial.remove(&id);
                Err(fault)
            }
        }
    }

    /// The same, of a message that comes in one frame.
    fn feed_whole(&mut self, octets: &[u8]) -> Result<usize, Option<Fault>> {
        match self.whole.feed(octets) {
            Ok(fed) => Ok(fed),
            Err(_) => {
                let fault = self.whole.fault();
                self.whole = Assembler::open(self.limits).map_err(|_| Some(Fault::Memory))?;
                Err(fault)
            }
        }
    }

    /// Opens an assembler for the message of an id, in place of one that came before: whether there
    /// may be one more.
    fn opens(&mut self, id: u32) -> Result<bool, Option<Fault>> {
        self.partial.remove(&id);
        let is_room = u32::try_from(self.partial.len()).is_ok_and(|it| it < self.limits.partials);
        if is_room {
            let opened = Assembler::open(self.limits).map_err(|_| Some(Fault::Memory))?;
            self.partial.insert(id, opened);
        }
        Ok(is_room)
    }

    /// Forgets what has come of the message of an id.
    pub fn forget(&mut self, id: u32) {
        self.partial.remove(&id);
    }

    /// The message that was completed last, if one was; these octets are all of it where it came in
    /// one frame.
    ///
    /// # Errors
    ///
    /// As of [`Assembler::message`].
    pub fn message_in(&mut self, frame: &[u8]) -> Result<Option<Message<'_>>, Error> {
        match self.fed {
            None => self.whole.message_in(frame),
            Some(id) => match self.partial.get_mut(&id) {
                Some(assembler) => assembler.message(),
                None => Ok(None),
            },
        }
    }
}

#[cfg(test)]
mod tests {
    use super::*;
    use crate::cuts::Cuts as Cuts11;
    use lemonrudder::Cuts;

    const LIMITS: Limits = Limits { message: 4096, partials: 2, cuts: Cuts::Anywhere };

    /// A frame of big order: its minor version, its flags, its type, and what stands behind the header.
    fn frame(minor: u8, flags: u8, kind: u8, content: &[u8]) -> Vec<u8> {
        let size = u32::try_from(content.len()).unwrap().to_be_bytes();
        [b"GIOP\x01".as_slice(), &[minor, flags, kind], &size, content].concat()
    }

    /// A frame of a Reply of 1.2, or all of it, whose status is good or is none.
    fn reply(flags: u8, id: u8, status: u8) -> Vec<u8> {
        frame(2, flags, 1, &[0, 0, 0, id, 0, 0, 0, status, 0, 0, 0, 0])
    }

    fn last(id: u8) -> Vec<u8> {
        frame(2, 0, 7, &[0, 0, 0, id, 1, 2, 3, 4])
    }

    /// A frame of a Reply of 1.1, or all of it.
    fn early(flags: u8, id: u8) -> Vec<u8> {
        frame(1, flags, 1, &[0, 0, 0, 0, 0, 0, 0, id, 0, 0, 0, 0])
    }

    /// The ids of messages, and where each was cut, or that it is at fault.
    type Given = Vec<(u32, Result<Cuts11, ()>)>;

    /// What octets give in pieces of a size, and the fault by which they end, where they do.
    fn given(stream: &[u8], size: usize) -> (Given, Option<Fault>) {
        let (mut joined, mut frames) = (Joined::open(LIMITS).unwrap(), Frames::new(4096));
        let mut all = Vec::new();
        for mut piece in stream.chunks(size) {
            while !piece.is_empty() {
                let taken = frames.take(&mut piece);
                let octets = taken.octets();
                if octets.is_empty() {
                    continue;
                }
                match joined.feed(&frames, octets) {
                    Ok(fed) => assert_eq!(fed, octets.len()),
                    Err(fault) => match frames.gives_up(fault).and_then(|it| it.id_of_reply()) {
                        Some(id) => all.push((id, Err(()))),
                        None => return (all, fault),
                    },
                }
                if let Some(message) = joined.message_in(&[]).unwrap() {
                    let cuts = frames.cuts().behind(message.place());
                    all.push((message.request_id(), Ok(cuts)));
                }
            }
        }
        (all, None)
    }

    fn cuts(at: &[usize]) -> Result<Cuts11, ()> {
        let mut cuts = Cuts11::default();
        at.iter().for_each(|at| cuts.push(*at));
        Ok(cuts)
    }

    #[test]
    fn a_message_at_fault_is_no_fault_of_others() {
        let (good, bad) = (0, 99);
        let stream = [
            reply(2, 5, bad),
            reply(2, 6, good),
            last(5),
            last(6),
            reply(0, 7, bad),
            reply(0, 8, good),
            // (of four octets more than may be cut there, and what follows it)
            frame(2, 2, 1, &[0, 0, 0, 9, 0, 0, 0, good, 0, 0, 0, 0, 1, 1, 1, 1]),
            last(9),
            reply(0, 10, good),
        ]
        .concat();
        let wanted = [
            (5, Err(())),
            (6, cuts(&[])),
            (7, Err(())),
            (8, cuts(&[])),
            (9, Err(())),
            (10, cuts(&[])),
        ];
        for size in 1..stream.len() {
            assert_eq!(given(&stream, size), (wanted.to_vec(), None), "{size}");
        }
    }

    #[test]
    fn a_message_of_1_1_has_its_cuts() {
        let stream = [
            early(0, 5),
            early(2, 6),
            frame(1, 2, 7, &[1; 5]),
            frame(1, 2, 7, &[2; 3]),
            frame(1, 0, 7, b""),
            early(2, 7),
            frame(1, 0, 7, &[3; 9]),
            early(0, 8),
        ]
        .concat();
        let wanted = [(5, cuts(&[])), (6, cuts(&[0, 5, 8])), (7, cuts(&[0])), (8, cuts(&[]))];
        for size in 1..stream.len() {
            assert_eq!(given(&stream, size), (wanted.to_vec(), None), "{size}");
        }
    }

    #[test]
    fn a_fault_of_1_1_is_that_of_its_message() {
        let stream = [
            early(2, 5),
            frame(1, 3, 7, b""),
            frame(1, 2, 7, &[1; 4]),
            frame(1, 0, 7, b""),
            early(2, 6),
            frame(1, 0, 7, b""),
        ]
        .concat();
        for size in 1..stream.len() {
            assert_eq!(given(&stream, size), (vec![(5, Err(())), (6, cuts(&[0]))], None), "{size}");
        }
    }

    #[test]
    fn one_too_many_that_is_partial_is_none() {
        let stream =
            [reply(2, 1, 0), reply(2, 2, 0), reply(2, 3, 0), last(3), last(1), last(2)].concat();
        let wanted = [(3, Err(())), (1, cuts(&[])), (2, cuts(&[]))];
        for size in 1..stream.len() {
            assert_eq!(given(&stream, size), (wanted.to_vec(), None), "{size}");
        }
    }

    #[test]
    fn what_has_no_id_ends_the_stream() {
        for (stream, fault) in [
            (last(5), Fault::StrayFragment),
            (frame(0, 0, 1, &[0, 0, 0, 1]), Fault::Body),
            (frame(2, 0, 1, &[0, 0]), Fault::Body),
            (frame(3, 0, 1, &[0; 12]), Fault::Version),
            (frame(2, 0, 9, &[0; 12]), Fault::Type),
            (b"GIOQ\x01\x02\0\0\0\0\0\0".to_vec(), Fault::Magic),
        ] {
            for size in 1..=stream.len() {
                assert_eq!(given(&stream, size), (vec![], Some(fault)), "{size} {fault:?}");
            }
        }
    }
}
