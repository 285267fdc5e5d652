//! Marks: which store a guard has. `retry` says with each transmission for which store it is meant,
//! and a guard with another one refuses it: who knows nothing of a key can't tell whether it acted.
//!
//! Both stand in a service context of a vendor's range, which other ORBs pass over: its data is an
//! encapsulation in big order. A guard tells its own only where it is asked by that context.

use crate::compose::{Contexts, STORE};
use std::fs::File;
use std::io::{self, Read};

/// Octets that nothing else has.
pub type Random = [u8; 16];

/// Random octets.
///
/// # Errors
///
/// The system has none.
pub fn random() -> io::Result<Random> {
    let mut octets = Random::default();
    File::open("/dev/urandom")?.read_exact(&mut octets)?;
    Ok(octets)
}

/// What the store of a guard is known by.
#[derive(Clone, Debug, Default, PartialEq, Eq)]
pub struct Mark {
    /// Drawn when it was made, and anew where it may have forgotten something.
    pub store: Random,
    /// The number of the guard's life, and what was drawn when that began; nothing where several
    /// guards have the store.
    pub life: u32,
    pub begun: [u8; 8],
}

/// How many octets a mark has.
const SIZE: usize = 28;

impl Mark {
    /// Whether a store of this mark has all that one of another had: it is the same, in the same life
    /// or a later one.
    #[must_use]
    pub fn knows(&self, other: &Mark) -> bool {
        let is_later = other.life < self.life;
        self.store == other.store
            && (is_later || (other.life, other.begun) == (self.life, self.begun))
    }

    /// Its octets, behind others.
    fn behind(&self, octets: &[u8]) -> Vec<u8> {
        [octets, &self.store, &self.life.to_be_bytes(), &self.begun].concat()
    }

    fn of(octets: &[u8]) -> Option<Mark> {
        let octets: &[u8; SIZE] = octets.try_into().ok()?;
        let store = octets[..16].try_into().ok()?;
        let life = u32::from_be_bytes(octets[16..20].try_into().ok()?);
        Some(Mark { store, life, begun: octets[20..].try_into().ok()? })
    }
}

/// For which store a request is meant.
#[derive(Clone, Debug, Default, PartialEq, Eq)]
pub enum Meant {
    /// It does not say.
    #[default]
    Any,
    /// Its sender asks which store this is, before anything is begun.
    Asks,
    For(Mark),
}

impl Meant {
    /// What some service contexts say, of which that is taken out.
    pub fn taken(contexts: &mut Contexts) -> Meant {
        match taken(contexts) {
            None => Meant::Any,
            Some(data) => data.get(1..).and_then(Mark::of).map_or(Meant::Asks, Meant::For),
        }
    }

    /// The context that says so for a mark, or asks for it.
    #[must_use]
    pub fn said(mark: Option<&Mark>) -> (u32, Vec<u8>) {
        (STORE, mark.map_or_else(|| vec![0], |mark| mark.behind(&[0])))
    }

    /// Whether a guard whose store has a mark may begin it.
    #[must_use]
    pub fn is_for(&self, mark: &Mark) -> bool {
        match self {
            Meant::Any => true,
            Meant::Asks => false,
            Meant::For(wanted) => mark.knows(wanted),
        }
    }
}

/// What a guard tells of itself with a reply.
#[derive(Clone, Debug, PartialEq, Eq)]
pub struct Told {
    pub mark: Mark,
    /// Whether the reply is of a transmission by which nothing was performed, nor will be: the guard's
    /// own refusal, or a forward.
    pub is_void: bool,
}

impl Told {
    /// What some service contexts say, of which that is taken out.
    pub fn taken(contexts: &mut Contexts) -> Option<Told> {
        let data = taken(contexts)?;
        let mark = Mark::of(data.get(2..)?)?;
        Some(Told { mark, is_void: data[1] == 1 })
    }

    /// The context that says so.
    #[must_use]
    pub fn said(&self) -> (u32, Vec<u8>) {
        (STORE, self.mark.behind(&[0, u8::from(self.is_void)]))
    }
}

/// The data of the first context of that id, where there is one; all of them are taken out.
fn taken(contexts: &mut Contexts) -> Option<Vec<u8>> {
    let at = contexts.iter().position(|(id, _)| *id == STORE)?;
    let (_, data) = contexts.remove(at);
    contexts.retain(|(id, _)| *id != STORE);
    Some(data)
}

#[cfg(test)]
mod tests {
    use super::*;

    fn mark(store: u8, life: u32, begun: u8) -> Mark {
        Mark { store: [store; 16], life, begun: [begun; 8] }
    }

    #[test]
    fn a_store_knows_what_its_lives_before_had() {
        for (own, other, knows) in [
            (mark(1, 3, 7), mark(1, 3, 7), true),
            (mark(1, 3, 7), mark(1, 2, 6), true),
            (mark(1, 3, 7), mark(1, 3, 6), false), // it was put back
            (mark(1, 3, 7), mark(1, 4, 8), false),
            (mark(1, 3, 7), mark(2, 2, 6), false),
            (mark(1, 0, 0), mark(1, 0, 0), true),
        ] {
            assert_eq!(own.knows(&other), knows, "{own:?} {other:?}");
        }
    }

    #[test]
    fn what_is_said_is_taken() {
        let (one, other) = (mark(1, 1 << 30, 3), (1, b"sets".to_vec()));
        for (said, meant) in [(None, Meant::Asks), (Some(&one), Meant::For(one.clone()))] {
            let mut contexts = vec![Meant::said(said), other.clone(), Meant::said(None)];
            assert_eq!(Meant::taken(&mut contexts), meant);
            assert_eq!(contexts, std::slice::from_ref(&other));
            assert_eq!(Meant::taken(&mut contexts), Meant::Any);
        }
        for is_void in [false, true] {
            let told = Told { mark: one.clone(), is_void };
            assert_eq!(Told::taken(&mut vec![told.said()]), Some(told));
        }
        for data in [vec![], vec![0], vec![0; 29], vec![0; 31]] {
            assert_eq!(Told::taken(&mut vec![(STORE, data)]), None);
        }
        for data in [vec![], vec![0; 28], vec![0; 30]] {
            assert_eq!(Meant::taken(&mut vec![(STORE, data)]), Meant::Asks);
        }
    }

    #[test]
    fn who_may_begin_what() {
        let (one, other) = (mark(1, 2, 2), mark(2, 2, 2));
        for (meant, mark, is_for) in [
            (Meant::Any, &one, true),
            (Meant::Asks, &one, false),
            (Meant::For(one.clone()), &one, true),
            (Meant::For(one.clone()), &other, false),
        ] {
            assert_eq!(meant.is_for(mark), is_for, "{meant:?}");
        }
    }
}
