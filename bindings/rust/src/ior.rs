//! References to objects.

use crate::cdr::{Reader, Writer};
use crate::error::{self, copied, done, sure, written};
use crate::sys::{self, lr_profile, lr_slot};
use crate::{Error, Version};
use alloc::format;
use alloc::string::String;
use alloc::vec::Vec;
use core::mem::size_of;
use core::ops::Range;
use core::str::FromStr;

/// A reference to an object.
///
/// ```
/// use lemonrudder::{Ior, Version};
///
/// let mut ior = Ior::iiop("IDL:Counter:1.0", Version::V12, "127.0.0.1", 2809, b"c")?;
/// let mut again: Ior = ior.to_text()?.parse()?;
/// let address = again.address()?.expect("it has a profile of IIOP");
/// assert_eq!((address.host.as_slice(), address.port), (b"127.0.0.1".as_slice(), 2809));
/// # Ok::<(), lemonrudder::Error>(())
/// ```
#[derive(Debug)]
pub struct Ior {
    slot: lr_slot,
}

/// A profile of a reference.
#[derive(Clone, Debug, PartialEq, Eq)]
pub struct Profile {
    /// Its tag: 0 of IIOP.
    pub tag: u32,
    /// Its octets.
    pub data: Vec<u8>,
    /// What they say, where it is a valid profile of IIOP 1.0 or later.
    pub address: Option<Address>,
}

/// What a profile of IIOP says (CORBA 3.3 Part 2, 9.7.2).
#[derive(Clone, Debug, PartialEq, Eq)]
pub struct Address {
    /// The minor version of IIOP.
    pub minor: u32,
    /// The host.
    pub host: Vec<u8>,
    /// The port.
    pub port: u16,
    /// The key of the object.
    pub key: Vec<u8>,
    /// The tag and the data of each tagged component.
    pub components: Vec<(u32, Vec<u8>)>,
}

/// Reads a stringified reference, `IOR:` and hexadecimal digits; `Reference` where it is none.
impl FromStr for Ior {
    type Err = Error;

    fn from_str(text: &str) -> Result<Ior, Error> {
        let mut slot = lr_slot::empty();
        // SAFETY: the text is lent.
        done(unsafe { sys::lr_ior_parse(&mut slot, text.as_ptr().cast(), text.len()) })?;
        Ok(Ior { slot })
    }
}

impl Ior {
    /// A reference of a type to an object at an address of IIOP.
    ///
    /// # Errors
    ///
    /// `Text`, `Memory`.
    pub fn iiop(
        type_id: &str,
        version: Version,
        host: &str,
        port: u16,
        key: &[u8],
    ) -> Result<Ior, Error> {
        let mut slot = lr_slot::empty();
        // SAFETY: the id, the host and the key are lent.
        done(unsafe {
            sys::lr_ior_iiop(
                &mut slot,
                type_id.as_ptr().cast(),
                type_id.len(),
                version.number(),
                host.as_ptr().cast(),
                host.len(),
                port,
                key.as_ptr().cast(),
                key.len(),
            )
        })?;
        Ok(Ior { slot })
    }

    /// Reads a reference as a value of CDR, as the body of a reply that forwards has one.
    ///
    /// # Errors
    ///
    /// `Short`, `Value`, `Memory`; the place is as it was then.
    pub fn read(reader: &mut Reader<'_>) -> Result<Ior, Error> {
        let mut next = reader.clone();
        // the stringified form is that of an encapsulation (CORBA 3.3 Part 2, 7.6.9)
        let mut writer = Writer::encapsulation(next.order());
        writer.string(next.string()?)?;
        let count = next.ulong()?;
        writer.ulong(count)?;
        for _ in 0..count {
            writer.ulong(next.ulong()?)?.octets(next.octets()?)?;
        }
        let mut text = String::from("IOR:");
        for octet in writer.as_octets() {
            text += &format!("{octet:02x}");
        }
        let ior = text.parse()?;
        *reader = next;
        Ok(ior)
    }

    /// Writes it as a value of CDR, as the body of a reply that forwards has one.
    ///
    /// # Errors
    ///
    /// `Memory`; nothing was written then.
    pub fn write(&mut self, writer: &mut Writer) -> Result<(), Error> {
        let mut next = writer.clone();
        next.string(self.type_id()?)?.ulong(self.count())?;
        for profile in self.profiles() {
            let profile = profile?;
            next.ulong(profile.tag)?.octets(profile.data)?;
        }
        *writer = next;
        Ok(())
    }

    /// Its stringified form.
    ///
    /// # Errors
    ///
    /// `Memory`.
    pub fn to_text(&mut self) -> Result<String, Error> {
        let slot = &mut self.slot;
        // SAFETY: the room is lent.
        let text = written(512, |room| unsafe {
            sys::lr_ior_print(slot, room.as_mut_ptr().cast(), room.len())
        })?;
        String::from_utf8(text).map_err(|_| Error::Reference)
    }

    /// The repository id of its type; empty of the nil reference.
    ///
    /// # Errors
    ///
    /// None that is known.
    pub fn type_id(&mut self) -> Result<Vec<u8>, Error> {
        let slot = &mut self.slot;
        // SAFETY: the room is lent.
        copied(64, |room| unsafe {
            sys::lr_ior_type_id(slot, room.as_mut_ptr().cast(), room.len())
        })
    }

    /// How many profiles it has.
    fn count(&mut self) -> u32 {
        u32::try_from(sure(sys::lr_ior_profiles(&mut self.slot))).unwrap_or(u32::MAX)
    }

    /// Its profiles, in order; none of the nil reference.
    pub fn profiles(&mut self) -> Profiles<'_> {
        let left = 0..self.count();
        Profiles { ior: self, left }
    }

    /// The tagged components of a profile of IIOP, which is counted from 0, in order; none of
    /// another profile.
    ///
    /// # Errors
    ///
    /// `NoPart`, where there is no such profile, and `Memory`.
    pub fn components(&mut self, profile: u32) -> Result<Components<'_>, Error> {
        let left = 0..self.said_of(profile)?.components;
        Ok(Components { ior: self, profile, left })
    }

    /// What its first profile of IIOP says, if it has one.
    ///
    /// # Errors
    ///
    /// `Memory`.
    pub fn address(&mut self) -> Result<Option<Address>, Error> {
        self.profiles()
            .find_map(|profile| profile.map(|profile| profile.address).transpose())
            .transpose()
    }

    /// What is said of the profile of an index.
    fn said_of(&mut self, index: u32) -> Result<lr_profile, Error> {
        let mut said = lr_profile::default();
        // SAFETY: it is as large as is said.
        done(unsafe {
            sys::lr_ior_profile(&mut self.slot, index, &mut said, size_of::<lr_profile>())
        })?;
        Ok(said)
    }

    /// The profile of an index.
    fn profile(&mut self, index: u32) -> Result<Profile, Error> {
        let said = self.said_of(index)?;
        let address = if said.is_iiop != 0 { Some(self.address_of(index, &said)?) } else { None };
        Ok(Profile {
            tag: said.tag,
            data: self.part(index, sys::LR_IOR_DATA, said.data_size)?,
            address,
        })
    }

    /// What a profile of IIOP says.
    fn address_of(&mut self, index: u32, said: &lr_profile) -> Result<Address, Error> {
        Ok(Address {
            components: self.components(index)?.collect::<Result<_, _>>()?,
            minor: said.minor,
            host: self.part(index, sys::LR_IOR_HOST, said.host_size)?,
            port: u16::try_from(said.port).map_err(|_| Error::Range)?,
            key: self.part(index, sys::LR_IOR_KEY, said.key_size)?,
        })
    }

    /// A part of a profile.
    fn part(&mut self, index: u32, part: u32, size: u64) -> Result<Vec<u8>, Error> {
        let slot = &mut self.slot;
        // SAFETY: the room is lent.
        copied(error::size(size)?, |room| unsafe {
            sys::lr_ior_part(slot, index, part, room.as_mut_ptr().cast(), room.len())
        })
    }

    /// A tagged component of a profile.
    fn component(&mut self, index: u32, component: u32) -> Result<(u32, Vec<u8>), Error> {
        let mut tag = 0;
        let slot = &mut self.slot;
        // SAFETY: the room is lent.
        let data = copied(64, |room| unsafe {
            sys::lr_ior_component(
                slot,
                index,
                component,
                &mut tag,
                room.as_mut_ptr().cast(),
                room.len(),
            )
        })?;
        Ok((tag, data))
    }
}

/// The profiles of a reference, in order: each, or `Memory`.
#[derive(Debug)]
pub struct Profiles<'i> {
    ior: &'i mut Ior,
    /// Those that come, counted from 0.
    left: Range<u32>,
}

impl Iterator for Profiles<'_> {
    type Item = Result<Profile, Error>;

    fn next(&mut self) -> Option<Self::Item> {
        self.left.next().map(|index| self.ior.profile(index))
    }

    fn size_hint(&self) -> (usize, Option<usize>) {
        self.left.size_hint()
    }
}

impl ExactSizeIterator for Profiles<'_> {}

/// The tagged components of a profile, in order: the tag and the data of each, or `Memory`.
#[derive(Debug)]
pub struct Components<'i> {
    ior: &'i mut Ior,
    profile: u32,
    /// Those that come, counted from 0.
    left: Range<u32>,
}

impl Iterator for Components<'_> {
    type Item = Result<(u32, Vec<u8>), Error>;

    fn next(&mut self) -> Option<Self::Item> {
        self.left.next().map(|index| self.ior.component(self.profile, index))
    }

    fn size_hint(&self) -> (usize, Option<usize>) {
        self.left.size_hint()
    }
}

impl ExactSizeIterator for Components<'_> {}
