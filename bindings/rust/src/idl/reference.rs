//! References to objects as values.

use super::codec::{Codec, Octets, Sequence, Text, Typed, ULong};
use super::{String, Vec};
use crate::cdr::{Reader, Writer};
use crate::{Error, Ior, Order, Type};
use core::str::FromStr;

/// A reference to an object, of any interface. That without profiles is nil.
#[derive(Clone, Debug, Default, PartialEq, Eq, Hash)]
pub struct Reference {
    /// The repository id of its type.
    pub type_id: String,
    /// The tag and the data of each profile; 0 is the tag of IIOP.
    pub profiles: Vec<(u32, Vec<u8>)>,
}

impl Reference {
    /// Whether it leads to no object.
    #[must_use]
    pub fn is_nil(&self) -> bool {
        self.profiles.is_empty()
    }

    /// The same as an [`Ior`], which says what its profiles have.
    ///
    /// # Errors
    ///
    /// As of [`Codec::write`], and `Memory`.
    pub fn ior(&self) -> Result<Ior, Error> {
        let mut writer = Writer::new(Order::NATIVE);
        Reference::write(&mut writer, self)?;
        Ior::read(&mut Reader::new(writer.as_octets(), writer.order()))
    }

    /// The stringified reference.
    ///
    /// # Errors
    ///
    /// As of [`Reference::ior`].
    pub fn to_text(&self) -> Result<String, Error> {
        self.ior()?.to_text()
    }
}

/// `Memory`, where there is none.
impl TryFrom<&mut Ior> for Reference {
    type Error = Error;

    fn try_from(ior: &mut Ior) -> Result<Reference, Error> {
        let type_id = ior.type_id()?.iter().copied().map(char::from).collect();
        let profiles = ior.profiles().map(|one| one.map(|one| (one.tag, one.data)));
        Ok(Reference { type_id, profiles: profiles.collect::<Result<_, _>>()? })
    }
}

/// Reads a stringified reference; `Reference` where it is none.
impl FromStr for Reference {
    type Err = Error;

    fn from_str(text: &str) -> Result<Reference, Error> {
        Reference::try_from(&mut text.parse::<Ior>()?)
    }
}

/// A profile: its tag and its data.
#[derive(Debug)]
enum Profile {}

impl Codec for Profile {
    type Value = (u32, Vec<u8>);
    type Lent = (u32, Vec<u8>);

    fn read(reader: &mut Reader<'_>) -> Result<(u32, Vec<u8>), Error> {
        Ok((ULong::read(reader)?, <Octets>::read(reader)?))
    }

    fn write(writer: &mut Writer, (tag, data): &(u32, Vec<u8>)) -> Result<(), Error> {
        ULong::write(writer, tag)?;
        <Octets>::write(writer, data)
    }
}

impl Codec for Reference {
    type Value = Reference;
    type Lent = Reference;

    fn read(reader: &mut Reader<'_>) -> Result<Reference, Error> {
        let (type_id, profiles) = (<Text>::read(reader)?, <Sequence<Profile>>::read(reader)?);
        Ok(Reference { type_id, profiles })
    }

    fn write(writer: &mut Writer, value: &Reference) -> Result<(), Error> {
        <Text>::write(writer, &value.type_id)?;
        <Sequence<Profile>>::write(writer, &value.profiles)
    }
}

impl Typed for Reference {
    const TYPE: Type<'static> =
        Type::Struct(&[Type::String, Type::Sequence(&Type::Struct(&[Type::ULong, Type::Octets]))]);
}

#[cfg(test)]
mod tests {
    use super::*;
    use crate::Version;

    #[test]
    fn a_reference_is_printed_and_read_again() {
        let mut ior = Ior::iiop("IDL:Bank:1.0", Version::V12, "127.0.0.1", 2809, b"bank").unwrap();
        let reference = Reference::try_from(&mut ior).unwrap();
        assert_eq!((reference.type_id.as_str(), reference.is_nil()), ("IDL:Bank:1.0", false));
        assert_eq!(reference.to_text().unwrap().parse(), Ok(reference.clone()));
        assert_eq!(reference.ior().unwrap().address().unwrap().unwrap().key, b"bank");
    }

    #[test]
    fn nil_has_no_profiles() {
        assert!(Reference::default().is_nil());
        let nil: Reference = Reference::default().to_text().unwrap().parse().unwrap();
        assert_eq!(nil, Reference::default());
        assert_eq!("IOR:0".parse::<Reference>(), Err(Error::Reference));
    }
}
