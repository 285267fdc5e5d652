//! Where objects are asked for.

use super::{Reference, String, Vec};
use crate::cdr::Reader;
use crate::{Error, Order, Version};

/// The tag of a profile of IIOP, and that of its component with another address (CORBA 3.3 Part 2,
/// 9.7.2 and 9.7.3).
const INTERNET_IOP: u32 = 0;
const ALTERNATE_IIOP_ADDRESS: u32 = 3;

/// Addresses in order, of servers that share their outcomes, and the key of an object there.
#[derive(Clone, Debug, PartialEq, Eq)]
pub(super) struct Road {
    /// Hosts and ports, one at least.
    pub(super) addresses: Vec<(String, u16)>,
    /// The one that is asked.
    pub(super) next: usize,
    /// The version of GIOP that all have.
    pub(super) version: Version,
    /// The key.
    pub(super) key: Vec<u8>,
}

impl Road {
    /// That to an address.
    pub(super) fn to(host: String, port: u16) -> Road {
        let addresses = [(host, port)].into();
        Road { addresses, next: 0, version: Version::V12, key: Vec::new() }
    }

    /// That to all addresses of a reference under the key of the first one, if it has one. A profile
    /// or a component that can't be read says nothing.
    pub(super) fn of(reference: &Reference) -> Option<Road> {
        let mut found = Vec::new();
        for (_, data) in reference.profiles.iter().filter(|(tag, _)| *tag == INTERNET_IOP) {
            // (of one that ends early, what was read counts)
            let _ = read_profile(data, &mut found);
        }
        found.retain(|one| one.port != 0);
        let key = found.first()?.key.clone();
        found.retain(|one| one.key == key);
        let minor = found.iter().map(|one| one.minor).min()?;
        let version = Version::from_number(minor.into()).unwrap_or(Version::V12);
        let addresses = found.into_iter().map(|one| (one.host, one.port)).collect();
        Some(Road { addresses, next: 0, version, key })
    }
}

/// An address of a profile, whose minor version and key it has.
struct Address {
    host: String,
    port: u16,
    minor: u8,
    key: Vec<u8>,
}

/// Reads octets that are an encapsulation.
fn encapsulated(octets: &[u8]) -> Result<Reader<'_>, Error> {
    let (order, rest) = octets.split_first().ok_or(Error::Short)?;
    let order = Order::from_number((*order).into()).ok_or(Error::Value)?;
    Ok(Reader::at(rest, order, 1))
}

/// Reads a host and a port.
fn read_address(reader: &mut Reader<'_>) -> Result<(String, u16), Error> {
    let host = String::from_utf8(reader.string()?.into()).map_err(|_| Error::Value)?;
    Ok((host, reader.ushort()?))
}

/// Reads the addresses of a profile.
fn read_profile(data: &[u8], found: &mut Vec<Address>) -> Result<(), Error> {
    let mut reader = encapsulated(data)?;
    let (major, minor) = (reader.octet()?, reader.octet()?);
    if major != 1 {
        return Err(Error::Value);
    }
    let (host, port) = read_address(&mut reader)?;
    let key: Vec<u8> = reader.octets()?.into();
    found.push(Address { host, port, minor, key: key.clone() });
    let count = if minor == 0 { 0 } else { reader.ulong()? };
    for _ in 0..count {
        let (tag, octets) = (reader.ulong()?, reader.octets()?);
        let read = encapsulated(octets).and_then(|mut reader| read_address(&mut reader));
        if let (ALTERNATE_IIOP_ADDRESS, Ok((host, port))) = (tag, read) {
            found.push(Address { host, port, minor, key: key.clone() });
        }
    }
    Ok(())
}

#[cfg(test)]
mod tests {
    use super::*;
    use crate::cdr::Writer;
    use alloc::format;

    /// A profile of IIOP 1.minor, with components of other addresses.
    fn profile(minor: u8, port: u16, key: &str, others: &[u16]) -> (u32, Vec<u8>) {
        let mut writer = Writer::encapsulation(Order::Little);
        writer.octet(1).unwrap().octet(minor).unwrap().string("h").unwrap();
        writer.ushort(port).unwrap().octets(key).unwrap();
        writer.ulong(u32::try_from(others.len() + 2).unwrap()).unwrap();
        writer.ulong(ALTERNATE_IIOP_ADDRESS).unwrap().octets([0, 0, 0, 0, 0]).unwrap();
        for port in others {
            let mut component = Writer::encapsulation(Order::Big);
            component.string(format!("h{port}")).unwrap().ushort(*port).unwrap();
            writer.ulong(ALTERNATE_IIOP_ADDRESS).unwrap().octets(component.into_octets()).unwrap();
        }
        writer.ulong(1).unwrap().octets([0]).unwrap();
        (INTERNET_IOP, writer.into_octets())
    }

    fn road(profiles: Vec<(u32, Vec<u8>)>) -> Option<Road> {
        Road::of(&Reference { type_id: String::new(), profiles })
    }

    #[test]
    fn all_addresses_of_the_first_key_are_found_in_order() {
        let mut other = profile(2, 9, "k", &[]);
        other.0 = 1;
        let profiles = [
            other,
            (INTERNET_IOP, [0, 1].into()),
            profile(2, 0, "none", &[]),
            profile(2, 1, "k", &[2, 0, 3]),
            profile(0, 4, "other", &[]),
            profile(1, 5, "k", &[6]),
        ];
        let found = road(profiles.into()).unwrap();
        let ports: Vec<u16> = found.addresses.iter().map(|(_, port)| *port).collect();
        assert_eq!((ports, found.version), ([1, 2, 3, 5, 6].into(), Version::V11));
        assert_eq!((found.addresses[1].0.as_str(), &found.key[..]), ("h2", &b"k"[..]));
    }

    #[test]
    fn a_reference_may_have_no_address() {
        assert_eq!(road(Vec::new()), None);
        assert_eq!(road([profile(2, 0, "k", &[])].into()), None);
        assert_eq!(road([(INTERNET_IOP, Vec::new())].into()), None);
    }
}
