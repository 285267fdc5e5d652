//! References that lead to a relay.

use lemonrudder::cdr::Writer;
use lemonrudder::{Address, Error, Ior, Order, Profile};
use std::fmt::Write;
use std::fs;
use std::path::Path;

/// The tag of a profile of IIOP (CORBA 3.3 Part 2, 7.6.2).
const TAG_INTERNET_IOP: u32 = 0;
/// The tags of the components that stay, since they speak of the object (7.6.6): the ORB's type, and
/// the code sets of the object's server.
const STAY: [u32; 2] = [0, 1];
/// The tag of a component that says where the object is found over TLS (SSLIOP of the Security
/// Service), and what that has to say: what the target supports and requires, and its port.
const TAG_SSL_SEC_TRANS: u32 = 20;
/// Of these Integrity, Confidentiality, DetectReplay, DetectMisordering, EstablishTrustInTarget and
/// EstablishTrustInClient, of which a client has to take the first two.
const SUPPORTS: u16 = 2 | 4 | 8 | 16 | 32 | 64;
const REQUIRES: u16 = 2 | 4;

/// The reference that leads to the same object by another address: each profile of IIOP has that in
/// place of its own, and profiles that are no longer different are one. Components that lead
/// elsewhere, as TAG_ALTERNATE_IIOP_ADDRESS and TAG_SSL_SEC_TRANS, are left out, and so are the
/// profiles of other protocols. Over TLS the port stands in a TAG_SSL_SEC_TRANS, and the profile has
/// none, which is 0.
///
/// # Errors
///
/// Says why not: the text is no reference, or none of IIOP, or for TLS one of IIOP 1.0, which has no
/// components.
pub fn at(reference: &str, host: &str, port: u16, is_tls: bool) -> Result<String, String> {
    let mut ior: Ior = reference.trim().parse().map_err(|_| "this is no reference")?;
    let type_id = ior.type_id().map_err(|error| error.to_string())?;
    let mut profiles: Vec<Vec<u8>> = Vec::new();
    for profile in ior.profiles() {
        if let Profile { address: Some(address), .. } =
            profile.map_err(|error| error.to_string())?
        {
            if is_tls && address.minor == 0 {
                continue;
            }
            let made = profile_of(&address, host, port, is_tls);
            let made = made.map_err(|error| error.to_string())?;
            if !profiles.contains(&made) {
                profiles.push(made);
            }
        }
    }
    if profiles.is_empty() {
        return Err("this reference has no profile of IIOP".into());
    }
    written(&type_id, &profiles).map_err(|error| error.to_string())
}

/// The host and the port that the reference in a file says.
///
/// # Errors
///
/// Says why not: it can't be read, or has no reference, or none of IIOP.
pub fn place_in(file: &Path) -> Result<(String, u16), String> {
    let text = fs::read_to_string(file).map_err(|error| error.to_string())?;
    let mut ior: Ior = text.trim().parse().map_err(|_| "it has no reference")?;
    let address = ior.address().map_err(|error| error.to_string())?;
    let address = address.ok_or("its reference has no profile of IIOP")?;
    Ok((String::from_utf8_lossy(&address.host).into_owned(), port_of(&address)))
}

/// The port at which an object is found: over TLS, where the address has no other.
pub fn port_of(address: &Address) -> u16 {
    match address.port {
        0 => secured(address).unwrap_or(0),
        port => port,
    }
}

/// The port at which an object is found over TLS, if it is.
fn secured(address: &Address) -> Option<u16> {
    let (_, data) = address.components.iter().find(|(tag, _)| *tag == TAG_SSL_SEC_TRANS)?;
    let order = if *data.first()? == 0 { u16::from_be_bytes } else { u16::from_le_bytes };
    Some(order(data.get(6..8)?.try_into().ok()?))
}

/// The component that says that an object is found over TLS at a port.
fn ssl(port: u16) -> Result<Vec<u8>, Error> {
    let mut out = Writer::encapsulation(Order::Big);
    out.ushort(SUPPORTS)?.ushort(REQUIRES)?.ushort(port)?;
    Ok(out.into_octets())
}

/// A profile of the same key and version at this address (9.7.2).
fn profile_of(address: &Address, host: &str, port: u16, is_tls: bool) -> Result<Vec<u8>, Error> {
    let mut out = Writer::encapsulation(Order::Big);
    out.octet(1)?.octet(u8::try_from(address.minor).map_err(|_| Error::Range)?)?;
    out.string(host)?.ushort(if is_tls { 0 } else { port })?.octets(&address.key)?;
    if address.minor > 0 {
        let stay = address.components.iter().filter(|(tag, _)| STAY.contains(tag)).cloned();
        let added = if is_tls { Some((TAG_SSL_SEC_TRANS, ssl(port)?)) } else { None };
        let all: Vec<_> = stay.chain(added).collect();
        out.ulong(u32::try_from(all.len()).map_err(|_| Error::Range)?)?;
        for (tag, data) in &all {
            out.ulong(*tag)?.octets(data)?;
        }
    }
    Ok(out.into_octets())
}

/// A reference of profiles of IIOP, as text (7.6.9).
fn written(type_id: &[u8], profiles: &[Vec<u8>]) -> Result<String, Error> {
    let mut out = Writer::encapsulation(Order::Big);
    out.string(type_id)?.ulong(u32::try_from(profiles.len()).map_err(|_| Error::Range)?)?;
    for profile in profiles {
        out.ulong(TAG_INTERNET_IOP)?.octets(profile)?;
    }
    let mut text = String::from("IOR:");
    for octet in out.as_octets() {
        let _ = write!(text, "{octet:02x}");
    }
    Ok(text)
}

#[cfg(test)]
mod tests {
    use super::*;
    use lemonrudder::Version;

    const CODE_SETS: (u32, &[u8]) = (1, b"\0\0\0\0\x05\x01\0\x01\0\0\0\0");
    const ORB_TYPE: (u32, &[u8]) = (0, b"\0\0\0\0ATT\0");
    const ALTERNATE: (u32, &[u8]) = (3, b"\0\0\0\0\0\0\0\x02a\0\0\x50");
    const SSL: (u32, &[u8]) = (20, b"\0\0\0\0\0\x06\0\x06\x11\x94");

    /// An address with these components.
    fn address(minor: u32, host: &str, components: &[(u32, &[u8])]) -> Address {
        let components = components.iter().map(|(tag, data)| (*tag, data.to_vec())).collect();
        Address { minor, host: host.into(), port: 2810, key: b"key\0\xff".to_vec(), components }
    }

    /// A profile with all of its components.
    fn whole(address: &Address) -> Vec<u8> {
        let mut out = Writer::encapsulation(Order::Little);
        out.octet(1).unwrap().octet(u8::try_from(address.minor).unwrap()).unwrap();
        out.string(&address.host)
            .unwrap()
            .ushort(address.port)
            .unwrap()
            .octets(&address.key)
            .unwrap();
        if address.minor > 0 {
            out.ulong(u32::try_from(address.components.len()).unwrap()).unwrap();
            for (tag, data) in &address.components {
                out.ulong(*tag).unwrap().octets(data).unwrap();
            }
        }
        out.into_octets()
    }

    /// The profiles of what is made of some.
    fn made(profiles: &[Vec<u8>], host: &str, port: u16) -> Vec<Address> {
        let text = at(&written(b"IDL:Bank:1.0", profiles).unwrap(), host, port, false).unwrap();
        let mut ior: Ior = text.parse().unwrap();
        assert_eq!(ior.type_id().unwrap(), b"IDL:Bank:1.0");
        ior.profiles().map(|profile| profile.unwrap().address.unwrap()).collect()
    }

    #[test]
    fn components_stay_that_speak_of_the_object() {
        for (given, stay) in [
            (&[][..], &[][..]),
            (&[CODE_SETS], &[CODE_SETS]),
            (&[ORB_TYPE, CODE_SETS], &[ORB_TYPE, CODE_SETS]),
            (&[ALTERNATE], &[]),
            (&[SSL, CODE_SETS, ALTERNATE, ALTERNATE, ORB_TYPE], &[CODE_SETS, ORB_TYPE]),
        ] {
            for minor in [1, 2] {
                let found = made(&[whole(&address(minor, "10.0.0.5", given))], "relay", 2809);
                let wanted = Address { port: 2809, ..address(minor, "relay", stay) };
                assert_eq!(found, [wanted], "{given:?}");
            }
        }
    }

    #[test]
    fn each_profile_leads_there_once() {
        let profiles = ["a", "b"].map(|host| whole(&address(2, host, &[CODE_SETS])));
        assert_eq!(made(&profiles, "relay", 2809).len(), 1);
        let profiles = [0, 1, 2].map(|minor| whole(&address(minor, "a", &[])));
        let minors: Vec<u32> = made(&profiles, "::1", 9).iter().map(|it| it.minor).collect();
        assert_eq!(minors, [0, 1, 2]);
    }

    #[test]
    fn what_is_no_reference_is_refused() {
        let nil = "IOR:000000000000000100000000000000000";
        for text in ["", "IOR:", "IOR:0", "corbaloc:rir:/b", &nil[..36]] {
            assert!(at(text, "a", 1, false).is_err(), "{text}");
        }
        let one = Ior::iiop("IDL:Bank:1.0", Version::V12, "a", 1, b"k").unwrap().to_text().unwrap();
        assert!(at(&format!("{one}\n"), "b", 2, false).is_ok());
        assert!(at("corbaloc::a/b", "b", 2, false).is_ok());
    }

    #[test]
    fn over_tls_the_port_stands_in_a_component() {
        let given = [whole(&address(0, "a", &[])), whole(&address(2, "a", &[CODE_SETS, SSL]))];
        let text = at(&written(b"IDL:Bank:1.0", &given).unwrap(), "relay", 4502, true).unwrap();
        let file = std::env::temp_dir().join(format!("lemonrudder-{}-ssl", std::process::id()));
        fs::write(&file, &text).unwrap();
        assert_eq!(place_in(&file), Ok(("relay".to_owned(), 4502)));
        fs::remove_file(file).unwrap();
        let mut ior: Ior = text.parse().unwrap();
        let profiles: Vec<_> = ior.profiles().collect();
        assert_eq!(profiles.len(), 1);
        let found = profiles[0].as_ref().unwrap().address.as_ref().unwrap();
        let ssl: &[u8] = b"\0\0\0\x7e\0\x06\x11\x96";
        assert_eq!((found.port, &found.components[1]), (0, &(20, ssl.to_vec())));
        let old = written(b"IDL:Bank:1.0", &given[..1]).unwrap();
        assert!(at(&old, "relay", 4502, true).is_err());
    }
}
