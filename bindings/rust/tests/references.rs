//! References (CORBA 3.3 Part 2, 7.6 and 9.7).

use lemonrudder::cdr::{Reader, Writer};
use lemonrudder::{Address, Error, Ior, Order, Version};

const COUNTER: &str = "IOR:000000000000001049444c3a436f756e7465723a312e3000000000010000000000\
    000020000102000000000a3132372e302e302e31000af9000000016300000000000000";

/// One that another ORB wrote, in little order, with two components.
const OTHER: &str =
    "IOR:010000001000000049444c3a436f756e7465723a312e300001000000000000005400000001\
    0102000a0000003132372e302e302e3100f90a01000000630000000200000000000000080000000100000000545441\
    010000001c00000001000000010001000100000001000105090101000100000009010100";

#[test]
fn a_reference_is_printed_and_parsed() -> Result<(), Error> {
    let mut ior = Ior::iiop("IDL:Counter:1.0", Version::V12, "127.0.0.1", 2809, b"c")?;
    assert_eq!(ior.to_text()?, COUNTER);

    let mut again: Ior = COUNTER.parse()?;
    assert_eq!(again.type_id()?, b"IDL:Counter:1.0");
    let address = Address {
        minor: 2,
        host: b"127.0.0.1".to_vec(),
        port: 2809,
        key: b"c".to_vec(),
        components: Vec::new(),
    };
    assert_eq!(again.address()?, Some(address));
    let mut profiles = again.profiles();
    assert_eq!(profiles.len(), 1);
    let profile = profiles.next().expect("it has one")?;
    assert_eq!((profile.tag, profile.data.len()), (0, 32));
    assert!(profiles.len() == 0 && profiles.next().is_none());
    assert_eq!(again.components(0)?.len(), 0);
    assert_eq!(again.components(1).err(), Some(Error::NoPart));
    Ok(())
}

#[test]
fn a_reference_of_another_orb_is_read() -> Result<(), Error> {
    let mut ior: Ior = OTHER.parse()?;
    let address = ior.address()?.expect("it has a profile of IIOP");
    assert_eq!((address.port, &address.key[..]), (2809, &b"c"[..]));
    let tags: Vec<_> = address.components.iter().map(|(tag, data)| (*tag, data.len())).collect();
    assert_eq!(tags, [(0, 8), (1, 28)]);
    let components = ior.components(0)?;
    assert_eq!(components.len(), 2);
    assert_eq!(components.collect::<Result<Vec<_>, _>>()?, address.components);
    Ok(())
}

#[test]
fn a_reference_is_a_value() -> Result<(), Error> {
    for text in [COUNTER, OTHER] {
        let mut ior: Ior = text.parse()?;
        let mut writer = Writer::new(Order::Little);
        ior.write(writer.octet(9)?)?;
        writer.octet(8)?;
        let mut reader = Reader::new(writer.as_octets(), Order::Little);
        assert_eq!(reader.octet()?, 9);
        let mut read = Ior::read(&mut reader)?;
        assert_eq!(read.type_id()?, ior.type_id()?);
        assert!(read.profiles().eq(ior.profiles()));
        assert_eq!(reader.rest(), [8]);
    }
    let mut reader = Reader::new(b"\0\0\0\x01\0\0\0\0\xff\xff\xff\xff", Order::Big);
    assert_eq!(Ior::read(&mut reader).err(), Some(Error::Short));
    assert_eq!(reader.rest().len(), 12);
    Ok(())
}

#[test]
fn a_long_reference_is_printed_whole() -> Result<(), Error> {
    let key = [0xa5; 3000];
    let mut ior = Ior::iiop("IDL:A:1.0", Version::V10, "host", 1, &key)?;
    let text = ior.to_text()?;
    assert!(text.len() > 6000);
    let address = text.parse::<Ior>()?.address()?.expect("it has a profile of IIOP");
    assert_eq!((address.minor, address.key), (0, key.to_vec()));
    Ok(())
}

#[test]
fn the_nil_reference_has_no_profiles() -> Result<(), Error> {
    let mut nil: Ior = "IOR:00000000000000010000000000000000".parse()?;
    assert_eq!((nil.type_id()?, nil.profiles().len(), nil.address()?), (vec![], 0, None));
    Ok(())
}

#[test]
fn what_is_no_reference_is_refused() {
    for text in ["", "IOR:", "IOR:0", "IOR:zz", "corbaloc:rir:/key", &COUNTER[..50]] {
        assert_eq!(text.parse::<Ior>().err(), Some(Error::Reference), "{text}");
    }
    let ior = Ior::iiop("IDL:A\0", Version::V12, "host", 1, b"");
    assert_eq!(ior.err(), Some(Error::Text));
    let ior = Ior::iiop("IDL:A:1.0", Version::V12, "ho\0st", 1, b"");
    assert_eq!(ior.err(), Some(Error::Text));
}
