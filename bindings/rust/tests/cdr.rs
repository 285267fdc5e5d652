//! Values, compared with octets that were written out by hand (CORBA 3.3 Part 2, 9.3).

use lemonrudder::cdr::{Reader, Writer};
use lemonrudder::{Error, Order};

/// Each type once, aligned: an octet first, so that padding is needed.
fn write_all(order: Order) -> Result<Writer, Error> {
    let mut writer = Writer::new(order);
    writer.octet(0xab)?.short(-2)?.boolean(true)?.long(-3)?.char(b'x')?.longlong(-4)?;
    writer.octet(1)?.ushort(0xfffe)?.octet(2)?.ulong(0xffff_fffd)?.octet(3)?;
    writer.ulonglong(0xffff_ffff_ffff_fffc)?.string("ab")?.octets([1, 2, 3])?.boolean(false)?;
    Ok(writer)
}

const BIG: &[u8] =
    b"\xab\0\xff\xfe\x01\0\0\0\xff\xff\xff\xfdx\0\0\0\xff\xff\xff\xff\xff\xff\xff\xfc\
    \x01\0\xff\xfe\x02\0\0\0\xff\xff\xff\xfd\x03\0\0\0\xff\xff\xff\xff\xff\xff\xff\xfc\
    \0\0\0\x03ab\0\0\0\0\0\x03\x01\x02\x03\0";

const LITTLE: &[u8] =
    b"\xab\0\xfe\xff\x01\0\0\0\xfd\xff\xff\xffx\0\0\0\xfc\xff\xff\xff\xff\xff\xff\xff\
    \x01\0\xfe\xff\x02\0\0\0\xfd\xff\xff\xff\x03\0\0\0\xfc\xff\xff\xff\xff\xff\xff\xff\
    \x03\0\0\0ab\0\0\x03\0\0\0\x01\x02\x03\0";

#[test]
fn values_are_written_and_read() -> Result<(), Error> {
    for (order, octets) in [(Order::Big, BIG), (Order::Little, LITTLE)] {
        let writer = write_all(order)?;
        assert_eq!(writer.as_octets(), octets);
        assert_eq!(writer.order(), order);

        let mut reader = Reader::new(octets, order);
        assert_eq!((reader.octet()?, reader.short()?, reader.boolean()?), (0xab, -2, true));
        assert_eq!((reader.long()?, reader.char()?, reader.longlong()?), (-3, b'x', -4));
        assert_eq!((reader.octet()?, reader.ushort()?), (1, 0xfffe));
        assert_eq!((reader.octet()?, reader.ulong()?), (2, 0xffff_fffd));
        assert_eq!((reader.octet()?, reader.ulonglong()?), (3, 0xffff_ffff_ffff_fffc));
        assert_eq!((reader.string()?, reader.octets()?), (&b"ab"[..], &[1, 2, 3][..]));
        assert_eq!((reader.rest(), reader.boolean()?), (&[0][..], false));
        assert_eq!(reader.rest(), b"");
        assert_eq!(reader.octet(), Err(Error::Short));
    }
    Ok(())
}

#[test]
fn floats_are_by_their_octets() -> Result<(), Error> {
    const SOME: &[u8] = b"\x07\0\0\0\xc2\xed\x40\0\x3f\xf8\0\0\0\0\0\0\x7f\xf8\0\0\0\0\0\x07";
    let none = f64::from_bits(0x7ff8_0000_0000_0007);
    let mut writer = Writer::new(Order::Big);
    writer.octet(7)?.float(-118.625)?.double(1.5)?.double(none)?;
    assert_eq!(writer.as_octets(), SOME);

    let mut reader = Reader::new(SOME, Order::Big);
    let bits = (reader.octet()?, reader.float()?.to_bits(), reader.double()?.to_bits());
    assert_eq!(bits, (7, 0xc2ed_4000, 0x3ff8_0000_0000_0000));
    assert_eq!(reader.double()?.to_bits(), none.to_bits());
    assert_eq!((reader.float(), reader.double()), (Err(Error::Short), Err(Error::Short)));
    Ok(())
}

#[test]
fn a_read_that_fails_moves_nothing() -> Result<(), Error> {
    let mut reader = Reader::new(b"\x02\0\0", Order::Big);
    assert_eq!(reader.boolean(), Err(Error::Value));
    assert_eq!(reader.long(), Err(Error::Short));
    assert_eq!(reader.rest(), b"\x02\0\0");

    // no NUL at the end, a NUL inside, and one that is no UTF-8
    let mut reader = Reader::new(b"\0\0\0\x02ab", Order::Big);
    assert_eq!(reader.string(), Err(Error::Value));
    assert_eq!(reader.rest().len(), 6);
    assert_eq!(Reader::new(b"\0\0\0\x03a\0\0", Order::Big).string(), Err(Error::Value));
    let mut reader = Reader::new(b"\0\0\0\x02\xff\0", Order::Big);
    assert_eq!(reader.text(), Err(Error::Value));
    assert_eq!(reader.string()?, b"\xff");

    // a length that is not there
    assert_eq!(Reader::new(b"\xff\xff\xff\xffab", Order::Big).octets(), Err(Error::Short));
    assert_eq!(Reader::new(b"\xff\xff\xff\xffab", Order::Big).string(), Err(Error::Short));
    assert_eq!(Reader::new(b"", Order::Big).encapsulation().err(), Some(Error::Short));
    Ok(())
}

#[test]
fn numbers_are_aligned_from_the_place() -> Result<(), Error> {
    let mut reader = Reader::at(b"\xee\0\0\0\x05", Order::Big, 7);
    assert_eq!(reader.long()?, 5);
    let mut reader = Reader::at(b"\0\0\0\x05", Order::Big, 8);
    assert_eq!(reader.long()?, 5);
    // no message is so long
    for place in [1 << 32, u64::MAX] {
        let mut reader = Reader::at(b"\0\0\0\x05", Order::Big, place);
        assert_eq!((reader.long(), reader.octet()), (Err(Error::Range), Err(Error::Range)));
    }
    Ok(())
}

#[test]
fn a_write_that_fails_writes_nothing() -> Result<(), Error> {
    let mut writer = Writer::new(Order::Big);
    assert_eq!(writer.octet(1)?.string("a\0b").err(), Some(Error::Text));
    assert_eq!(writer.as_octets(), [1]);
    assert_eq!(writer.octet(2)?.as_octets(), [1, 2]);
    assert_eq!(writer.into_octets(), [1, 2]);
    Ok(())
}

#[test]
fn an_encapsulation_has_an_order_of_its_own() -> Result<(), Error> {
    let mut inner = Writer::encapsulation(Order::Little);
    inner.long(7)?;
    let mut outer = Writer::new(Order::Big);
    outer.octet(9)?.octets(inner.as_octets())?.octet(8)?;
    assert_eq!(outer.as_octets(), b"\x09\0\0\0\0\0\0\x08\x01\0\0\0\x07\0\0\0\x08");

    let mut reader = Reader::new(outer.as_octets(), Order::Big);
    assert_eq!(reader.octet()?, 9);
    let mut within = reader.encapsulation()?;
    assert_eq!((within.order(), within.long()?, within.rest()), (Order::Little, 7, &[][..]));
    assert_eq!(within.octet(), Err(Error::Short));
    assert_eq!(reader.octet()?, 8);
    Ok(())
}

#[test]
fn more_is_written_after_what_was() -> Result<(), Error> {
    let mut writer = Writer::of(Order::Big, vec![1]);
    assert_eq!(writer.long(2)?.as_octets(), [1, 0, 0, 0, 0, 0, 0, 2]);
    Ok(())
}
