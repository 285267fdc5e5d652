//! Codecs of types: what reads and writes their values.

use super::{String, Vec};
use crate::cdr::{Reader, Writer};
use crate::{Error, Type};
use alloc::format;
use core::borrow::Borrow;
use core::fmt;
use core::marker::PhantomData;
use core::mem::size_of;

/// What reads and writes values of a type of IDL. A struct, union, enum or exception is its own.
pub trait Codec {
    /// The values.
    type Value: Borrow<Self::Lent>;
    /// What is lent of a value where it is written: a `str` of a `String`, a slice of a `Vec`.
    type Lent: ?Sized;

    /// Reads a value.
    ///
    /// # Errors
    ///
    /// `Short` and `Value`: the octets are none of the type, or pass a bound or
    /// [the limit of the reader](Reader::limit).
    fn read(reader: &mut Reader<'_>) -> Result<Self::Value, Error>;

    /// Writes a value.
    ///
    /// # Errors
    ///
    /// `Range`: it passes a bound, a char or string has characters beyond ISO 8859-1, a union another
    /// member than its discriminator selects, or more is written than a message can have; `Text`: a
    /// string has a NUL; `Long`.
    fn write(writer: &mut Writer, value: &Self::Lent) -> Result<(), Error>;
}

/// A type that [`Type`] has.
pub trait Typed {
    /// The same as a [`Type`].
    const TYPE: Type<'static>;
}

/// Reads a value of the type of a codec.
///
/// # Errors
///
/// As of [`Codec::read`].
pub fn read<C: Codec>(reader: &mut Reader<'_>) -> Result<C::Value, Error> {
    C::read(reader)
}

/// Writes a value of the type of a codec.
///
/// # Errors
///
/// As of [`Codec::write`].
pub fn write<C: Codec>(writer: &mut Writer, value: &C::Lent) -> Result<(), Error> {
    C::write(writer, value)
}

/// Writes a member, which [`Writer::why`] names where it is refused.
///
/// # Errors
///
/// As of [`Codec::write`].
pub fn write_in<C: Codec>(writer: &mut Writer, name: &str, value: &C::Lent) -> Result<(), Error> {
    C::write(writer, value).map_err(|error| writer.within(name, error))
}

/// Writes an argument of an operation.
///
/// # Errors
///
/// As of [`Codec::write`], and which argument it is.
pub fn argument<C: Codec>(
    writer: &mut Writer,
    operation: &str,
    name: &str,
    value: &C::Lent,
) -> Result<(), Refused> {
    write_in::<C>(writer, name, value)
        .map_err(|error| Refused { error, why: format!("{operation}: {}", writer.why()) })
}

/// An argument that is none of its type.
#[derive(Clone, Debug, PartialEq, Eq)]
pub struct Refused {
    /// `Range`, `Text` or `Long`.
    pub error: Error,
    /// Which argument it is, and what it passes, in a line.
    pub why: String,
}

impl fmt::Display for Refused {
    fn fmt(&self, out: &mut fmt::Formatter<'_>) -> fmt::Result {
        out.write_str(&self.why)
    }
}

impl core::error::Error for Refused {}

/// Notes that a value of so many passes its bound.
fn over(writer: &mut Writer, kind: &str, size: usize, bound: usize) -> Error {
    writer.refuse(Error::Range, format!("a {kind} of {size}, and the bound is {bound}"))
}

/// Writes the members of a sequence or an array.
fn write_members<C: Codec>(writer: &mut Writer, values: &[C::Value]) -> Result<(), Error> {
    for (index, value) in values.iter().enumerate() {
        C::write(writer, value.borrow())
            .map_err(|error| writer.within(format_args!("[{index}]"), error))?;
    }
    Ok(())
}

macro_rules! basics {
    ($($(#[$doc:meta])* $name:ident: $value:ty = $call:ident;)*) => {$(
        $(#[$doc])*
        #[derive(Debug)]
        pub enum $name {}

        impl Codec for $name {
            type Value = $value;
            type Lent = $value;

            fn read(reader: &mut Reader<'_>) -> Result<$value, Error> {
                reader.$call()
            }

            fn write(writer: &mut Writer, value: &$value) -> Result<(), Error> {
                writer.$call(*value).map(drop)
            }
        }
    )*};
}

basics! {
    /// `boolean`
    Boolean: bool = boolean;
    /// `octet`
    Octet: u8 = octet;
    /// `short`
    Short: i16 = short;
    /// `unsigned short`
    UShort: u16 = ushort;
    /// `long`
    Long: i32 = long;
    /// `unsigned long`
    ULong: u32 = ulong;
    /// `long long`
    LongLong: i64 = longlong;
    /// `unsigned long long`
    ULongLong: u64 = ulonglong;
    /// `float`
    Float: f32 = float;
    /// `double`
    Double: f64 = double;
}

/// The octet of a character of ISO 8859-1.
fn octet_of(character: char) -> Result<u8, Error> {
    u8::try_from(character).map_err(|_| Error::Range)
}

/// Whether a size is within a bound, which is 0 where there is none.
fn is_within(size: usize, bound: usize) -> bool {
    bound == 0 || size <= bound
}

/// `char`: a character of ISO 8859-1.
#[derive(Debug)]
pub enum Char {}

impl Codec for Char {
    type Value = char;
    type Lent = char;

    fn read(reader: &mut Reader<'_>) -> Result<char, Error> {
        reader.char().map(char::from)
    }

    fn write(writer: &mut Writer, value: &char) -> Result<(), Error> {
        match octet_of(*value) {
            Ok(octet) => writer.char(octet).map(drop),
            Err(error) => {
                Err(writer
                    .refuse(error, format!("{value:?} is no char: one character of ISO 8859-1")))
            }
        }
    }
}

/// `string` of ISO 8859-1, of at most so many characters; 0: without a bound.
#[derive(Debug)]
pub enum Text<const BOUND: usize = 0> {}

impl<const BOUND: usize> Codec for Text<BOUND> {
    type Value = String;
    type Lent = str;

    fn read(reader: &mut Reader<'_>) -> Result<String, Error> {
        let octets = reader.string()?;
        if !is_within(octets.len(), BOUND) {
            return Err(Error::Value);
        }
        let wide = octets.iter().filter(|octet| !octet.is_ascii()).count();
        reader.claim(octets.len() + wide)?;
        Ok(octets.iter().copied().map(char::from).collect())
    }

    fn write(writer: &mut Writer, value: &str) -> Result<(), Error> {
        let octets = value.chars().map(octet_of).collect::<Result<Vec<u8>, Error>>();
        let octets = octets.map_err(|error| {
            writer.refuse(error, format!("{value:?} has characters beyond ISO 8859-1"))
        })?;
        if !is_within(octets.len(), BOUND) {
            return Err(over(writer, "string", octets.len(), BOUND));
        }
        match writer.string(octets) {
            Err(Error::Text) => {
                Err(writer.refuse(Error::Text, format!("a NUL in the string {value:?}")))
            }
            written => written.map(drop),
        }
    }
}

/// `sequence<octet>` of at most so many; 0: without a bound.
#[derive(Debug)]
pub enum Octets<const BOUND: usize = 0> {}

impl<const BOUND: usize> Codec for Octets<BOUND> {
    type Value = Vec<u8>;
    type Lent = [u8];

    fn read(reader: &mut Reader<'_>) -> Result<Vec<u8>, Error> {
        let octets = reader.octets()?;
        if !is_within(octets.len(), BOUND) {
            return Err(Error::Value);
        }
        reader.claim(octets.len())?;
        Ok(octets.to_vec())
    }

    fn write(writer: &mut Writer, value: &[u8]) -> Result<(), Error> {
        if !is_within(value.len(), BOUND) {
            return Err(over(writer, "sequence", value.len(), BOUND));
        }
        writer.octets(value).map(drop)
    }
}

/// How deep sequences may stand in sequences.
const DEPTH: u8 = 64;

/// A sequence of at most so many members; 0: without a bound. Of sequences in sequences there are at
/// most 64.
#[derive(Debug)]
pub struct Sequence<C, const BOUND: usize = 0>(PhantomData<C>);

impl<C: Codec, const BOUND: usize> Codec for Sequence<C, BOUND> {
    type Value = Vec<C::Value>;
    type Lent = [C::Value];

    fn read(reader: &mut Reader<'_>) -> Result<Vec<C::Value>, Error> {
        let count = usize::try_from(reader.ulong()?).map_err(|_| Error::Short)?;
        // (each member takes an octet at least)
        if count > reader.rest().len() {
            return Err(Error::Short);
        }
        if !is_within(count, BOUND) || reader.depth == DEPTH {
            return Err(Error::Value);
        }
        reader.depth += 1;
        let values = (0..count).map(|_| {
            reader.claim(size_of::<C::Value>())?;
            C::read(reader)
        });
        let values = values.collect();
        reader.depth -= 1;
        values
    }

    fn write(writer: &mut Writer, values: &[C::Value]) -> Result<(), Error> {
        if !is_within(values.len(), BOUND) {
            return Err(over(writer, "sequence", values.len(), BOUND));
        }
        if writer.depth == DEPTH {
            return Err(writer.refuse(Error::Range, format!("sequences more than {DEPTH} deep")));
        }
        writer.ulong(u32::try_from(values.len()).map_err(|_| Error::Long)?)?;
        writer.depth += 1;
        let written = write_members::<C>(writer, values);
        writer.depth -= 1;
        written
    }
}

/// An array of so many members.
#[derive(Debug)]
pub struct Array<C, const SIZE: usize>(PhantomData<C>);

impl<C: Codec, const SIZE: usize> Codec for Array<C, SIZE> {
    type Value = [C::Value; SIZE];
    type Lent = [C::Value; SIZE];

    fn read(reader: &mut Reader<'_>) -> Result<[C::Value; SIZE], Error> {
        let values = (0..SIZE).map(|_| C::read(reader)).collect::<Result<Vec<_>, Error>>()?;
        values.try_into().map_err(|_| Error::Value)
    }

    fn write(writer: &mut Writer, values: &[C::Value; SIZE]) -> Result<(), Error> {
        write_members::<C>(writer, values)
    }
}

#[cfg(test)]
mod tests {
    use super::*;
    use crate::Order;
    use alloc::vec;
    use std::string::ToString;

    /// The octets of a value, and what is read of them.
    fn both<C: Codec>(value: &C::Lent) -> Result<(Vec<u8>, C::Value), Error> {
        let mut writer = Writer::new(Order::Big);
        write::<C>(&mut writer, value)?;
        let octets = writer.into_octets();
        let value = read::<C>(&mut Reader::new(&octets, Order::Big))?;
        Ok((octets, value))
    }

    fn read_of<C: Codec>(octets: &[u8]) -> Result<C::Value, Error> {
        read::<C>(&mut Reader::new(octets, Order::Big))
    }

    #[test]
    fn text_is_of_iso_8859_1() {
        let octets = b"\0\0\0\x03a\xe9\0".to_vec();
        assert_eq!(both::<Text>("aé"), Ok((octets, "aé".to_string())));
        assert_eq!(both::<Text>("€"), Err(Error::Range));
        assert_eq!(both::<Text>("a\0b"), Err(Error::Text));
        assert_eq!(both::<Char>(&'ÿ'), Ok((b"\xff".to_vec(), 'ÿ')));
        assert_eq!(both::<Char>(&'Ā'), Err(Error::Range));
    }

    #[test]
    fn bounds_count_characters_and_members() {
        assert_eq!(both::<Text<2>>("éé").map(|(_, text)| text), Ok("éé".to_string()));
        assert_eq!(both::<Text<2>>("ééé"), Err(Error::Range));
        assert_eq!(both::<Text<2>>("abc"), Err(Error::Range));
        assert_eq!(read_of::<Text<2>>(b"\0\0\0\x04abc\0"), Err(Error::Value));
        assert_eq!(both::<Octets<2>>(b"abc"), Err(Error::Range));
        assert_eq!(read_of::<Octets<2>>(b"\0\0\0\x03abc"), Err(Error::Value));
        assert_eq!(both::<Sequence<Short, 1>>(&[1, 2]), Err(Error::Range));
        assert_eq!(read_of::<Sequence<Short, 1>>(b"\0\0\0\x02\0\x01\0\x02"), Err(Error::Value));
    }

    #[test]
    fn a_count_that_lies_is_short() {
        assert_eq!(read_of::<Sequence<Octet>>(b"\xff\xff\xff\xff"), Err(Error::Short));
        assert_eq!(read_of::<Octets>(b"\xff\xff\xff\xff"), Err(Error::Short));
        assert_eq!(read_of::<Array<Short, 2>>(b"\0\x01\0"), Err(Error::Short));
    }

    #[test]
    fn parts_stand_one_behind_the_other() {
        type Rows = Sequence<Array<UShort, 2>>;
        let rows = vec![[1, 2], [3, 4]];
        let octets = b"\0\0\0\x02\0\x01\0\x02\0\x03\0\x04".to_vec();
        assert_eq!(both::<Rows>(&rows), Ok((octets, rows.clone())));
    }
}
