//! Types of IDL.

use crate::sys::*;
use crate::Error;
use alloc::vec::Vec;

/// A type of IDL. Strings and sequences have no bounds. What has no type here, as a union, can be
/// had by raw operations.
///
/// ```
/// use lemonrudder::Type;
///
/// // struct Quote { string symbol; long long cents; };
/// // void publish(in sequence<Quote> quotes, in boolean is_final);
/// const QUOTE: Type = Type::Struct(&[Type::String, Type::LongLong]);
/// const PUBLISH: &[Type] = &[Type::Sequence(&QUOTE), Type::Boolean];
/// ```
#[derive(Clone, Copy, Debug, PartialEq, Eq)]
pub enum Type<'a> {
    /// `boolean`
    Boolean,
    /// `char`
    Char,
    /// `octet`
    Octet,
    /// `short`
    Short,
    /// `unsigned short`
    UShort,
    /// `long`
    Long,
    /// `unsigned long`
    ULong,
    /// `long long`
    LongLong,
    /// `unsigned long long`
    ULongLong,
    /// `float`, which has the octets of an `unsigned long`
    Float,
    /// `double`, which has those of an `unsigned long long`
    Double,
    /// `string`
    String,
    /// `sequence<octet>`
    Octets,
    /// `sequence<T>`
    Sequence(&'a Type<'a>),
    /// An `enum` of so many names, 1 to 255.
    Enum(u8),
    /// A `struct` of 1 to 255 members.
    Struct(&'a [Type<'a>]),
}

impl Type<'_> {
    /// Appends the codes of the type (`LR_TYPE_..` of `lemonrudder.h`).
    fn put(&self, codes: &mut Vec<u8>) -> Result<(), Error> {
        match self {
            Type::Boolean => codes.push(LR_TYPE_BOOLEAN),
            Type::Char => codes.push(LR_TYPE_CHAR),
            Type::Octet => codes.push(LR_TYPE_OCTET),
            Type::Short => codes.push(LR_TYPE_SHORT),
            Type::UShort => codes.push(LR_TYPE_USHORT),
            Type::Long => codes.push(LR_TYPE_LONG),
            Type::ULong => codes.push(LR_TYPE_ULONG),
            Type::LongLong => codes.push(LR_TYPE_LONGLONG),
            Type::ULongLong => codes.push(LR_TYPE_ULONGLONG),
            Type::String => codes.push(LR_TYPE_STRING),
            Type::Float => codes.push(LR_TYPE_FLOAT),
            Type::Double => codes.push(LR_TYPE_DOUBLE),
            Type::Octets => codes.push(LR_TYPE_OCTETS),
            // the same octets, which are kept as one value
            Type::Sequence(Type::Octet) => codes.push(LR_TYPE_OCTETS),
            Type::Sequence(element) => {
                element.put(codes)?;
                codes.push(LR_TYPE_SEQUENCE);
            }
            Type::Enum(names) => codes.extend([LR_TYPE_ENUM, *names]),
            Type::Struct(members) => {
                let count = u8::try_from(members.len()).map_err(|_| Error::Types)?;
                put_all(members, codes)?;
                codes.extend([LR_TYPE_STRUCT, count]);
            }
        }
        Ok(())
    }
}

/// Appends the codes of types.
fn put_all(types: &[Type], codes: &mut Vec<u8>) -> Result<(), Error> {
    types.iter().try_for_each(|each| each.put(codes))
}

/// The codes of types.
pub(crate) fn codes_of(types: &[Type]) -> Result<Vec<u8>, Error> {
    let mut codes = Vec::with_capacity(types.len());
    put_all(types, &mut codes)?;
    Ok(codes)
}

#[cfg(test)]
mod tests {
    use super::*;
    use alloc::vec;

    #[test]
    fn parts_come_before_what_they_are_of() {
        let longs = Type::Sequence(&Type::Long);
        assert_eq!(codes_of(&[Type::String, longs]), Ok(vec![10, 6, 12]));
        assert_eq!(codes_of(&[Type::Struct(&[Type::String, longs])]), Ok(vec![10, 6, 12, 14, 2]));
        assert_eq!(codes_of(&[Type::Sequence(&Type::Octet), Type::Octets]), Ok(vec![11, 11]));
        assert_eq!(codes_of(&[Type::Enum(3), Type::Boolean]), Ok(vec![13, 3, 1]));
        assert_eq!(codes_of(&[]), Ok(vec![]));
    }

    #[test]
    fn a_struct_has_at_most_255_members() {
        let members = [Type::Octet; 256];
        assert_eq!(codes_of(&[Type::Struct(&members)]), Err(Error::Types));
        assert_eq!(codes_of(&[Type::Struct(&members[1..])]).map(|codes| codes.len()), Ok(257));
    }
}
