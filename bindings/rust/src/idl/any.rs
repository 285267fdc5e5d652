//! Anys: a TypeCode and a value of it, by their octets (CORBA 3.3 Part 2, 9.3.5.1 and 9.3.5.2).
//!
//! To find where one ends, its value is walked by its TypeCode; so too to write it in another order
//! or at another place, where it is aligned otherwise. Wide characters are walked as GIOP 1.2 has
//! them.

use super::codec::{
    Boolean, Char, Codec, Double, Float, Long, LongLong, Octet, Short, Text, ULong, ULongLong,
    UShort,
};
use super::Vec;
use crate::cdr::{Reader, Writer};
use crate::{Error, Order};
use core::mem::size_of;

/// `TCKind`: behind these there are values, native types, and interfaces of other kinds.
mod kind {
    pub(super) const NULL: u32 = 0;
    pub(super) const SHORT: u32 = 2;
    pub(super) const LONG: u32 = 3;
    pub(super) const USHORT: u32 = 4;
    pub(super) const ULONG: u32 = 5;
    pub(super) const FLOAT: u32 = 6;
    pub(super) const DOUBLE: u32 = 7;
    pub(super) const BOOLEAN: u32 = 8;
    pub(super) const CHAR: u32 = 9;
    pub(super) const OCTET: u32 = 10;
    pub(super) const ANY: u32 = 11;
    pub(super) const TYPE_CODE: u32 = 12;
    pub(super) const PRINCIPAL: u32 = 13;
    pub(super) const OBJREF: u32 = 14;
    pub(super) const STRUCT: u32 = 15;
    pub(super) const UNION: u32 = 16;
    pub(super) const ENUM: u32 = 17;
    pub(super) const STRING: u32 = 18;
    pub(super) const SEQUENCE: u32 = 19;
    pub(super) const ARRAY: u32 = 20;
    pub(super) const ALIAS: u32 = 21;
    pub(super) const EXCEPT: u32 = 22;
    pub(super) const LONGLONG: u32 = 23;
    pub(super) const ULONGLONG: u32 = 24;
    pub(super) const LONGDOUBLE: u32 = 25;
    pub(super) const WCHAR: u32 = 26;
    pub(super) const WSTRING: u32 = 27;
    pub(super) const FIXED: u32 = 28;
    pub(super) const INDIRECTION: u32 = u32::MAX;
}

/// How deep types stand in others.
const DEPTH: usize = 128;
/// How many digits a `fixed` has at most.
const DIGITS: u32 = 31;

/// The size of a number of a kind; none of other values.
fn size_of_kind(kind: u32) -> Option<usize> {
    match kind {
        kind::BOOLEAN | kind::CHAR | kind::OCTET => Some(1),
        kind::SHORT | kind::USHORT => Some(2),
        kind::LONG | kind::ULONG | kind::FLOAT => Some(4),
        kind::DOUBLE | kind::LONGLONG | kind::ULONGLONG => Some(8),
        _ => None,
    }
}

/// .. of one that may discriminate a union.
fn size_of_label(kind: u32) -> Result<usize, Error> {
    match kind {
        kind::FLOAT | kind::DOUBLE => Err(Error::Value),
        kind::ENUM => Ok(4),
        kind => size_of_kind(kind).ok_or(Error::Value),
    }
}

/// The number that octets of an order are.
fn number_of(octets: &[u8], order: Order) -> u64 {
    let join = |number: u64, octet: &u8| number << 8 | u64::from(*octet);
    match order {
        Order::Big => octets.iter().fold(0, join),
        Order::Little => octets.iter().rev().fold(0, join),
    }
}

/// Where the octets stand that a reader reads next, behind what aligns a number of four.
fn start_of(reader: &Reader<'_>) -> usize {
    let padding = reader.place().wrapping_neg() % 4;
    (reader.rest().as_ptr() as usize).wrapping_add(usize::try_from(padding).unwrap_or(0))
}

/// A `TypeCode`. Others are named by their indices.
#[derive(Clone, Debug, Default)]
struct Code {
    kind: u32,
    /// A bound, a length, or how many names or digits there are.
    number: u32,
    /// What a list, an alias or an indirection is of, or discriminates a union.
    inner: usize,
    /// The members.
    first: usize,
    count: usize,
    /// Of a union: which of these is the default one.
    fallback: Option<usize>,
    /// Where it begins; 0: it was not read yet.
    start: usize,
    /// Of a member of a union.
    label: u64,
}

/// The `TypeCode`s in one, which is the first. They take memory of what a reader may take.
#[derive(Debug, Default)]
struct Codes {
    list: Vec<Code>,
    front: usize,
}

impl Codes {
    /// Reads all of them.
    fn read(reader: &mut Reader<'_>, depth: usize) -> Result<Codes, Error> {
        let mut codes = Codes { list: Vec::new(), front: start_of(reader) };
        let mut at = reader.clone();
        let first = codes.add(1, reader)?;
        codes.parse(first, &mut at, reader, depth)?;
        reader.raw(usize::try_from(at.place() - reader.place()).map_err(|_| Error::Short)?, 1)?;
        Ok(codes)
    }

    fn at(&self, index: usize) -> Result<&Code, Error> {
        self.list.get(index).ok_or(Error::Value)
    }

    fn at_mut(&mut self, index: usize) -> Result<&mut Code, Error> {
        self.list.get_mut(index).ok_or(Error::Value)
    }

    /// The index of what is no alias and no indirection. `Value`: one is of itself.
    fn resolved(&self, mut index: usize) -> Result<usize, Error> {
        for _ in 0..2 * DEPTH {
            let code = self.at(index)?;
            if !matches!(code.kind, kind::ALIAS | kind::INDIRECTION) {
                return Ok(index);
            }
            index = code.inner;
        }
        Err(Error::Value)
    }

    /// Adds so many, which are read later.
    fn add(&mut self, count: usize, memory: &mut Reader<'_>) -> Result<usize, Error> {
        memory.claim(count.saturating_mul(size_of::<Code>()))?;
        let first = self.list.len();
        self.list.resize(first + count, Code::default());
        Ok(first)
    }

    /// Reads one into an index.
    fn parse(
        &mut self,
        index: usize,
        at: &mut Reader<'_>,
        memory: &mut Reader<'_>,
        depth: usize,
    ) -> Result<(), Error> {
        if depth > DEPTH {
            return Err(Error::Value);
        }
        let start = start_of(at);
        let kind = at.ulong()?;
        if kind == kind::INDIRECTION {
            return self.parse_indirection(index, at, memory);
        }
        let code = self.at_mut(index)?;
        (code.kind, code.start) = (kind, start);
        match kind {
            kind::STRING | kind::WSTRING => code.number = at.ulong()?,
            kind::FIXED => {
                code.number = at.ushort()?.into();
                at.short()?;
            }
            kind::OBJREF..=kind::EXCEPT => {
                return self.parse_constructed(index, &mut at.encapsulation()?, memory, depth + 1);
            }
            _ => (),
        }
        let is_passed = kind < kind::FIXED || kind == kind::FIXED && code.number <= DIGITS;
        if is_passed {
            Ok(())
        } else {
            Err(Error::Value)
        }
    }

    /// An indirection names where a `TypeCode` begins that stands before it, by an offset from itself
    /// (9.3.5.1.3).
    fn parse_indirection(
        &mut self,
        index: usize,
        at: &mut Reader<'_>,
        memory: &mut Reader<'_>,
    ) -> Result<(), Error> {
        let from = start_of(at);
        let back = usize::try_from(-i64::from(at.long()?)).map_err(|_| Error::Value)?;
        if back == 0 || back > from - self.front {
            return Err(Error::Value);
        }
        memory.claim(self.list.len() / 8)?;
        let inner = self.list.iter().position(|code| code.start == from - back);
        let inner = inner.ok_or(Error::Value)?;
        let code = self.at_mut(index)?;
        (code.kind, code.inner) = (kind::INDIRECTION, inner);
        Ok(())
    }

    /// Reads what is in the encapsulation of one. (What is behind that, as the names of an enum, has
    /// no effect.)
    fn parse_constructed(
        &mut self,
        index: usize,
        at: &mut Reader<'_>,
        memory: &mut Reader<'_>,
        depth: usize,
    ) -> Result<(), Error> {
        let kind = self.at(index)?.kind;
        let is_list = matches!(kind, kind::SEQUENCE | kind::ARRAY);
        if !is_list {
            at.string()?;
            at.string()?;
        }
        if is_list || matches!(kind, kind::ALIAS | kind::UNION) {
            let inner = self.add(1, memory)?;
            self.at_mut(index)?.inner = inner;
            self.parse(inner, at, memory, depth)?;
        }
        match kind {
            kind::SEQUENCE | kind::ARRAY | kind::ENUM => self.at_mut(index)?.number = at.ulong()?,
            kind::STRUCT | kind::EXCEPT => self.parse_members(index, at, memory, depth, None)?,
            kind::UNION => self.parse_union(index, at, memory, depth)?,
            _ => (),
        }
        Ok(())
    }

    fn parse_union(
        &mut self,
        index: usize,
        at: &mut Reader<'_>,
        memory: &mut Reader<'_>,
        depth: usize,
    ) -> Result<(), Error> {
        let switch = self.resolved(self.at(index)?.inner)?;
        let size = size_of_label(self.at(switch)?.kind)?;
        let fallback = match at.long()? {
            -1 => None,
            number => Some(usize::try_from(number).map_err(|_| Error::Value)?),
        };
        self.at_mut(index)?.fallback = fallback;
        self.parse_members(index, at, memory, depth, Some(size))?;
        let is_there = fallback.is_none_or(|number| number < self.list[index].count);
        if is_there {
            Ok(())
        } else {
            Err(Error::Value)
        }
    }

    /// Reads members: of a union behind their labels of such a size.
    fn parse_members(
        &mut self,
        index: usize,
        at: &mut Reader<'_>,
        memory: &mut Reader<'_>,
        depth: usize,
        label_size: Option<usize>,
    ) -> Result<(), Error> {
        let count = usize::try_from(at.ulong()?).map_err(|_| Error::Short)?;
        if count > at.rest().len() {
            return Err(Error::Short);
        }
        let first = self.add(count, memory)?;
        let code = self.at_mut(index)?;
        (code.first, code.count) = (first, count);
        for member in first..first + count {
            if let Some(size) = label_size {
                self.at_mut(member)?.label = number_of(at.raw(size, size)?, at.order());
            }
            at.string()?;
            self.parse(member, at, memory, depth)?;
        }
        Ok(())
    }
}

/// Walks values from a reader; what it passes it writes anew, if there is a writer.
struct Walk<'w, 'a> {
    reader: &'w mut Reader<'a>,
    writer: Option<&'w mut Writer>,
}

impl<'a> Walk<'_, 'a> {
    /// Passes a `TypeCode`: what is in encapsulations stays as it is, indirections too, which stay in
    /// them.
    fn code(&mut self, depth: usize) -> Result<Codes, Error> {
        self.reader.raw(0, 4)?;
        let before = self.reader.rest();
        let codes = Codes::read(self.reader, depth)?;
        let octets = before.get(..before.len() - self.reader.rest().len()).ok_or(Error::Short)?;
        let half = if codes.at(0)?.kind == kind::FIXED { 2 } else { 4 };
        let (kind, rest) = octets.split_at_checked(4).ok_or(Error::Short)?;
        let (number, rest) = rest.split_at(rest.len().min(4));
        self.write(kind, 4, 4)?;
        self.write(number, half, half)?;
        self.write(rest, 1, 1)?;
        Ok(codes)
    }

    /// Writes numbers of so many octets each.
    fn write(&mut self, octets: &[u8], alignment: usize, size: usize) -> Result<(), Error> {
        let order = self.reader.order();
        let Some(writer) = self.writer.as_deref_mut().filter(|_| !octets.is_empty()) else {
            return Ok(());
        };
        if size == 1 || order == writer.order() {
            writer.raw(octets.iter().copied(), alignment);
            return Ok(());
        }
        writer.raw(octets.chunks(size).flat_map(|number| number.iter().rev().copied()), alignment);
        Ok(())
    }

    /// Passes so many numbers of so many octets each.
    fn numbers(&mut self, size: usize, count: u64) -> Result<&'a [u8], Error> {
        let count = usize::try_from(count).map_err(|_| Error::Short)?;
        if count == 0 {
            return Ok(&[]);
        }
        let octets = self.reader.raw(size.checked_mul(count).ok_or(Error::Short)?, size)?;
        self.write(octets, size, size)?;
        Ok(octets)
    }

    fn number(&mut self, size: usize) -> Result<u64, Error> {
        let octets = self.numbers(size, 1)?;
        Ok(number_of(octets, self.reader.order()))
    }

    /// Passes octets behind their number, which has so many.
    fn counted(&mut self, size: usize) -> Result<&'a [u8], Error> {
        let count = self.number(size)?;
        self.numbers(1, count)
    }

    fn text(&mut self, bound: u32) -> Result<(), Error> {
        let octets = self.counted(4)?;
        let has_end = octets.last().is_none_or(|last| *last == 0);
        let is_within = bound == 0 || octets.len() as u64 <= u64::from(bound) + 1;
        if has_end && is_within {
            Ok(())
        } else {
            Err(Error::Value)
        }
    }

    fn list(
        &mut self,
        codes: &Codes,
        member: usize,
        count: u64,
        depth: usize,
    ) -> Result<(), Error> {
        let member = codes.resolved(member)?;
        if let Some(size) = size_of_kind(codes.at(member)?.kind) {
            return self.numbers(size, count).map(drop);
        }
        for _ in 0..count {
            self.value(codes, member, depth)?;
        }
        Ok(())
    }

    fn sequence(&mut self, codes: &Codes, code: &Code, depth: usize) -> Result<(), Error> {
        let count = self.number(4)?;
        if code.number != 0 && count > u64::from(code.number) {
            return Err(Error::Value);
        }
        self.list(codes, code.inner, count, depth)
    }

    fn members(&mut self, codes: &Codes, code: &Code, depth: usize) -> Result<(), Error> {
        for member in code.first..code.first + code.count {
            self.value(codes, member, depth)?;
        }
        Ok(())
    }

    fn union(&mut self, codes: &Codes, code: &Code, depth: usize) -> Result<(), Error> {
        let size = size_of_label(codes.at(codes.resolved(code.inner)?)?.kind)?;
        let label = self.number(size)?;
        self.reader.claim(code.count / 8)?;
        let members = codes.list.get(code.first..code.first + code.count).ok_or(Error::Value)?;
        let mut named = members.iter().enumerate();
        let named =
            named.position(|(index, member)| code.fallback != Some(index) && member.label == label);
        match named.or(code.fallback) {
            Some(index) => self.value(codes, code.first + index, depth),
            None => Ok(()),
        }
    }

    fn name(&mut self, code: &Code) -> Result<(), Error> {
        let number = self.number(4)?;
        if number < u64::from(code.number) {
            Ok(())
        } else {
            Err(Error::Value)
        }
    }

    /// 16 octets, aligned by 8, which are turned as a whole.
    fn long_double(&mut self) -> Result<(), Error> {
        let octets = self.reader.raw(16, 8)?;
        self.write(octets, 8, 16)
    }

    /// A type id, and profiles, each a tag and its data (9.6.2).
    fn reference(&mut self) -> Result<(), Error> {
        self.text(0)?;
        for _ in 0..self.number(4)? {
            self.number(4)?;
            self.counted(4)?;
        }
        Ok(())
    }

    fn any(&mut self, depth: usize) -> Result<(), Error> {
        let codes = self.code(depth)?;
        self.value(&codes, 0, depth)
    }

    /// Passes a value of the type of an index.
    fn value(&mut self, codes: &Codes, index: usize, depth: usize) -> Result<(), Error> {
        let code = codes.at(codes.resolved(index)?)?;
        if depth > DEPTH {
            return Err(Error::Value);
        }
        if let Some(size) = size_of_kind(code.kind) {
            return self.numbers(size, 1).map(drop);
        }
        self.reader.claim(1)?;
        match code.kind {
            kind::ANY => self.any(depth + 1),
            kind::TYPE_CODE => self.code(depth + 1).map(drop),
            kind::OBJREF => self.reference(),
            kind::STRUCT => self.members(codes, code, depth + 1),
            // (an exception stands behind its id, 9.3.5.5)
            kind::EXCEPT => {
                self.text(0)?;
                self.members(codes, code, depth + 1)
            }
            kind::UNION => self.union(codes, code, depth + 1),
            kind::ENUM => self.name(code),
            kind::STRING => self.text(code.number),
            kind::SEQUENCE => self.sequence(codes, code, depth + 1),
            kind::ARRAY => self.list(codes, code.inner, code.number.into(), depth + 1),
            kind::LONGDOUBLE => self.long_double(),
            kind::PRINCIPAL | kind::WSTRING => self.counted(4).map(drop),
            // (as GIOP 1.2 has wide characters, 9.3.1.6)
            kind::WCHAR => self.counted(1).map(drop),
            kind::FIXED => self.numbers(1, u64::from(code.number) / 2 + 1).map(drop),
            _ => Ok(()),
        }
    }
}

/// A basic type or a string, of a value of which an [`Any`] is made.
pub trait Plain: Codec {
    /// Its `TCKind`.
    const KIND: u32;
}

macro_rules! plain {
    ($($name:ty = $kind:ident;)*) => {$(
        impl Plain for $name {
            const KIND: u32 = kind::$kind;
        }
    )*};
}

plain! {
    Boolean = BOOLEAN;
    Char = CHAR;
    Octet = OCTET;
    Short = SHORT;
    UShort = USHORT;
    Long = LONG;
    ULong = ULONG;
    LongLong = LONGLONG;
    ULongLong = ULONGLONG;
    Float = FLOAT;
    Double = DOUBLE;
    Text = STRING;
}

/// An `any`: the octets of a `TypeCode`, and behind these those of a value of it, in an order, as they
/// came. Without octets it is null.
///
/// It goes on as it came where it stands so too, else it is written anew, by its `TypeCode`. Types stand
/// in others 128 deep at most.
///
/// ```
/// use lemonrudder::idl::{Any, Long, Text};
/// use lemonrudder::Error;
///
/// let any = Any::of::<Long>(&5)?;
/// assert_eq!(any.value::<Long>(), Ok(5));
/// assert_eq!(any.value::<Text>(), Err(Error::Value));
/// # Ok::<(), Error>(())
/// ```
#[derive(Clone, Debug, PartialEq, Eq)]
pub struct Any {
    /// The octets of the `TypeCode`.
    pub type_code: Vec<u8>,
    /// The octets of the value.
    pub octets: Vec<u8>,
    /// The order of both.
    pub order: Order,
    /// The place of the first one of the `TypeCode`, modulo 8, from which all are aligned.
    pub at: u64,
}

impl Default for Any {
    fn default() -> Any {
        Any { type_code: Vec::new(), octets: Vec::new(), order: Order::Big, at: 0 }
    }
}

impl Any {
    /// An any of a value of a basic type or a string.
    ///
    /// # Errors
    ///
    /// As of [`Codec::write`].
    pub fn of<C: Plain>(value: &C::Lent) -> Result<Any, Error> {
        let mut writer = Writer::new(Order::NATIVE);
        writer.ulong(C::KIND)?;
        if C::KIND == kind::STRING {
            writer.ulong(0)?;
        }
        let size = writer.as_octets().len();
        C::write(&mut writer, value)?;
        let (order, mut type_code) = (writer.order(), writer.into_octets());
        let octets = type_code.split_off(size);
        Ok(Any { type_code, octets, order, at: 0 })
    }

    /// Its value, also where its type has other names.
    ///
    /// # Errors
    ///
    /// `Value`: it is of another type; as of [`Codec::read`].
    pub fn value<C: Plain>(&self) -> Result<C::Value, Error> {
        if self.kind()? != C::KIND {
            return Err(Error::Value);
        }
        C::read(&mut self.reader())
    }

    /// The `TCKind` of its type, of an alias that of what it names: 0 null, 2 `short`, 3 `long`, 15 a
    /// struct, 18 a string (CORBA 3.3 Part 2, 9.3.5.1).
    ///
    /// # Errors
    ///
    /// `Value` and `Short`: its octets are none.
    pub fn kind(&self) -> Result<u32, Error> {
        if self.type_code.is_empty() {
            return Ok(kind::NULL);
        }
        let mut reader = Reader::at(&self.type_code, self.order, self.at);
        let codes = Codes::read(&mut reader, 0)?;
        codes.at(codes.resolved(0)?).map(|code| code.kind)
    }

    /// Reads its value.
    #[must_use]
    pub fn reader(&self) -> Reader<'_> {
        Reader::at(&self.octets, self.order, self.at.wrapping_add(self.type_code.len() as u64))
    }
}

impl Codec for Any {
    type Value = Any;
    type Lent = Any;

    fn read(reader: &mut Reader<'_>) -> Result<Any, Error> {
        reader.raw(0, 4)?;
        let (order, at, first) = (reader.order(), reader.place() % 8, reader.rest());
        let mut walk = Walk { reader, writer: None };
        let codes = walk.code(0)?;
        let middle = walk.reader.rest();
        walk.value(&codes, 0, 0)?;
        let octets = &middle[..middle.len() - reader.rest().len()];
        let type_code = &first[..first.len() - middle.len()];
        reader.claim(type_code.len() + octets.len())?;
        Ok(Any { type_code: type_code.to_vec(), octets: octets.to_vec(), order, at })
    }

    fn write(writer: &mut Writer, value: &Any) -> Result<(), Error> {
        if value.type_code.is_empty() {
            return writer.ulong(kind::NULL).map(drop);
        }
        let whole = [value.type_code.as_slice(), &value.octets].concat();
        let at = writer.place().wrapping_add(writer.place().wrapping_neg() % 4) % 8;
        if value.order == writer.order() && value.at == at {
            writer.raw(whole, 4);
            return Ok(());
        }
        let mut reader = Reader::at(&whole, value.order, value.at);
        let mut walk = Walk { reader: &mut reader, writer: Some(&mut *writer) };
        let written = walk.code(0).and_then(|codes| walk.value(&codes, 0, 0));
        let is_whole = written.is_ok() && reader.rest().is_empty();
        if is_whole {
            return Ok(());
        }
        let why = "an any whose octets are no value of its type";
        Err(writer.refuse(written.err().unwrap_or(Error::Value), why.into()))
    }
}
