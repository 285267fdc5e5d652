//! Plain reading and writing of CDR values by types, to measure against: no proofs, no crates.
//!
//! usage: values read|write KIND ROUNDS        makes a value of a kind, reads or writes it so often, prints a checksum

use std::collections::TryReserveError;

#[derive(Clone, Copy, PartialEq, Eq)]
pub enum Order {
    Big,
    Little,
}

pub enum Ty {
    Boolean,
    Char,
    Octet,
    Short,
    UShort,
    Long,
    ULong,
    LongLong,
    ULongLong,
    Str(u32),
    Octets(u32),
    Seq(u32, Box<Ty>),
    Array(u32, Box<Ty>),
    Enum(u32),
    Struct(Vec<Ty>),
    Union(Box<Ty>, Vec<Case>, Option<Box<Ty>>),
}

pub struct Case {
    pub label: i128,
    pub member: Ty,
}

pub enum Val {
    Boolean(bool),
    Char(u8),
    Octet(u8),
    Short(i16),
    UShort(u16),
    Long(i32),
    ULong(u32),
    LongLong(i64),
    ULongLong(u64),
    Str(Vec<u8>),
    Octets(Vec<u8>),
    Seq(Vec<Val>),
    Array(Vec<Val>),
    Enum(u32),
    Struct(Vec<Val>),
    Union(Box<Val>, Option<Box<Val>>),
}

#[derive(Clone, Copy, Debug)]
pub enum Kind {
    Short,
    BadBoolean,
    NoTerminator,
    InteriorNul,
    BadEnum,
    OverBound,
}

#[derive(Debug)]
pub enum Error {
    Bad(Kind, u64),
    Memory,
}

impl From<TryReserveError> for Error {
    fn from(_: TryReserveError) -> Error {
        Error::Memory
    }
}

fn copied(octets: &[u8]) -> Result<Vec<u8>, Error> {
    let mut copy = Vec::new();
    copy.try_reserve_exact(octets.len())?;
    copy.extend_from_slice(octets);
    Ok(copy)
}

fn label_of(value: &Val) -> i128 {
    match value {
        Val::Boolean(x) => i128::from(*x),
        Val::Char(x) | Val::Octet(x) => i128::from(*x),
        Val::Short(x) => i128::from(*x),
        Val::UShort(x) => i128::from(*x),
        Val::Long(x) => i128::from(*x),
        Val::ULong(x) | Val::Enum(x) => i128::from(*x),
        Val::LongLong(x) => i128::from(*x),
        Val::ULongLong(x) => i128::from(*x),
        _ => 0,
    }
}

struct Reader<'a> {
    octets: &'a [u8],
    /// The index of the next octet, and the place of the first.
    next: usize,
    at: u64,
    order: Order,
}

impl<'a> Reader<'a> {
    #[inline]
    fn place(&self) -> u64 {
        self.at + self.next as u64
    }

    #[cold]
    fn bad<T>(&self, kind: Kind, before: u64) -> Result<T, Error> {
        Err(Error::Bad(kind, self.place() - before))
    }

    #[inline]
    fn align(&mut self, size: u64) {
        self.next += (self.place().wrapping_neg() & (size - 1)) as usize;
    }

    #[inline]
    fn take(&mut self, size: usize) -> Result<&'a [u8], Error> {
        let Some(octets) = self.octets.get(self.next..self.next + size) else {
            return self.bad(Kind::Short, 0);
        };
        self.next += size;
        Ok(octets)
    }

    #[inline]
    fn array<const N: usize>(&mut self) -> Result<[u8; N], Error> {
        self.align(N as u64);
        Ok(self.take(N)?.try_into().unwrap())
    }

    #[inline]
    fn ushort(&mut self) -> Result<u16, Error> {
        let octets = self.array()?;
        Ok(if self.order == Order::Big { u16::from_be_bytes(octets) } else { u16::from_le_bytes(octets) })
    }

    #[inline]
    fn ulong(&mut self) -> Result<u32, Error> {
        let octets = self.array()?;
        Ok(if self.order == Order::Big { u32::from_be_bytes(octets) } else { u32::from_le_bytes(octets) })
    }

    #[inline]
    fn ulonglong(&mut self) -> Result<u64, Error> {
        let octets = self.array()?;
        Ok(if self.order == Order::Big { u64::from_be_bytes(octets) } else { u64::from_le_bytes(octets) })
    }

    #[inline]
    fn boolean(&mut self) -> Result<bool, Error> {
        match self.take(1)?[0] {
            0 => Ok(false),
            1 => Ok(true),
            _ => self.bad(Kind::BadBoolean, 1),
        }
    }

    #[inline]
    fn ordinal(&mut self, names: u32) -> Result<u32, Error> {
        let x = self.ulong()?;
        if x >= names {
            return self.bad(Kind::BadEnum, 4);
        }
        Ok(x)
    }

    #[inline]
    fn length(&mut self, extra: u32, bound: u32) -> Result<usize, Error> {
        let x = self.ulong()?;
        if x.saturating_sub(extra) > bound {
            return self.bad(Kind::OverBound, 4);
        }
        Ok(x as usize)
    }

    #[inline]
    fn string(&mut self, bound: u32) -> Result<&'a [u8], Error> {
        let size = self.length(1, bound)?;
        let octets = self.take(size)?;
        let Some((last, text)) = octets.split_last() else {
            return Ok(octets);
        };
        if let Some(i) = text.iter().position(|x| *x == 0) {
            return self.bad(Kind::InteriorNul, (size - i) as u64);
        }
        if *last != 0 {
            return self.bad(Kind::NoTerminator, 1);
        }
        Ok(text)
    }

    /// Numbers one after another: one test and one allocation for all of them.
    #[inline]
    fn numbers<const N: usize>(&mut self, count: usize, make: impl Fn([u8; N]) -> Val) -> Result<Vec<Val>, Error> {
        let mut all = Vec::new();
        if count == 0 {
            return Ok(all);
        }
        self.align(N as u64);
        let left = self.octets.get(self.next..).unwrap_or(&[]);
        if left.len() / N < count {
            self.next += left.len() / N * N;
            return self.bad(Kind::Short, 0);
        }
        all.try_reserve_exact(count)?;
        let (numbers, _) = left[..count * N].as_chunks::<N>();
        all.extend(numbers.iter().map(|octets| make(*octets)));
        self.next += count * N;
        Ok(all)
    }

    fn booleans(&mut self, count: usize) -> Result<Vec<Val>, Error> {
        let left = &self.octets[self.next.min(self.octets.len())..];
        let octets = &left[..count.min(left.len())];
        if let Some(i) = octets.iter().position(|x| *x > 1) {
            self.next += i;
            return self.bad(Kind::BadBoolean, 0);
        }
        self.numbers(count, |[x]| Val::Boolean(x == 1))
    }

    fn each(&mut self, ty: &Ty, count: usize) -> Result<Vec<Val>, Error> {
        match (ty, self.order) {
            (Ty::Char, _) => return self.numbers(count, |[x]| Val::Char(x)),
            (Ty::Octet, _) => return self.numbers(count, |[x]| Val::Octet(x)),
            (Ty::Short, Order::Big) => return self.numbers(count, |x| Val::Short(i16::from_be_bytes(x))),
            (Ty::Short, Order::Little) => return self.numbers(count, |x| Val::Short(i16::from_le_bytes(x))),
            (Ty::UShort, Order::Big) => return self.numbers(count, |x| Val::UShort(u16::from_be_bytes(x))),
            (Ty::UShort, Order::Little) => return self.numbers(count, |x| Val::UShort(u16::from_le_bytes(x))),
            (Ty::Long, Order::Big) => return self.numbers(count, |x| Val::Long(i32::from_be_bytes(x))),
            (Ty::Long, Order::Little) => return self.numbers(count, |x| Val::Long(i32::from_le_bytes(x))),
            (Ty::ULong, Order::Big) => return self.numbers(count, |x| Val::ULong(u32::from_be_bytes(x))),
            (Ty::ULong, Order::Little) => return self.numbers(count, |x| Val::ULong(u32::from_le_bytes(x))),
            (Ty::LongLong, Order::Big) => return self.numbers(count, |x| Val::LongLong(i64::from_be_bytes(x))),
            (Ty::LongLong, Order::Little) => return self.numbers(count, |x| Val::LongLong(i64::from_le_bytes(x))),
            (Ty::ULongLong, Order::Big) => return self.numbers(count, |x| Val::ULongLong(u64::from_be_bytes(x))),
            (Ty::ULongLong, Order::Little) => return self.numbers(count, |x| Val::ULongLong(u64::from_le_bytes(x))),
            (Ty::Boolean, _) => return self.booleans(count),
            _ => {}
        }
        // (each element has an octet at least, or is a struct of nothing)
        let mut all = Vec::new();
        all.try_reserve(count.min(self.octets.len() - self.next.min(self.octets.len())) / 8)?;
        for _ in 0..count {
            let value = self.value(ty)?;
            if all.len() == all.capacity() {
                all.try_reserve(1)?;
            }
            all.push(value);
        }
        Ok(all)
    }

    fn members(&mut self, types: &[Ty]) -> Result<Vec<Val>, Error> {
        let mut all = Vec::new();
        all.try_reserve_exact(types.len())?;
        for ty in types {
            all.push(self.value(ty)?);
        }
        Ok(all)
    }

    fn union(&mut self, discriminator: &Ty, cases: &[Case], default: Option<&Ty>) -> Result<Val, Error> {
        let discriminator = self.value(discriminator)?;
        let label = label_of(&discriminator);
        let chosen = cases.iter().find(|case| case.label == label).map(|case| &case.member).or(default);
        let member = match chosen {
            None => None,
            Some(ty) => Some(Box::new(self.value(ty)?)),
        };
        Ok(Val::Union(Box::new(discriminator), member))
    }

    fn value(&mut self, ty: &Ty) -> Result<Val, Error> {
        Ok(match ty {
            Ty::Boolean => Val::Boolean(self.boolean()?),
            Ty::Char => Val::Char(self.take(1)?[0]),
            Ty::Octet => Val::Octet(self.take(1)?[0]),
            Ty::Short => Val::Short(self.ushort()?.cast_signed()),
            Ty::UShort => Val::UShort(self.ushort()?),
            Ty::Long => Val::Long(self.ulong()?.cast_signed()),
            Ty::ULong => Val::ULong(self.ulong()?),
            Ty::LongLong => Val::LongLong(self.ulonglong()?.cast_signed()),
            Ty::ULongLong => Val::ULongLong(self.ulonglong()?),
            Ty::Enum(names) => Val::Enum(self.ordinal(*names)?),
            Ty::Str(bound) => Val::Str(copied(self.string(*bound)?)?),
            Ty::Octets(bound) => {
                let size = self.length(0, *bound)?;
                Val::Octets(copied(self.take(size)?)?)
            }
            Ty::Seq(bound, element) => {
                let count = self.length(0, *bound)?;
                Val::Seq(self.each(element, count)?)
            }
            Ty::Array(count, element) => Val::Array(self.each(element, *count as usize)?),
            Ty::Struct(members) => Val::Struct(self.members(members)?),
            Ty::Union(discriminator, cases, default) => self.union(discriminator, cases, default.as_deref())?,
        })
    }
}

/// Reads a value from the front of octets, and says how many it takes.
pub fn read(ty: &Ty, order: Order, at: u64, octets: &[u8]) -> Result<(Val, usize), Error> {
    let mut reader = Reader { octets, next: 0, at, order };
    let value = reader.value(ty)?;
    Ok((value, reader.next))
}

/// Appends values to an output, whose octet at index `start` stands at the place `at`.
struct Writer<'a> {
    order: Order,
    at: u64,
    start: usize,
    out: &'a mut Vec<u8>,
}

impl Writer<'_> {
    /// Padding, and room for so many octets after it.
    #[inline]
    fn align(&mut self, size: u64, more: usize) -> Result<(), TryReserveError> {
        let place = self.at + (self.out.len() - self.start) as u64;
        let gap = (place.wrapping_neg() & (size - 1)) as usize;
        self.out.try_reserve(gap + more)?;
        if gap > 0 {
            self.out.extend_from_slice(&[0; 8][..gap]);
        }
        Ok(())
    }

    #[inline]
    fn octet(&mut self, x: u8) -> Result<(), TryReserveError> {
        self.out.try_reserve(1)?;
        self.out.push(x);
        Ok(())
    }

    #[inline]
    fn two(&mut self, x: u16, more: usize) -> Result<(), TryReserveError> {
        self.align(2, 2 + more)?;
        self.out.extend_from_slice(&if self.order == Order::Big { x.to_be_bytes() } else { x.to_le_bytes() });
        Ok(())
    }

    #[inline]
    fn four(&mut self, x: u32, more: usize) -> Result<(), TryReserveError> {
        self.align(4, 4 + more)?;
        self.out.extend_from_slice(&if self.order == Order::Big { x.to_be_bytes() } else { x.to_le_bytes() });
        Ok(())
    }

    #[inline]
    fn eight(&mut self, x: u64, more: usize) -> Result<(), TryReserveError> {
        self.align(8, 8 + more)?;
        self.out.extend_from_slice(&if self.order == Order::Big { x.to_be_bytes() } else { x.to_le_bytes() });
        Ok(())
    }

    #[inline(always)]
    fn basic(&mut self, value: &Val) -> Result<bool, TryReserveError> {
        match value {
            Val::Boolean(x) => self.octet(u8::from(*x))?,
            Val::Char(x) | Val::Octet(x) => self.octet(*x)?,
            Val::Short(x) => self.two(x.cast_unsigned(), 0)?,
            Val::UShort(x) => self.two(*x, 0)?,
            Val::Long(x) => self.four(x.cast_unsigned(), 0)?,
            Val::ULong(x) | Val::Enum(x) => self.four(*x, 0)?,
            Val::LongLong(x) => self.eight(x.cast_unsigned(), 0)?,
            Val::ULongLong(x) => self.eight(*x, 0)?,
            _ => return Ok(false),
        }
        Ok(true)
    }

    /// Numbers of one type, one after another: room for all of them is made at once. It returns how many there were.
    #[inline]
    fn run<const N: usize>(&mut self, values: &[Val], octets: impl Fn(&Val) -> Option<[u8; N]>) -> Result<usize, TryReserveError> {
        self.align(N as u64, values.len() * N)?;
        for (i, value) in values.iter().enumerate() {
            let Some(octets) = octets(value) else {
                return Ok(i);
            };
            self.out.extend_from_slice(&octets);
        }
        Ok(values.len())
    }

    /// Values of one type, most likely.
    fn each(&mut self, values: &[Val]) -> Result<(), TryReserveError> {
        macro_rules! run {
            ($variant:ident, $x:ident, $octets:expr) => {
                self.run(values, |value| if let Val::$variant($x) = value { Some($octets) } else { None })?
            };
        }
        let done = match (values.first(), self.order) {
            (Some(Val::Boolean(_)), _) => run!(Boolean, x, [u8::from(*x)]),
            (Some(Val::Char(_)), _) => run!(Char, x, [*x]),
            (Some(Val::Octet(_)), _) => run!(Octet, x, [*x]),
            (Some(Val::Short(_)), Order::Big) => run!(Short, x, x.to_be_bytes()),
            (Some(Val::Short(_)), Order::Little) => run!(Short, x, x.to_le_bytes()),
            (Some(Val::UShort(_)), Order::Big) => run!(UShort, x, x.to_be_bytes()),
            (Some(Val::UShort(_)), Order::Little) => run!(UShort, x, x.to_le_bytes()),
            (Some(Val::Long(_)), Order::Big) => run!(Long, x, x.to_be_bytes()),
            (Some(Val::Long(_)), Order::Little) => run!(Long, x, x.to_le_bytes()),
            (Some(Val::ULong(_)), Order::Big) => run!(ULong, x, x.to_be_bytes()),
            (Some(Val::ULong(_)), Order::Little) => run!(ULong, x, x.to_le_bytes()),
            (Some(Val::LongLong(_)), Order::Big) => run!(LongLong, x, x.to_be_bytes()),
            (Some(Val::LongLong(_)), Order::Little) => run!(LongLong, x, x.to_le_bytes()),
            (Some(Val::ULongLong(_)), Order::Big) => run!(ULongLong, x, x.to_be_bytes()),
            (Some(Val::ULongLong(_)), Order::Little) => run!(ULongLong, x, x.to_le_bytes()),
            _ => 0,
        };
        self.all(&values[done..])
    }

    fn all(&mut self, values: &[Val]) -> Result<(), TryReserveError> {
        for value in values {
            if !self.basic(value)? {
                self.other(value)?;
            }
        }
        Ok(())
    }

    fn other(&mut self, value: &Val) -> Result<(), TryReserveError> {
        match value {
            Val::Str(text) => {
                self.four(text.len() as u32 + 1, text.len() + 1)?;
                self.out.extend_from_slice(text);
                self.out.push(0);
            }
            Val::Octets(all) => {
                self.four(all.len() as u32, all.len())?;
                self.out.extend_from_slice(all);
            }
            Val::Seq(all) => {
                self.four(all.len() as u32, 0)?;
                self.each(all)?;
            }
            Val::Array(all) => self.each(all)?,
            Val::Struct(all) => self.all(all)?,
            Val::Union(discriminator, member) => {
                self.value(discriminator)?;
                if let Some(member) = member {
                    self.value(member)?;
                }
            }
            _ => {}
        }
        Ok(())
    }

    fn value(&mut self, value: &Val) -> Result<(), TryReserveError> {
        if !self.basic(value)? {
            self.other(value)?;
        }
        Ok(())
    }
}

/// Appends a value; at an error the output is as it was.
pub fn write(order: Order, at: u64, value: &Val, out: &mut Vec<u8>) -> Result<(), TryReserveError> {
    let start = out.len();
    let written = Writer { order, at, start, out }.value(value);
    if written.is_err() {
        out.truncate(start);
    }
    written
}

const SIZE: u32 = 1_048_576;

fn quote(number: u32) -> Val {
    Val::Struct(vec![
        Val::ULong(number),
        Val::Str(b"lemonrudder".to_vec()),
        Val::Boolean(number % 2 == 0),
        Val::Str(b"a struct with strings".to_vec()),
        Val::LongLong(i64::from(number)),
    ])
}

fn sample(kind: &str) -> (Ty, Val) {
    let all = |size: u32, ty: Ty, make: fn(u32) -> Val| {
        (Ty::Seq(u32::MAX, Box::new(ty)), Val::Seq((0..SIZE / size).map(make).collect()))
    };
    match kind {
        "octets" => (Ty::Octets(u32::MAX), Val::Octets(vec![7; SIZE as usize])),
        "structs" => {
            let members = vec![Ty::ULong, Ty::Str(u32::MAX), Ty::Boolean, Ty::Str(u32::MAX), Ty::LongLong];
            all(64, Ty::Struct(members), quote)
        }
        "ulongs" => all(4, Ty::ULong, Val::ULong),
        "longlongs" => all(8, Ty::LongLong, |x| Val::LongLong(i64::from(x))),
        "shorts" => all(2, Ty::Short, |x| Val::Short((x % 30_000) as i16)),
        _ => all(1, Ty::Boolean, |x| Val::Boolean(x % 2 == 0)),
    }
}

fn mixed(sum: u64, x: u64) -> u64 {
    sum.wrapping_mul(31).wrapping_add(x)
}

fn main() {
    let words: Vec<String> = std::env::args().skip(1).collect();
    let rounds: u32 = words[2].parse().unwrap();
    let (ty, value) = sample(&words[1]);
    let (mut out, mut sum) = (Vec::new(), 0);
    write(Order::Big, 0, &value, &mut out).unwrap();
    let size = out.len();
    for _ in 0..rounds {
        if words[0] == "read" {
            let (value, taken) = read(&ty, Order::Big, 0, &out).unwrap();
            let count = match &value {
                Val::Seq(all) => all.len(),
                Val::Octets(all) => all.len(),
                _ => 0,
            };
            sum = mixed(mixed(sum, taken as u64), count as u64);
        } else {
            out.clear();
            write(Order::Big, 0, &value, &mut out).unwrap();
            sum = mixed(mixed(sum, out.len() as u64), u64::from(*out.last().unwrap()));
        }
    }
    println!("octets {size} sum {sum}");
}
