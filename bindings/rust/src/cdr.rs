//! CDR: values as octets (CORBA 3.3 Part 2, 9.3).

use crate::error::{self, done};
use crate::sys::{self, lr_place};
use crate::{Error, Order};
use alloc::format;
use alloc::string::String;
use alloc::vec::Vec;
use core::ffi::c_void;
use core::fmt;

/// The index of the next octet.
fn index(place: &lr_place) -> usize {
    usize::try_from(place.next).unwrap_or(usize::MAX)
}

/// Reads values of octets, one after another. What is longer than a number is lent from the octets.
/// Where a read fails, the place is as it was.
///
/// ```
/// use lemonrudder::cdr::Reader;
/// use lemonrudder::Order;
///
/// let mut reader = Reader::new(b"\0\0\0\x03ab\0\xff\0\0\0\x07", Order::Big);
/// assert_eq!(reader.text(), Ok("ab"));
/// assert_eq!(reader.long(), Ok(7));
/// assert!(reader.rest().is_empty());
/// ```
#[derive(Clone, Debug)]
pub struct Reader<'a> {
    octets: &'a [u8],
    place: lr_place,
    /// How deep in others the sequences stand that are read.
    pub(crate) depth: u8,
    /// How much memory may be taken yet for what is read.
    left: usize,
}

/// How many octets align what stands at a place, by 1, 2, 4 or 8.
fn padding(place: u64, alignment: usize) -> usize {
    let place = usize::try_from(place % 8).unwrap_or(0);
    place.wrapping_neg() % alignment
}

/// How much memory may be taken for what is read of so many octets, where nothing is said.
fn usual_limit(size: usize) -> usize {
    size.saturating_mul(16).saturating_add(65_536)
}

macro_rules! readers {
    ($($(#[$doc:meta])* $name:ident: $number:ty = $call:ident;)*) => {$(
        $(#[$doc])*
        ///
        /// # Errors
        ///
        /// `Short`, where octets are missing.
        pub fn $name(&mut self) -> Result<$number, Error> {
            let mut value = 0;
            let (octets, size) = (self.octets.as_ptr().cast(), self.octets.len());
            // SAFETY: the octets are lent.
            done(unsafe { sys::$call(octets, size, &mut self.place, &mut value) })?;
            Ok(value)
        }
    )*};
}

impl<'a> Reader<'a> {
    /// Reads octets of an order, aligned from place 0.
    #[must_use]
    pub fn new(octets: &'a [u8], order: Order) -> Reader<'a> {
        Reader::at(octets, order, 0)
    }

    /// Reads octets of an order, the first of which stands at a place.
    #[must_use]
    pub fn at(octets: &'a [u8], order: Order, place: u64) -> Reader<'a> {
        let place = lr_place { at: place, order: order.number(), ..lr_place::default() };
        Reader { octets, place, left: usual_limit(octets.len()), depth: 0 }
    }

    /// Such a reader, of which it may be said how much memory may be taken.
    pub(crate) fn limited(
        octets: &'a [u8],
        order: Order,
        place: u64,
        limit: Option<usize>,
    ) -> Reader<'a> {
        let reader = Reader::at(octets, order, place);
        Reader { left: limit.unwrap_or(reader.left), ..reader }
    }

    /// Says how much memory may be taken for what is read, as by [`idl::read`](crate::idl::read), in
    /// octets: in a new one 65536, and 16 times as many as it has octets.
    pub fn limit(&mut self, octets: usize) {
        self.left = octets;
    }

    /// Takes so much of it.
    ///
    /// # Errors
    ///
    /// `Value`, where so much is not left.
    pub fn claim(&mut self, octets: usize) -> Result<(), Error> {
        self.left = self.left.checked_sub(octets).ok_or(Error::Value)?;
        Ok(())
    }

    readers! {
        /// An `octet`.
        octet: u8 = lr_get_octet;
        /// A `char`, as its octet.
        char: u8 = lr_get_char;
        /// A `short`.
        short: i16 = lr_get_short;
        /// An `unsigned short`.
        ushort: u16 = lr_get_ushort;
        /// A `long`.
        long: i32 = lr_get_long;
        /// An `unsigned long`, also the ordinal of an `enum`, and the count of a sequence.
        ulong: u32 = lr_get_ulong;
        /// A `long long`.
        longlong: i64 = lr_get_longlong;
        /// An `unsigned long long`.
        ulonglong: u64 = lr_get_ulonglong;
    }

    /// A `float`.
    ///
    /// # Errors
    ///
    /// `Short`, where octets are missing.
    pub fn float(&mut self) -> Result<f32, Error> {
        self.ulong().map(f32::from_bits)
    }

    /// A `double`.
    ///
    /// # Errors
    ///
    /// `Short`, where octets are missing.
    pub fn double(&mut self) -> Result<f64, Error> {
        self.ulonglong().map(f64::from_bits)
    }

    /// A `boolean`.
    ///
    /// # Errors
    ///
    /// `Short`, where octets are missing, and `Value`, where they are no value of the type.
    pub fn boolean(&mut self) -> Result<bool, Error> {
        let mut value = 0;
        let (octets, size) = (self.octets.as_ptr().cast(), self.octets.len());
        // SAFETY: the octets are lent.
        done(unsafe { sys::lr_get_boolean(octets, size, &mut self.place, &mut value) })?;
        Ok(value != 0)
    }

    /// A `string`, without its NUL.
    ///
    /// # Errors
    ///
    /// `Short`, where octets are missing, and `Value`, where they are no value of the type.
    pub fn string(&mut self) -> Result<&'a [u8], Error> {
        let (mut start, mut length) = (0, 0);
        let (octets, size) = (self.octets.as_ptr().cast(), self.octets.len());
        // SAFETY: the octets are lent.
        done(unsafe {
            sys::lr_get_string(octets, size, &mut self.place, &mut start, &mut length)
        })?;
        self.part(start, length)
    }

    /// A `string` that is UTF-8.
    ///
    /// # Errors
    ///
    /// `Short`, where octets are missing, and `Value`, where they are no such string.
    pub fn text(&mut self) -> Result<&'a str, Error> {
        let before = self.place.clone();
        let text = core::str::from_utf8(self.string()?);
        text.map_err(|_| {
            self.place = before;
            Error::Value
        })
    }

    /// A `sequence<octet>`.
    ///
    /// # Errors
    ///
    /// `Short`, where octets are missing.
    pub fn octets(&mut self) -> Result<&'a [u8], Error> {
        let (mut start, mut length) = (0, 0);
        let (octets, size) = (self.octets.as_ptr().cast(), self.octets.len());
        // SAFETY: the octets are lent.
        done(unsafe {
            sys::lr_get_octets(octets, size, &mut self.place, &mut start, &mut length)
        })?;
        self.part(start, length)
    }

    /// An encapsulation: a reader of what is in it, after its octet of the byte order.
    ///
    /// # Errors
    ///
    /// `Short`, where octets are missing, and `Value`, where it has no byte order.
    pub fn encapsulation(&mut self) -> Result<Reader<'a>, Error> {
        let (mut start, mut length, mut place) = (0, 0, lr_place::default());
        let (octets, size) = (self.octets.as_ptr().cast(), self.octets.len());
        // SAFETY: the octets are lent.
        let answer = unsafe {
            sys::lr_get_encapsulation(
                octets,
                size,
                &mut self.place,
                &mut start,
                &mut length,
                &mut place,
            )
        };
        done(answer)?;
        let octets = self.part(start, length)?;
        Ok(Reader { octets, place, left: usual_limit(octets.len()), depth: self.depth })
    }

    /// A part of the octets, which the library named.
    fn part(&self, start: u64, length: u64) -> Result<&'a [u8], Error> {
        let (start, length) = (error::size(start)?, error::size(length)?);
        let after = self.octets.get(start..).ok_or(Error::Short)?;
        after.get(..length).ok_or(Error::Short)
    }

    /// All the octets, and the place of the first one; none are left.
    pub(crate) fn all(&mut self) -> (&'a [u8], u64) {
        self.place.next = self.octets.len() as u64;
        (self.octets, self.place.at)
    }

    /// So many octets as they are, which are aligned as a number of so many.
    pub(crate) fn raw(&mut self, size: usize, alignment: usize) -> Result<&'a [u8], Error> {
        let padding = padding(self.place(), alignment);
        let found = self.rest().get(padding..).and_then(|after| after.get(..size));
        let found = found.ok_or(Error::Short)?;
        self.place.next += (padding + size) as u64;
        Ok(found)
    }

    /// The place of the next octet.
    pub(crate) fn place(&self) -> u64 {
        self.place.at.wrapping_add(self.place.next)
    }

    /// The octets that are left.
    #[must_use]
    pub fn rest(&self) -> &'a [u8] {
        self.octets.get(index(&self.place)..).unwrap_or(&[])
    }

    /// The order of the numbers.
    #[must_use]
    pub fn order(&self) -> Order {
        Order::from_number(self.place.order).unwrap_or(Order::Big)
    }
}

/// Writes values one after another, aligned from place 0; padding is zeros. Where a write fails,
/// nothing was written.
///
/// ```
/// use lemonrudder::cdr::Writer;
/// use lemonrudder::Order;
///
/// let mut writer = Writer::new(Order::Big);
/// writer.string("ab")?.long(7)?;
/// assert_eq!(writer.as_octets(), b"\0\0\0\x03ab\0\0\0\0\0\x07");
/// # Ok::<(), lemonrudder::Error>(())
/// ```
#[derive(Clone, Debug)]
pub struct Writer {
    octets: Vec<u8>,
    place: lr_place,
    /// How deep in others the sequences stand that are written.
    pub(crate) depth: u8,
    /// Why a value is not written.
    why: String,
}

macro_rules! writers {
    ($($(#[$doc:meta])* $name:ident: $number:ty = $call:ident;)*) => {$(
        $(#[$doc])*
        ///
        /// # Errors
        ///
        /// `Range`: more was written than a message can have.
        pub fn $name(&mut self, value: $number) -> Result<&mut Writer, Error> {
            // SAFETY: the room is lent.
            self.put(0, |room, size, place| unsafe { sys::$call(room, size, place, value) })
        }
    )*};
}

/// What a number takes at most, padding included, and what it takes beside the octets of a string.
const MOST: usize = 16;

impl Writer {
    /// Writes in an order.
    #[must_use]
    pub const fn new(order: Order) -> Writer {
        let place = lr_place { at: 0, next: 0, order: order.number(), reserved: 0 };
        Writer { octets: Vec::new(), place, why: String::new(), depth: 0 }
    }

    /// Why the value was refused that was to be written last, as by [`idl::write`](crate::idl::write),
    /// in a line.
    #[must_use]
    pub fn why(&self) -> &str {
        &self.why
    }

    /// Notes why a value is refused, and gives the error.
    pub(crate) fn refuse(&mut self, error: Error, why: String) -> Error {
        self.why = why;
        error
    }

    /// Notes in what a value stands that was refused, and gives the error.
    pub(crate) fn within(&mut self, name: impl fmt::Display, error: Error) -> Error {
        let why = core::mem::take(&mut self.why);
        self.why = match why.as_str() {
            "" => format!("{name}: {error}"),
            why => format!("{name}: {why}"),
        };
        error
    }

    /// Writes what is in an encapsulation, beginning with its octet of the byte order. It goes into
    /// another writer, or into a service context, by its octets: `outer.octets(inner.as_octets())`.
    #[must_use]
    pub fn encapsulation(order: Order) -> Writer {
        let mut writer = Writer::new(order);
        writer.octets.push(u8::from(order == Order::Little));
        writer.place.next = 1;
        writer
    }

    /// What was written elsewhere in an order, aligned from place 0. More can be written after it.
    #[must_use]
    pub fn of(order: Order, octets: Vec<u8>) -> Writer {
        let mut writer = Writer::new(order);
        writer.place.next = octets.len() as u64;
        writer.octets = octets;
        writer
    }

    /// Makes room for so many octets and a number, writes into it, and cuts off what is left.
    fn put(
        &mut self,
        size: usize,
        call: impl FnOnce(*mut c_void, usize, &mut lr_place) -> i64,
    ) -> Result<&mut Writer, Error> {
        self.octets.resize(self.octets.len() + size + MOST, 0);
        let answer = call(self.octets.as_mut_ptr().cast(), self.octets.len(), &mut self.place);
        self.octets.truncate(index(&self.place));
        done(answer).map(|()| self)
    }

    writers! {
        /// An `octet`.
        octet: u8 = lr_put_octet;
        /// A `char`, as its octet.
        char: u8 = lr_put_char;
        /// A `short`.
        short: i16 = lr_put_short;
        /// An `unsigned short`.
        ushort: u16 = lr_put_ushort;
        /// A `long`.
        long: i32 = lr_put_long;
        /// An `unsigned long`, also the ordinal of an `enum`, and the count of a sequence.
        ulong: u32 = lr_put_ulong;
        /// A `long long`.
        longlong: i64 = lr_put_longlong;
        /// An `unsigned long long`.
        ulonglong: u64 = lr_put_ulonglong;
    }

    /// A `float`.
    ///
    /// # Errors
    ///
    /// `Range`: more was written than a message can have.
    pub fn float(&mut self, value: f32) -> Result<&mut Writer, Error> {
        self.ulong(value.to_bits())
    }

    /// A `double`.
    ///
    /// # Errors
    ///
    /// `Range`: more was written than a message can have.
    pub fn double(&mut self, value: f64) -> Result<&mut Writer, Error> {
        self.ulonglong(value.to_bits())
    }

    /// A `boolean`.
    ///
    /// # Errors
    ///
    /// `Range`: more was written than a message can have.
    pub fn boolean(&mut self, value: bool) -> Result<&mut Writer, Error> {
        // SAFETY: the room is lent.
        self.put(0, |room, size, place| unsafe {
            sys::lr_put_boolean(room, size, place, value.into())
        })
    }

    /// A `string`, whose NUL is written after it.
    ///
    /// # Errors
    ///
    /// `Text`, where a NUL is in it; `Long`, and `Range`: more is written than a message can have.
    pub fn string(&mut self, text: impl AsRef<[u8]>) -> Result<&mut Writer, Error> {
        let text = text.as_ref();
        // SAFETY: the room and the text are lent; they don't overlap.
        self.put(text.len(), |room, size, place| unsafe {
            sys::lr_put_string(room, size, place, text.as_ptr().cast(), text.len())
        })
    }

    /// A `sequence<octet>`.
    ///
    /// # Errors
    ///
    /// `Long`, and `Range`: more is written than a message can have.
    pub fn octets(&mut self, octets: impl AsRef<[u8]>) -> Result<&mut Writer, Error> {
        let data = octets.as_ref();
        // SAFETY: the room and the octets are lent; they don't overlap.
        self.put(data.len(), |room, size, place| unsafe {
            sys::lr_put_octets(room, size, place, data.as_ptr().cast(), data.len())
        })
    }

    /// Octets as they are, aligned as a number of so many.
    pub(crate) fn raw(&mut self, octets: impl IntoIterator<Item = u8>, alignment: usize) {
        let padding = padding(self.place(), alignment);
        self.octets.resize(self.octets.len() + padding, 0);
        self.octets.extend(octets);
        self.place.next = self.octets.len() as u64;
    }

    /// The place of the next octet.
    pub(crate) fn place(&self) -> u64 {
        self.place.at.wrapping_add(self.place.next)
    }

    /// What was written.
    #[must_use]
    pub fn as_octets(&self) -> &[u8] {
        &self.octets
    }

    /// What was written.
    #[must_use]
    pub fn into_octets(self) -> Vec<u8> {
        self.octets
    }

    /// The order of the numbers.
    #[must_use]
    pub fn order(&self) -> Order {
        Order::from_number(self.place.order).unwrap_or(Order::Big)
    }
}
