//! Bodies of operations whose types can't be made.

use super::Vec;
use crate::cdr::{Reader, Writer};
use crate::{Error, Order};

/// The body of a message of an operation whose types can't be made: octets in an order, the first of
/// which stands at a place, from which they are aligned. That of an exception begins with its id.
#[derive(Clone, Debug, PartialEq, Eq)]
pub struct Body {
    /// The octets.
    pub octets: Vec<u8>,
    /// The order of their numbers.
    pub order: Order,
    /// The place of the first one: of what is sent a multiple of 8.
    pub at: u64,
}

impl Body {
    /// Reads what is in it.
    #[must_use]
    pub fn reader(&self) -> Reader<'_> {
        Reader::at(&self.octets, self.order, self.at)
    }

    /// The repository id at its front; empty where there is none.
    #[must_use]
    pub fn id(&self) -> &str {
        self.reader().text().unwrap_or("")
    }

    /// All that a reader has.
    #[doc(hidden)]
    pub fn take(reader: &mut Reader<'_>) -> Body {
        let (octets, at) = reader.all();
        Body { octets: octets.to_vec(), order: reader.order(), at }
    }

    /// Writes it in place of all that was written.
    ///
    /// # Errors
    ///
    /// `Range`: it begins at another place.
    #[doc(hidden)]
    pub fn put(&self, writer: &mut Writer) -> Result<(), Error> {
        if self.at % 8 != 0 {
            return Err(Error::Range);
        }
        *writer = Writer::of(self.order, self.octets.clone());
        Ok(())
    }
}

impl From<Writer> for Body {
    fn from(writer: Writer) -> Body {
        let order = writer.order();
        Body { octets: writer.into_octets(), order, at: 0 }
    }
}
