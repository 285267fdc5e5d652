//! Which objects a server has.

use crate::error::done;
use crate::sys::{self, lr_slot};
use crate::types::codes_of;
use crate::{Error, Type};
use alloc::vec::Vec;

/// The types of an operation.
#[derive(Clone, Copy, Debug, Default)]
pub struct Signature<'a> {
    /// Those of its arguments: the `in` and `inout` parameters in order.
    pub arguments: &'a [Type<'a>],
    /// Those of its results: the return value, and then the `inout` and `out` parameters in order.
    pub results: &'a [Type<'a>],
    /// The exceptions that it raises: the repository id, and the types of the members.
    pub raises: &'a [(&'a str, &'a [Type<'a>])],
}

impl<'a> Signature<'a> {
    /// The types of an operation that raises no exceptions.
    #[must_use]
    pub const fn new(arguments: &'a [Type<'a>], results: &'a [Type<'a>]) -> Signature<'a> {
        Signature { arguments, results, raises: &[] }
    }
}

/// Which objects a server has, and which operations they have. Where a call fails nothing has
/// changed.
///
/// ```
/// use lemonrudder::{Catalogue, Signature, Type};
///
/// // exception Overdrawn { long long balance; };
/// // long long deposit(in string account, in long long cents) raises (Overdrawn);
/// const DEPOSIT: Signature = Signature {
///     arguments: &[Type::String, Type::LongLong],
///     results: &[Type::LongLong],
///     raises: &[("IDL:Bank/Overdrawn:1.0", &[Type::LongLong])],
/// };
///
/// let mut catalogue = Catalogue::open()?;
/// catalogue.object("bank")?;
/// catalogue.operation("bank", "deposit", &DEPOSIT)?;
/// # Ok::<(), lemonrudder::Error>(())
/// ```
#[derive(Debug)]
pub struct Catalogue {
    pub(crate) slot: lr_slot,
}

impl Catalogue {
    /// A catalogue without objects.
    ///
    /// # Errors
    ///
    /// `Memory`.
    pub fn open() -> Result<Catalogue, Error> {
        let mut slot = lr_slot::empty();
        done(sys::lr_catalogue_open(&mut slot))?;
        Ok(Catalogue { slot })
    }

    /// Adds an object without operations, by its key.
    ///
    /// # Errors
    ///
    /// `Taken`, `Memory`.
    pub fn object(&mut self, key: impl AsRef<[u8]>) -> Result<(), Error> {
        let key = key.as_ref();
        // SAFETY: the key is lent.
        done(unsafe { sys::lr_catalogue_object(&mut self.slot, key.as_ptr().cast(), key.len()) })
    }

    /// Adds an object whose every operation is raw.
    ///
    /// # Errors
    ///
    /// `Taken`, `Memory`.
    pub fn raw_object(&mut self, key: impl AsRef<[u8]>) -> Result<(), Error> {
        let key = key.as_ref();
        // SAFETY: the key is lent.
        done(unsafe {
            sys::lr_catalogue_raw_object(&mut self.slot, key.as_ptr().cast(), key.len())
        })
    }

    /// Adds an operation of an object.
    ///
    /// # Errors
    ///
    /// `Types`, `Text`, `Object`, `Raw`, `Taken`, `Memory`.
    pub fn operation(
        &mut self,
        key: impl AsRef<[u8]>,
        name: impl AsRef<[u8]>,
        signature: &Signature<'_>,
    ) -> Result<(), Error> {
        let (arguments, results) = (codes_of(signature.arguments)?, codes_of(signature.results)?);
        let raises = signature.raises.iter();
        let declared = raises.map(|(id, members)| Ok((*id, codes_of(members)?)));
        for (id, members) in declared.collect::<Result<Vec<_>, Error>>()? {
            if let Err(error) = self.declare(id, &members) {
                // those before it are forgotten with an operation that is refused for its name
                let _refused = self.add(key.as_ref(), b"\0", &[], &[]);
                return Err(error);
            }
        }
        self.add(key.as_ref(), name.as_ref(), &arguments, &results)
    }

    /// Declares an exception of the operation that is added next.
    fn declare(&mut self, id: &str, members: &[u8]) -> Result<(), Error> {
        // SAFETY: the id and the codes are lent.
        done(unsafe {
            sys::lr_catalogue_exception(
                &mut self.slot,
                id.as_ptr().cast(),
                id.len(),
                members.as_ptr(),
                members.len(),
            )
        })
    }

    /// Adds an operation, with the exceptions that were declared.
    fn add(
        &mut self,
        key: &[u8],
        name: &[u8],
        arguments: &[u8],
        results: &[u8],
    ) -> Result<(), Error> {
        // SAFETY: the key, the name and the codes are lent.
        done(unsafe {
            sys::lr_catalogue_operation(
                &mut self.slot,
                key.as_ptr().cast(),
                key.len(),
                name.as_ptr().cast(),
                name.len(),
                arguments.as_ptr(),
                arguments.len(),
                results.as_ptr(),
                results.len(),
            )
        })
    }

    /// Adds an operation that is raw: you read its arguments, and write the bodies of its replies.
    ///
    /// # Errors
    ///
    /// `Text`, `Object`, `Raw`, `Taken`, `Memory`.
    pub fn raw_operation(
        &mut self,
        key: impl AsRef<[u8]>,
        name: impl AsRef<[u8]>,
    ) -> Result<(), Error> {
        let (key, name) = (key.as_ref(), name.as_ref());
        // SAFETY: the key and the name are lent.
        done(unsafe {
            sys::lr_catalogue_raw_operation(
                &mut self.slot,
                key.as_ptr().cast(),
                key.len(),
                name.as_ptr().cast(),
                name.len(),
            )
        })
    }

    /// Names the repository ids of an object, as `IDL:Bank:1.0`. It has the operations `_is_a` and
    /// `_non_existent` then, as a checked narrow of an ORB asks for;
    /// [`Server::serve`](crate::Server::serve) answers them.
    ///
    /// # Errors
    ///
    /// `Text`, `Object`, `Raw`, `Taken`, `Memory`.
    pub fn repository_ids(&mut self, key: impl AsRef<[u8]>, ids: &[&str]) -> Result<(), Error> {
        let key = key.as_ref();
        if ids.iter().any(|id| id.contains('\0')) {
            return Err(Error::Text);
        }
        let ids: Vec<u8> = ids.iter().flat_map(|id| id.bytes().chain([0])).collect();
        // SAFETY: the key and the ids are lent.
        done(unsafe {
            sys::lr_catalogue_repository_ids(
                &mut self.slot,
                key.as_ptr().cast(),
                key.len(),
                ids.as_ptr().cast(),
                ids.len(),
            )
        })
    }

    /// Takes the objects of another catalogue. Each key that is no object's own, and begins with the
    /// key of one of these, leads to that object: to the one of the longest such key. So one object
    /// stands for many, as for each account. Exceptions that were declared there for an operation to
    /// come are forgotten.
    ///
    /// # Errors
    ///
    /// `Taken`, where one of the two has families already, or a default object; the other one is
    /// gone then.
    pub fn families(&mut self, mut families: Catalogue) -> Result<(), Error> {
        done(sys::lr_catalogue_families(&mut self.slot, &mut families.slot))
    }

    /// Adds an object whose every operation is raw, to which each key leads that leads to no other
    /// object: the family of the empty key. So it comes after [`families`](Catalogue::families).
    ///
    /// # Errors
    ///
    /// `Taken`, where it was called before, or a family has the empty key, and `Memory`.
    pub fn default_object(&mut self) -> Result<(), Error> {
        done(sys::lr_catalogue_default(&mut self.slot))
    }

    /// Takes an object away, with its operations.
    ///
    /// # Errors
    ///
    /// `Object`.
    pub fn remove(&mut self, key: impl AsRef<[u8]>) -> Result<(), Error> {
        let key = key.as_ref();
        // SAFETY: the key is lent.
        done(unsafe { sys::lr_catalogue_remove(&mut self.slot, key.as_ptr().cast(), key.len()) })
    }
}
