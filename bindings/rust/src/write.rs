//! Writing messages.
//!
//! Each function gives a whole message.
//!
//! A body is octets that were written for a place divisible by 8, as those of a
//! [`Writer`] are. In 1.2 it stands at such a place.

use crate::cdr::Writer;
use crate::error::written;
use crate::sys;
use crate::{Error, FtRequest, LocateStatus, Order, Status, Version, Wish};
use alloc::vec::Vec;

/// What a message takes at most beside the octets that are given.
const MOST: usize = 128;

/// The id of the service context FT_REQUEST (CORBA 3.3 Part 2, 7.7.1).
pub const FT_REQUEST: u32 = sys::LR_CONTEXT_FT_REQUEST;
/// The id of that of a transaction.
pub const TRANSACTION: u32 = sys::LR_CONTEXT_TRANSACTION;
/// The id of that of code sets.
pub const CODE_SETS: u32 = sys::LR_CONTEXT_CODE_SETS;
/// The id of that of the security attributes of a request.
pub const SECURITY: u32 = sys::LR_CONTEXT_SECURITY;

/// A Request to an object key.
#[derive(Clone, Copy, Debug)]
pub struct Request<'a> {
    /// Its version.
    pub version: Version,
    /// The order of its numbers, those of its body among them.
    pub order: Order,
    /// Its request id.
    pub request_id: u32,
    /// Which reply it asks for.
    pub wish: Wish,
    /// The key of the object.
    pub key: &'a [u8],
    /// The name of the operation.
    pub operation: &'a str,
    /// The id and the data of a service context. One without data is left out.
    pub context: Option<(u32, &'a [u8])>,
    /// The arguments, written for a place divisible by 8, in the order of the message.
    pub body: &'a [u8],
}

/// A Request.
///
/// # Errors
///
/// `Range`, `Text`, `Long`, `Memory`; and of 1.0 and 1.1 `Place`: its body would stand at a place
/// that is not divisible by 8.
pub fn request(request: &Request<'_>) -> Result<Vec<u8>, Error> {
    let Request { key, operation, body, .. } = *request;
    let (context_id, context) = request.context.unwrap_or_default();
    let size = MOST + key.len() + operation.len() + context.len() + body.len();
    // SAFETY: the room, the key, the name, the context and the body are lent; they don't overlap.
    written(size, |room| unsafe {
        sys::lr_write_request(
            room.as_mut_ptr().cast(),
            room.len(),
            request.version.number(),
            request.order.number(),
            request.request_id,
            request.wish.number(),
            key.as_ptr().cast(),
            key.len(),
            operation.as_ptr().cast(),
            operation.len(),
            context_id,
            context.as_ptr().cast(),
            context.len(),
            body.as_ptr().cast(),
            body.len(),
        )
    })
}

/// A Reply without service contexts. Its body is written for a place divisible by 8, in the order
/// of the message.
///
/// # Errors
///
/// `Range`, `Long`, `Memory`.
pub fn reply(
    version: Version,
    order: Order,
    request_id: u32,
    status: Status,
    body: &[u8],
) -> Result<Vec<u8>, Error> {
    // SAFETY: the room and the body are lent; they don't overlap.
    written(MOST + body.len(), |room| unsafe {
        sys::lr_write_reply(
            room.as_mut_ptr().cast(),
            room.len(),
            version.number(),
            order.number(),
            request_id,
            status.number(),
            body.as_ptr().cast(),
            body.len(),
        )
    })
}

/// A CancelRequest.
///
/// # Errors
///
/// None: the library takes no memory for it.
pub fn cancel_request(version: Version, order: Order, request_id: u32) -> Result<Vec<u8>, Error> {
    let (version, order) = (version.number(), order.number());
    // SAFETY: the room is lent.
    written(MOST, |room| unsafe {
        sys::lr_write_cancel(room.as_mut_ptr().cast(), room.len(), version, order, request_id)
    })
}

/// A LocateRequest of an object key.
///
/// # Errors
///
/// `Long`, `Memory`.
pub fn locate_request(
    version: Version,
    order: Order,
    request_id: u32,
    key: &[u8],
) -> Result<Vec<u8>, Error> {
    // SAFETY: the room and the key are lent; they don't overlap.
    written(MOST + key.len(), |room| unsafe {
        sys::lr_write_locate_request(
            room.as_mut_ptr().cast(),
            room.len(),
            version.number(),
            order.number(),
            request_id,
            key.as_ptr().cast(),
            key.len(),
        )
    })
}

/// A LocateReply without a body.
///
/// # Errors
///
/// `Range`: its version has no such status.
pub fn locate_reply(
    version: Version,
    order: Order,
    request_id: u32,
    status: LocateStatus,
) -> Result<Vec<u8>, Error> {
    // SAFETY: the room is lent.
    written(MOST, |room| unsafe {
        sys::lr_write_locate_reply(
            room.as_mut_ptr().cast(),
            room.len(),
            version.number(),
            order.number(),
            request_id,
            status.number(),
        )
    })
}

/// A CloseConnection.
///
/// # Errors
///
/// None: the library takes no memory for it.
pub fn close_connection() -> Result<Vec<u8>, Error> {
    // SAFETY: the room is lent.
    written(MOST, |room| unsafe { sys::lr_write_close(room.as_mut_ptr().cast(), room.len()) })
}

/// A MessageError.
///
/// # Errors
///
/// None: the library takes no memory for it.
pub fn message_error() -> Result<Vec<u8>, Error> {
    // SAFETY: the room is lent.
    written(MOST, |room| unsafe { sys::lr_write_error(room.as_mut_ptr().cast(), room.len()) })
}

/// The data of the service context [`FT_REQUEST`].
///
/// # Errors
///
/// `Text`, where the client's id has a NUL; `Long`, `Memory`.
pub fn ft_request(order: Order, said: &FtRequest<'_>) -> Result<Vec<u8>, Error> {
    let client = said.client_id;
    // SAFETY: the room and the id are lent; they don't overlap.
    written(MOST + client.len(), |room| unsafe {
        sys::lr_write_ft(
            room.as_mut_ptr().cast(),
            room.len(),
            order.number(),
            client.as_ptr().cast(),
            client.len(),
            said.retention_id,
            said.expiration.0,
        )
    })
}

/// A list of service contexts: the id and the data of each (CORBA 3.3 Part 2, 7.7).
///
/// # Errors
///
/// `Long`, and `Range`: more is written than a message can have.
pub fn contexts(order: Order, contexts: &[(u32, &[u8])]) -> Result<Vec<u8>, Error> {
    let mut list = Writer::new(order);
    list.ulong(u32::try_from(contexts.len()).map_err(|_| Error::Long)?)?;
    for (id, data) in contexts {
        list.ulong(*id)?.octets(data)?;
    }
    Ok(list.as_octets().to_vec())
}
