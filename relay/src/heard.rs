//! What the messages of a client mean.

use crate::forward::{self, Request, CODE_SETS};
use crate::front::Why;
use crate::reasons::Refusal;
use crate::wire::locked;
use lemonrudder::{write, LocateStatus, Message, MessageType, Version, Wish};
use std::collections::BTreeMap;
use std::sync::{Arc, Mutex};
use tokio::sync::oneshot;

/// The requests of a connection that may be cancelled, by their ids.
pub type Cancels = Arc<Mutex<BTreeMap<u32, oneshot::Sender<()>>>>;

/// What tells whether a request is cancelled.
pub struct Cancelled {
    said: oneshot::Receiver<()>,
    id: u32,
    cancels: Cancels,
}

impl Cancelled {
    /// A request of an id among those that may be cancelled.
    pub fn of(cancels: &Cancels, id: u32) -> Cancelled {
        let (cancel, said) = oneshot::channel();
        locked(cancels).insert(id, cancel);
        Cancelled { said, id, cancels: cancels.clone() }
    }

    /// Ends where the client sends a CancelRequest, and else never.
    pub async fn is_said(&mut self) {
        if (&mut self.said).await.is_err() {
            std::future::pending::<()>().await;
        }
    }
}

impl Drop for Cancelled {
    fn drop(&mut self) {
        locked(&self.cancels).remove(&self.id);
    }
}

/// What a message wants.
pub enum Heard {
    Performed(Box<Request>, u32),
    Refused(Refusal, Version, u32, bool),
    Answered(Vec<u8>),
    Cancelled(u32),
    Nothing,
}

/// What a message means that came on a connection.
///
/// # Errors
///
/// The connection ends by it.
pub fn heard(
    message: &mut Message<'_>,
    is_long: bool,
    sets: &mut Option<Vec<u8>>,
    cancels: &Cancels,
) -> Result<Heard, Why> {
    let id = message.request_id();
    Ok(match message.message_type() {
        MessageType::Request => asked(message, is_long, sets),
        MessageType::LocateRequest => {
            let (version, order) = (message.version(), message.order());
            let here = write::locate_reply(version, order, id, LocateStatus::ObjectHere);
            Heard::Answered(here.map_err(|_| Why::Memory)?)
        }
        MessageType::CancelRequest => {
            if let Some(cancel) = locked(cancels).remove(&id) {
                _ = cancel.send(());
            }
            Heard::Cancelled(id)
        }
        MessageType::CloseConnection => return Err(Why::Goodbye),
        MessageType::MessageError => return Err(Why::Error),
        MessageType::Fragment => Heard::Nothing,
        MessageType::Reply | MessageType::LocateReply => return Err(Why::Direction),
    })
}

/// What a Request means.
fn asked(message: &mut Message<'_>, is_long: bool, sets: &mut Option<Vec<u8>>) -> Heard {
    let (id, version) = (message.request_id(), message.version());
    let request = if is_long { Err(Refusal::Long) } else { forward::request_of(message) };
    let mut request = match request {
        Ok(request) => request,
        Err(refusal) => {
            let is_wished = message.wish() != Some(Wish::None);
            return Heard::Refused(refusal, version, id, is_wished);
        }
    };
    let contexts = &mut request.head.contexts;
    match contexts.iter().find(|(id, _)| *id == CODE_SETS) {
        Some((_, data)) => *sets = Some(data.clone()),
        // (GIOP 1.0 has none)
        None if version != Version::V10 => {
            contexts.extend(sets.clone().map(|data| (CODE_SETS, data)))
        }
        None => {}
    }
    Heard::Performed(Box::new(request), id)
}
