//! Reasons: why requests are refused, and why streams end.

use crate::forward::Answer;
use crate::guard::DECLINED;
use crate::store::Outcome;
use lemonrudder::{Completed, Fault, Order, Status};

/// Why a request is answered by what is not kept.
#[derive(Clone, Copy, Debug, PartialEq, Eq)]
pub enum Refusal {
    Long,
    Contexts,
    FtRequest,
    Client,
    Memory,
    Unread,
    Partial,
    /// Its target is given in another way than by an object key, which it has to be.
    Addressing,
    Stranger,
    Keyless,
    Forbidden,
    Share,
    Sets,
    Expired,
    Keep,
    Forgotten,
    Store,
    /// It is meant for another store.
    Elsewhere,
    Server,
    Time,
}

impl Refusal {
    /// Why, in words.
    #[must_use]
    pub fn reason(self) -> &'static str {
        match self {
            Refusal::Long => "it is too long",
            Refusal::Contexts => "it has too many service contexts",
            Refusal::FtRequest => "its FT_REQUEST is not valid",
            Refusal::Client => "its client id is too long",
            Refusal::Memory => "memory is short",
            Refusal::Unread => "it does not read",
            Refusal::Partial => "too many are partial",
            Refusal::Addressing => "its target is no object key",
            Refusal::Stranger => "its client id is not for this certificate",
            Refusal::Keyless => "without a key it is not for this certificate",
            Refusal::Forbidden => "its object or operation is not for this certificate",
            Refusal::Share => "its client has too many under way",
            Refusal::Sets => "too many code sets are under way",
            Refusal::Expired => "it has expired",
            Refusal::Keep => "it expires too late",
            Refusal::Forgotten => "it expired while it was under way",
            Refusal::Store => "the store is away",
            Refusal::Elsewhere => "it was meant for another store",
            Refusal::Server => "no server has got it",
            Refusal::Time => "no guard has got it in time",
        }
    }

    /// Whether a line of the log says it elsewhere, once for all requests.
    #[must_use]
    pub fn is_said_once(self) -> bool {
        matches!(self, Refusal::Store | Refusal::Elsewhere | Refusal::Server | Refusal::Time)
    }

    /// What is answered: the name of a system exception, its minor code, and COMPLETED_NO, but where
    /// it was begun. A server of the library says the same of what it refuses. It knows no DECLINED: of
    /// what has that, whoever sends it again has it performed.
    fn row(self) -> (&'static str, u32, Completed) {
        match self {
            // (a server of the library ends the connection)
            Refusal::Long => ("IMP_LIMIT", 0, Completed::No),
            Refusal::Memory => ("NO_MEMORY", 0, Completed::No),
            // (.. and these it does not know)
            Refusal::Contexts | Refusal::Addressing | Refusal::Partial => {
                ("IMP_LIMIT", 0, Completed::No)
            }
            Refusal::Stranger | Refusal::Keyless | Refusal::Forbidden => {
                ("NO_PERMISSION", DECLINED, Completed::No)
            }
            Refusal::Keep => ("BAD_CONTEXT", 0, Completed::No),
            Refusal::Forgotten => ("BAD_CONTEXT", 0, Completed::Maybe),
            Refusal::Time => ("TIMEOUT", 0, Completed::No),
            // .. and these it says too
            Refusal::FtRequest | Refusal::Unread => ("MARSHAL", 0, Completed::No),
            Refusal::Client | Refusal::Expired => ("BAD_CONTEXT", 0, Completed::No),
            Refusal::Share | Refusal::Sets => ("NO_RESOURCES", DECLINED, Completed::No),
            // .. as its owner does that declines
            Refusal::Store | Refusal::Elsewhere | Refusal::Server => {
                ("TRANSIENT", DECLINED, Completed::No)
            }
        }
    }

    /// Whether nothing was performed, nor will be, by the transmission that is refused.
    #[must_use]
    pub fn is_void(self) -> bool {
        self.row().2 == Completed::No
    }

    /// What is answered.
    #[must_use]
    pub fn answer(self) -> Answer {
        if self == Refusal::Addressing {
            return by_key();
        }
        let (name, minor, completed) = self.row();
        Answer::system(name, minor, completed)
    }
}

/// The client is to give the object's key (CORBA 3.3 Part 2, 9.4.3.1).
fn by_key() -> Answer {
    let status = Status::NeedsAddressingMode.number();
    Outcome::whole(status, Order::Big, vec![0, 0]).into()
}

/// What the fault of a stream is called.
#[must_use]
pub fn of_fault(fault: Option<Fault>) -> &'static str {
    match fault {
        Some(Fault::Magic) => "what came is no GIOP",
        Some(Fault::Version) => "a version of GIOP that is not known",
        Some(Fault::Flags | Fault::Type) => "flags or a type that the version of GIOP lacks",
        Some(Fault::Cut | Fault::UnalignedFragment) => "fragments where none may be",
        Some(Fault::StrayFragment) => "a fragment of no message",
        Some(Fault::TwiceStarted) => "a message amid the fragments of another",
        Some(Fault::MixedOrder) => "fragments of different orders",
        Some(Fault::TooManyPartial) => "too many messages are partial",
        Some(Fault::TooLarge) => "a message is too long",
        Some(Fault::Memory) => "memory is short",
        Some(Fault::Body) | None => "a message that does not read",
    }
}

#[cfg(test)]
mod tests {
    use super::*;
    use lemonrudder::cdr::Writer;
    use lemonrudder::write::{self, Request};
    use lemonrudder::{
        Assembler, Catalogue, FtRequest, Limits, Moment, Server, Settings, Version, Wish,
    };

    const NOW: Moment = Moment(50);

    /// A Request with these octets as FT_REQUEST.
    fn request(context: &[u8]) -> Vec<u8> {
        let (version, order, context) = (Version::V12, Order::Big, Some((13, context)));
        let (wish, key, operation) = (Wish::Full, &b"k"[..], "f");
        write::request(&Request {
            version,
            order,
            request_id: 5,
            wish,
            key,
            operation,
            context,
            body: &[],
        })
        .unwrap()
    }

    /// One of a client, which expires at a moment.
    fn named(client_id: &[u8], expiration: u64) -> Vec<u8> {
        let said = FtRequest { client_id, retention_id: 7, expiration: Moment(expiration) };
        request(&write::ft_request(Order::Big, &said).unwrap())
    }

    /// What a server of the library replies to a request, that keeps one outcome of each client and
    /// has one of `A`: the status and the body.
    fn replied(octets: &[u8]) -> (u32, Vec<u8>) {
        let mut catalogue = Catalogue::open().unwrap();
        catalogue.raw_object(b"k").unwrap();
        let settings = Settings::new([1, 2]).share(1);
        let mut server = Server::open(catalogue, &settings).unwrap();
        server.connect(1).unwrap();
        let said = FtRequest { client_id: b"A", retention_id: 1, expiration: Moment(100) };
        let first = request(&write::ft_request(Order::Big, &said).unwrap());
        for octets in [&first[..], octets] {
            server.take_output(1);
            let none = Writer::new(Order::Big);
            let served =
                server.serve(1, NOW, octets, |asked| asked.answer_raw(Status::NoException, &none));
            assert_eq!(served, Ok(octets.len()));
        }
        let octets = server.take_output(1);
        let mut assembler = Assembler::open(Limits::default()).unwrap();
        assert_eq!(assembler.feed(&octets), Ok(octets.len()));
        let message = assembler.message().unwrap().unwrap();
        (message.status().map_or(0, Status::number), message.body().to_vec())
    }

    #[test]
    fn a_refusal_is_that_of_a_server_of_the_library() {
        for (refusal, octets) in [
            (Refusal::FtRequest, request(b"\0\0\0\0")),
            (Refusal::Client, named(&[b'A'; 257], 100)),
            (Refusal::Expired, named(b"B", 49)),
            (Refusal::Share, named(b"A", 100)),
        ] {
            let (name, minor, completed) = refusal.row();
            assert!([0, DECLINED].contains(&minor));
            let Outcome { status, body, .. } = Outcome::system(name, 0, completed);
            assert_eq!(replied(&octets), (status, body), "{refusal:?}");
        }
    }
}
