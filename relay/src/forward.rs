//! Requests and replies: from the messages that came, and what goes on of them.

use crate::compose::{self, Body, Contexts, Head};
use crate::mark::Meant;
use crate::pool::{Places, Reply};
use crate::reasons::Refusal;
use crate::reference;
use crate::sets;
use crate::store::{Key, Outcome};
use crate::wire;
use lemonrudder::cdr::{Reader, Writer};
use lemonrudder::{Completed, Error, Ior, Message, Moment, Order, Status, Version, Wish};
use std::net::SocketAddr;
use std::sync::Arc;

/// The ids of the service contexts that belong to a connection (CORBA 3.3 Part 2, 7.7.1): its code
/// sets, and that its server may ask on it.
pub const CODE_SETS: u32 = 1;
const BI_DIR_IIOP: u32 = 5;
/// That of FT_REQUEST.
pub const FT_REQUEST: u32 = 13;
/// How many service contexts are looked at.
const CONTEXTS: usize = 32;
/// How many profiles a forward may have.
pub const PROFILES: usize = 16;
/// How many octets a client's id may have.
const CLIENT: usize = 256;

/// What a request says by FT_REQUEST.
#[derive(Clone, Debug, PartialEq, Eq)]
pub struct Ft {
    pub key: Key,
    pub expiration: Moment,
}

/// A request as it came. Its service contexts are those that go on: without FT_REQUEST, without
/// BiDirIIOPServiceContext, since nobody hears here what its server would ask, and without code sets
/// that are none.
#[derive(Clone, Debug, PartialEq, Eq)]
pub struct Request {
    pub head: Head,
    /// (Its connection to a server has it too, until it is sent.)
    pub body: Arc<Body>,
    pub ft: Option<Ft>,
    /// For which store it is meant.
    pub meant: Meant,
}

/// What a request is answered.
#[derive(Clone, Debug, PartialEq, Eq)]
pub struct Answer {
    /// The status of the Reply, by its number.
    pub status: u32,
    pub order: Order,
    pub contexts: Contexts,
    pub body: Body,
}

/// Whether a number is that of a status.
fn is(status: u32, wanted: Status) -> bool {
    status == wanted.number()
}

/// Whether a reply of this status leads elsewhere.
#[must_use]
pub fn is_forward(status: u32) -> bool {
    is(status, Status::LocationForward) || is(status, Status::LocationForwardPerm)
}

/// The request that a message is.
///
/// # Errors
///
/// Why it is refused: it has more service contexts than are looked at, or no object key, or a
/// FT_REQUEST that is not valid.
pub fn request_of(message: &mut Message<'_>) -> Result<Request, Refusal> {
    if message.contexts().len() > CONTEXTS {
        return Err(Refusal::Contexts);
    }
    let ft = message.ft_request().map(|said| Ft {
        key: Key { client: said.client_id.to_vec(), number: said.retention_id },
        expiration: said.expiration,
    });
    if ft.as_ref().is_some_and(|ft| ft.key.client.len() > CLIENT) {
        return Err(Refusal::Client);
    }
    let mut contexts = contexts_of(message, ft.is_some())?;
    let meant = Meant::taken(&mut contexts);
    let Some(key) = message.key() else { return Err(Refusal::Addressing) };
    let head = Head {
        version: message.version(),
        order: message.order(),
        wish: message.wish().unwrap_or(Wish::Full),
        key: key.to_vec(),
        operation: message.operation().to_vec(),
        contexts,
    };
    let body = Body::at(message.place(), message.body().to_vec());
    Ok(Request { head, body: body.into(), ft, meant })
}

/// The service contexts of a request that go on, which has one of FT_REQUEST that is valid, or not.
fn contexts_of(message: &mut Message<'_>, is_keyed: bool) -> Result<Contexts, Refusal> {
    let all = message.contexts();
    if all.len() <= usize::from(is_keyed) {
        return Ok(Contexts::new());
    }
    let mut contexts = all.collect::<Result<Contexts, Error>>().map_err(|_| Refusal::Memory)?;
    if !is_keyed && contexts.iter().any(|(id, _)| *id == FT_REQUEST) {
        return Err(Refusal::FtRequest);
    }
    contexts.retain(|(id, data)| match *id {
        FT_REQUEST | BI_DIR_IIOP | compose::PADDING => false,
        CODE_SETS => sets::read(data).is_some(),
        _ => true,
    });
    Ok(contexts)
}

/// The reply that a message is. Of more service contexts than are looked at none goes on.
pub fn reply_of(message: &mut Message<'_>) -> Reply {
    let contexts = match message.contexts() {
        contexts if contexts.len() > CONTEXTS => Contexts::new(),
        contexts => contexts.filter_map(Result::ok).collect(),
    };
    Reply {
        status: message.status().map_or(0, Status::number),
        order: message.order(),
        contexts: contexts.into_iter().filter(|(id, _)| *id != compose::PADDING).collect(),
        body: Body::at(message.place(), message.body().to_vec()),
    }
}

impl From<Outcome> for Answer {
    fn from(outcome: Outcome) -> Answer {
        let Outcome { status, order, place, body, cuts } = outcome;
        let body = Body { octets: body, place: place.into(), cuts };
        Answer { status, order, contexts: Contexts::new(), body }
    }
}

impl Answer {
    /// A system exception by its name, as `COMM_FAILURE`.
    #[must_use]
    pub fn system(name: &str, minor: u32, completed: Completed) -> Answer {
        Outcome::system(name, minor, completed).into()
    }

    /// No results: what is kept of a request that wishes no reply.
    #[must_use]
    pub fn nothing() -> Answer {
        let status = Status::NoException.number();
        Outcome::whole(status, Order::Big, Vec::new()).into()
    }

    /// Whether it leads elsewhere, as an answer by which nothing is performed.
    #[must_use]
    pub fn is_forward(&self) -> bool {
        is_forward(self.status)
    }

    /// The outcome that it is. A body that means the same at each multiple of 4 has the place 0, so
    /// that it can stand in a Reply of any version: that of a system exception has nothing that is
    /// aligned to more than 4.
    #[must_use]
    pub fn outcome(&self) -> Outcome {
        let (place, Body { octets, cuts, .. }) = (self.place(), self.body.clone());
        Outcome { status: self.status, order: self.order, place, body: octets, cuts }
    }

    /// The place of the body of that outcome.
    fn place(&self) -> u8 {
        let Body { octets, place, .. } = &self.body;
        let is_free = octets.len() <= 4 || is(self.status, Status::SystemException);
        let place = if is_free && place % 4 == 0 { 0 } else { place % 8 };
        u8::try_from(place).unwrap_or(0)
    }

    /// Whether an outcome is its own.
    #[must_use]
    pub fn is_kept_as(&self, outcome: &Outcome) -> bool {
        let Outcome { status, order, place, body, .. } = outcome;
        let is_same = *body == self.body.octets && *place == self.place();
        is_same && (*status, *order) == (self.status, self.order)
    }

    /// The Reply to the request of an id. Where it would be too long, that says so.
    #[must_use]
    pub fn reply(&self, version: Version, id: u32) -> Vec<u8> {
        let Answer { status, order, contexts, body } = self;
        compose::reply(version, *order, id, *status, contexts, body).unwrap_or_else(|| {
            let long = Answer::system("IMP_LIMIT", 0, Completed::Yes);
            compose::reply(version, long.order, id, long.status, &long.contexts, &long.body)
                .unwrap_or_default()
        })
    }
}

/// Which addresses a relay stands before, and its own.
pub struct Guarded {
    /// Where clients find it, where that is not where it listens.
    pub published: Vec<(String, u16)>,
    pub listens: Vec<(String, u16)>,
    pub servers: Arc<dyn Places>,
}

impl Guarded {
    /// What a client is told of a reply that found this relay at an address. A reference to which it
    /// is forwarded leads to the relay, over TLS or not.
    ///
    /// # Errors
    ///
    /// Says why the server's reply can't be passed on: it leads elsewhere, or wants another
    /// addressing of its object. The server has not performed the request then.
    pub async fn told(
        &self,
        reply: Reply,
        found: SocketAddr,
        is_tls: bool,
    ) -> Result<Answer, String> {
        let Reply { status, order, mut contexts, body } = reply;
        // (that of a guard which stands where a server does)
        contexts.retain(|(id, _)| *id != compose::STORE);
        if is(status, Status::NeedsAddressingMode) {
            return Err("the server wants another addressing of its object".into());
        }
        if !is_forward(status) {
            return Ok(Answer { status, order, contexts, body });
        }
        let body = Box::pin(self.led(order, &body, found, is_tls)).await?;
        Ok(Answer { status, order, contexts, body })
    }

    /// The body of a forward, made to lead to this relay, which was found at an address.
    async fn led(
        &self,
        order: Order,
        body: &Body,
        found: SocketAddr,
        is_tls: bool,
    ) -> Result<Body, String> {
        let (text, places) = reference_in(order, body)?;
        let here = (found.ip().to_string(), found.port());
        let mut guarded =
            [&self.published[..], &self.listens, std::slice::from_ref(&here)].concat();
        guarded.extend(self.servers.addresses().iter().filter_map(|it| wire::parts_of(it)));
        for place in places {
            if !wire::is_among(&place, &guarded).await {
                let place = wire::words_of(&wire::shown(place.0.as_bytes()), place.1);
                return Err(format!("it forwards to {place}, which is not guarded"));
            }
        }
        let (host, port) = self.published.first().unwrap_or(&here);
        led(order, &reference::at(&text, host, *port, is_tls)?)
    }
}

fn said(error: Error) -> String {
    error.to_string()
}

/// The reference that the body of a forward has, as text, and where it leads.
fn reference_in(order: Order, body: &Body) -> Result<(String, Vec<(String, u16)>), String> {
    let mut ior = Ior::read(&mut Reader::at(&body.octets, order, body.place)).map_err(said)?;
    let mut places = Vec::new();
    for profile in ior.profiles() {
        if let Some(address) = profile.map_err(said)?.address {
            let port = reference::port_of(&address);
            places.push((String::from_utf8_lossy(&address.host).into_owned(), port));
        }
    }
    if places.len() > PROFILES {
        return Err("it forwards by too many profiles".into());
    }
    Ok((ior.to_text().map_err(said)?, places))
}

/// The body of a forward to a reference.
fn led(order: Order, text: &str) -> Result<Body, String> {
    let mut led: Ior = text.parse().map_err(said)?;
    let mut out = Writer::new(order);
    led.write(&mut out).map_err(said)?;
    Ok(Body::at(0, out.into_octets()))
}

#[cfg(test)]
mod tests {
    use super::*;
    use lemonrudder::{Assembler, Limits};

    /// A Request of 1.2 in big order for `k`, to be called `f`, with a body, whose service contexts
    /// are these octets behind their count (CORBA 3.3 Part 2, 9.4.2).
    fn octets(count: u8, contexts: &[u8]) -> Vec<u8> {
        let head = b"\0\0\0\x05\x03\0\0\0\0\0\0\0\0\0\0\x01k\0\0\0\0\0\0\x02f\0\0\0";
        let mut content = [head.as_slice(), &[0, 0, 0, count], contexts].concat();
        while (content.len() + 12) % 8 != 0 {
            content.push(0);
        }
        content.extend(b"body");
        let size = u32::try_from(content.len()).unwrap().to_be_bytes();
        [b"GIOP\x01\x02\0\0".as_slice(), &size, &content].concat()
    }

    fn of<T>(octets: &[u8], read: impl Fn(&mut Message<'_>) -> T) -> T {
        let mut assembler = Assembler::open(Limits::default()).unwrap();
        assert_eq!(assembler.feed(octets), Ok(octets.len()));
        let mut message = assembler.message().unwrap().unwrap();
        read(&mut message)
    }

    /// FT_REQUEST of the client `A`, its request 7, which expires at 258.
    const FT: &[u8] =
        b"\0\0\0\x0d\0\0\0\x18\0\0\0\0\0\0\0\x02A\0\0\0\0\0\0\x07\0\0\0\0\0\0\x01\x02";
    const SETS: &[u8] = b"\0\0\0\x01\0\0\0\x0c\0\0\0\0charwide";
    const NO_SETS: &[u8] = b"\0\0\0\x01\0\0\0\x04sets";
    const BI_DIR: &[u8] = b"\0\0\0\x05\0\0\0\x04ends";
    const PADDED: &[u8] = b"\x4c\x52\0\0\0\0\0\x04\0\0\0\0";

    #[test]
    fn a_request_goes_on_without_what_is_of_its_connection() {
        let sets = || vec![(CODE_SETS, b"\0\0\0\0charwide".to_vec())];
        let key = Key { client: b"A".to_vec(), number: 7 };
        let ft = || Some(Ft { key: key.clone(), expiration: Moment(258) });
        for (parts, contexts, ft) in [
            (vec![], vec![], None),
            (vec![FT], vec![], ft()),
            (vec![SETS, FT, BI_DIR], sets(), ft()),
            (vec![PADDED, SETS], sets(), None),
            (vec![NO_SETS, FT], vec![], ft()),
            (vec![NO_SETS, SETS], sets(), None),
        ] {
            let count = u8::try_from(parts.len()).unwrap();
            let request = of(&octets(count, &parts.concat()), request_of).unwrap();
            assert_eq!((request.head.contexts, request.ft), (contexts, ft));
            assert_eq!((request.head.key, request.head.operation), (b"k".to_vec(), b"f".to_vec()));
            assert_eq!((&request.body.octets[..], request.body.place % 8), (&b"body"[..], 0));
        }
    }

    #[test]
    fn what_can_not_be_performed_is_refused() {
        let short = b"\0\0\0\x0d\0\0\0\x01\0\0\0\0";
        assert_eq!(of(&octets(1, short), request_of), Err(Refusal::FtRequest));
        assert_eq!(of(&octets(33, &SETS.repeat(33)), request_of), Err(Refusal::Contexts));
        assert!(of(&octets(32, &SETS.repeat(32)), request_of).is_ok());
    }

    fn answer(status: u32, octets: &[u8], place: u64) -> Answer {
        let body = Body::at(place, octets.to_vec());
        Answer { status, order: Order::Little, contexts: Contexts::new(), body }
    }

    #[test]
    fn an_outcome_has_its_place_unless_it_means_the_same_elsewhere() {
        let system = Status::SystemException.number();
        for (status, size, at, place) in
            [(0, 9, 24, 0), (0, 9, 28, 4), (0, 4, 28, 0), (0, 0, 28, 0), (system, 40, 28, 0)]
        {
            let outcome = answer(status, &vec![1; size], at).outcome();
            let body = vec![1; size];
            assert_eq!(outcome, Outcome { place, ..Outcome::whole(status, Order::Little, body) });
            assert_eq!(Answer::from(outcome).body.place, u64::from(place));
        }
    }

    #[test]
    fn a_reply_that_would_be_too_long_says_so() {
        let octets = answer(0, &vec![0; compose::LONGEST], 0).reply(Version::V12, 9);
        let is_it = |message: &mut Message<'_>| {
            let limit = Outcome::system("IMP_LIMIT", 0, Completed::Yes);
            message.request_id() == 9 && message.body() == limit.body
        };
        assert!(of(&octets, is_it));
    }

    /// A reference to `k` of the type `T`, in an order: one profile of IIOP 1.2 (9.7.2).
    fn reference(host: &[u8; 4], port: u16) -> Vec<u8> {
        let head = b"\0\0\0\x02T\0\0\0\0\0\0\x01\0\0\0\0\0\0\0\x1c\0\x01\x02\0\0\0\0\x05";
        let key = b"\0\0\0\x01k\0\0\0\0\0\0\0";
        [head.as_slice(), host, b"\0\0", &port.to_be_bytes(), key].concat()
    }

    #[tokio::test]
    async fn a_forward_leads_to_the_relay() {
        let servers = Arc::new(vec!["[::b1]:1".to_owned(), "[::b2]:2".to_owned()]);
        let (published, listens) = (Vec::new(), vec![("::".to_owned(), 9)]);
        let mut guarded = Guarded { published, listens, servers };
        let found: SocketAddr = "[::a1]:9".parse().unwrap();
        let forward = Status::LocationForward.number();
        let reply = |status, octets| {
            let body = Body::at(24, octets);
            Reply { status, order: Order::Big, contexts: Contexts::new(), body }
        };
        // (the last is another spelling of ::b2)
        for (host, port) in [(b"::b1", 1), (b"::b2", 2), (b"::a1", 9), (b"::B2", 2)] {
            let told =
                guarded.told(reply(forward, reference(host, port)), found, false).await.unwrap();
            assert_eq!((told.status, told.body.octets), (forward, reference(b"::a1", 9)));
        }
        for (host, port) in [(b"::b1", 2), (b"::b3", 1), (b"::c1", 9)] {
            assert!(guarded
                .told(reply(forward, reference(host, port)), found, false)
                .await
                .is_err());
        }
        let other = reply(Status::NeedsAddressingMode.number(), vec![0, 0]);
        assert!(guarded.told(other, found, false).await.is_err());
        assert!(guarded.told(reply(forward, vec![0, 0, 0]), found, false).await.is_err());
        let told = guarded.told(reply(0, vec![1, 2]), found, false).await.unwrap();
        assert_eq!((told.body.octets, told.body.place), (vec![1, 2], 24));
        guarded.published = vec![("::c1".to_owned(), 8)];
        for (host, port) in [(b"::c1", 8), (b"::a1", 9)] {
            let told =
                guarded.told(reply(forward, reference(host, port)), found, false).await.unwrap();
            assert_eq!(told.body.octets, reference(b"::c1", 8));
        }
    }
}
