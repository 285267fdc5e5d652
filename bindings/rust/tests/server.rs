//! What a server asks, and what comes of each way in which it is answered.

mod bank;

use bank::{Bank, DEPOSIT, OVERDRAWN};
use lemonrudder::cdr::{Reader, Writer};
use lemonrudder::write::{self, Request};
use lemonrudder::{
    Assembler, Catalogue, Completed, Error, Fault, FtRequest, Limits, Message, MessageType, Moment,
    Order, Outcome, Server, Settings, Signature, Status, SystemName, Type, Version, Why, Wish,
};

const NOW: Moment = Moment(50);

/// A Request of 1.2 for an operation of an object, with FT_REQUEST where it has a number.
fn request(
    key: &[u8],
    operation: &str,
    number: Option<i32>,
    body: &[u8],
) -> Result<Vec<u8>, Error> {
    let ft = |retention_id| FtRequest { client_id: b"A", retention_id, expiration: Moment(100) };
    let context = match number {
        Some(number) => write::ft_request(Order::Big, &ft(number))?,
        None => Vec::new(),
    };
    write::request(&Request {
        version: Version::V12,
        order: Order::Big,
        request_id: 5,
        wish: Wish::Full,
        key,
        operation,
        context: number.map(|_| (write::FT_REQUEST, &context[..])),
        body,
    })
}

/// A deposit into the account `alice`.
fn deposit(number: i32, amount: i64) -> Result<Vec<u8>, Error> {
    let mut body = Writer::new(Order::Big);
    body.string("alice")?.longlong(amount)?;
    request(b"bank", "deposit", Some(number), body.as_octets())
}

/// What a reply says.
fn read<T>(octets: &[u8], with: impl FnOnce(&Message<'_>) -> T) -> Result<T, Error> {
    let mut assembler = Assembler::open(Limits::default())?;
    assert_eq!(assembler.feed(octets)?, octets.len());
    Ok(with(&assembler.message()?.expect("it is whole")))
}

/// The id, the minor code and the completion of a system exception that a reply has.
fn exception_of(octets: &[u8]) -> Result<(String, u32, u32), Error> {
    read(octets, |message| {
        assert_eq!(message.status(), Some(Status::SystemException));
        let mut reader = message.reader();
        Ok((reader.text()?.into(), reader.ulong()?, reader.ulong()?))
    })?
}

/// The id of a system exception.
fn id_of(name: &str) -> String {
    format!("IDL:omg.org/CORBA/{name}:1.0")
}

/// A bank on connection 1.
fn connected() -> Result<Server, Error> {
    let mut server = bank::server(100)?;
    server.connect(1)?;
    Ok(server)
}

#[test]
fn a_request_says_what_it_asks_for() -> Result<(), Error> {
    let mut server = connected()?;
    let octets = deposit(7, -9)?;
    assert_eq!(server.feed(1, NOW, &octets)?, octets.len());
    assert_eq!(server.feed(1, NOW, &octets), Err(Error::Asking));
    assert_eq!(server.connect(2), Err(Error::Asking));
    assert_eq!(server.lost(1), Err(Error::Asking));
    assert_eq!(server.farewell(1), Err(Error::Asking));

    let mut request = server.asked()?.expect("it waits");
    assert_eq!((request.connection(), request.request_id()), (1, 5));
    assert_eq!((request.version(), request.wish()), (Version::V12, Wish::Full));
    assert_eq!((request.key(), request.operation()), (&b"bank"[..], &b"deposit"[..]));
    assert!(!request.is_raw());
    let ft = FtRequest { client_id: b"A", retention_id: 7, expiration: Moment(100) };
    assert_eq!(request.ft_request(), Some(ft));
    let mut reader = request.reader();
    assert_eq!((reader.text()?, reader.longlong()?, reader.rest()), ("alice", -9, &[][..]));
    request.answer(Writer::new(Order::Little).longlong(4)?)?;

    assert!(server.asked()?.is_none());
    let reply = server.take_output(1);
    assert_eq!(read(&reply, |message| message.reader().longlong())?, Ok(4));
    assert_eq!(server.take_output(1), []);
    Ok(())
}

#[test]
fn a_repeat_is_not_asked() -> Result<(), Error> {
    let mut server = connected()?;
    let mut bank = Bank::default();
    server.serve(1, NOW, &deposit(1, 5)?, |request| bank.perform(request))?;
    let first = server.take_output(1);
    server.lost(1)?;
    server.connect(2)?;
    let twice = [deposit(1, 5)?, deposit(2, -6)?].concat();
    server.serve(2, NOW, &twice, |request| bank.perform(request))?;
    let second = server.take_output(2);
    assert_eq!(second[..first.len()], first);
    assert_eq!(bank.accounts[&b"alice"[..]], 5);
    let status = read(&second[first.len()..], |message| message.status())?;
    assert_eq!(status, Some(Status::UserException));
    Ok(())
}

#[test]
fn an_outcome_of_another_operation_is_refused() -> Result<(), Error> {
    let mut server = connected()?;
    server.feed(1, NOW, &deposit(1, 5)?)?;
    let wrong = Writer::new(Order::Big).long(4)?.clone();
    let long = Writer::new(Order::Big).longlong(4)?.octet(0)?.clone();
    let mut request = server.asked()?.expect("it waits");
    assert_eq!(request.answer(&wrong), Err(Error::Outcome));
    assert_eq!(request.answer(&long), Err(Error::Outcome));
    assert_eq!(request.raise("IDL:Bank/Other:1.0", &wrong), Err(Error::Outcome));
    assert_eq!(request.raise(OVERDRAWN, &wrong), Err(Error::Outcome));
    assert_eq!(server.take_output(1), []);
    let mut request = server.asked()?.expect("it waits still");
    request.system(SystemName::ImpLimit, 3, Completed::No)?;
    assert_eq!(request.system(SystemName::ImpLimit, 3, Completed::No), Err(Error::Ticket));
    assert_eq!(exception_of(&server.take_output(1))?, (id_of("IMP_LIMIT"), 3, 1));
    Ok(())
}

#[test]
fn what_is_left_unanswered_is_answered_by_internal() -> Result<(), Error> {
    let mut server = connected()?;
    let octets = [deposit(1, 5)?, deposit(2, 5)?].concat();
    server.serve(1, NOW, &octets, |_| Ok(()))?;
    let both = server.take_output(1);
    let (one, two) = both.split_at(both.len() / 2);
    assert_eq!(exception_of(one)?, (id_of("INTERNAL"), 0, 2));
    assert_eq!(exception_of(two)?, (id_of("INTERNAL"), 0, 2));

    // an error ends it after the request of which it is
    let mut asked = 0;
    let octets = [deposit(3, 5)?, deposit(4, 5)?].concat();
    let served = server.serve(1, NOW, &octets, |request| {
        asked += 1;
        request.answer(Writer::new(Order::Big).octet(1)?)
    });
    assert_eq!((served, asked), (Err(Error::Outcome), 1));
    assert_eq!(exception_of(&server.take_output(1))?, (id_of("INTERNAL"), 0, 2));
    server.lost(1)?;
    assert!(server.is_closed(1));
    Ok(())
}

#[test]
fn a_request_that_is_refused_is_asked_again() -> Result<(), Error> {
    let mut server = connected()?;
    for (name, minor) in [(SystemName::Transient, 7), (SystemName::NoResources, 0)] {
        server.feed(1, NOW, &deposit(1, 5)?)?;
        server.asked()?.unwrap().refuse(name, minor)?;
        let id = id_of(if minor == 7 { "TRANSIENT" } else { "NO_RESOURCES" });
        assert_eq!(exception_of(&server.take_output(1))?, (id, minor, 1));
        assert!(!server.is_closed(1));
    }
    let mut bank = Bank::default();
    server.serve(1, NOW, &deposit(1, 5)?, |request| bank.perform(request))?;
    assert_eq!(bank.performed.len(), 1);
    Ok(())
}

#[test]
fn goodbye_is_said_before_the_end() -> Result<(), Error> {
    let mut server = connected()?;
    server.feed(1, NOW, &deposit(1, 5)?)?;
    server.asked()?.unwrap().goodbye()?;
    assert!(server.is_closed(1));
    assert_eq!(server.take_output(1)[..8], *b"GIOP\x01\0\0\x05");
    server.connect(2)?;
    let mut bank = Bank::default();
    server.serve(2, NOW, &deposit(1, 5)?, |request| bank.perform(request))?;
    assert_eq!(bank.performed.len(), 1);
    Ok(())
}

#[test]
fn a_request_that_is_given_up_is_asked_again() -> Result<(), Error> {
    let mut server = connected()?;
    server.feed(1, NOW, &deposit(1, 5)?)?;
    server.asked()?.unwrap().give_up();
    assert!(server.is_closed(1));
    assert_eq!(server.take_output(1), []);
    assert_eq!(server.feed(1, NOW, b""), Err(Error::Connection));
    assert_eq!(server.connect(1), Err(Error::Connection));
    server.connect(2)?;
    let mut bank = Bank::default();
    server.serve(2, NOW, &deposit(1, 5)?, |request| bank.perform(request))?;
    assert_eq!(bank.performed.len(), 1);
    Ok(())
}

#[test]
fn requests_that_are_refused_are_not_asked() -> Result<(), Error> {
    let mut server = connected()?;
    let refused = [
        (request(b"bank", "close", None, b"")?, "BAD_OPERATION"),
        (request(b"none", "balance", None, b"")?, "OBJECT_NOT_EXIST"),
        (request(b"bank", "balance", None, b"\0\0")?, "MARSHAL"),
    ];
    for (octets, name) in refused {
        server.serve(1, NOW, &octets, |_| panic!("it is asked"))?;
        assert_eq!(exception_of(&server.take_output(1))?, (id_of(name), 0, 1));
    }
    server.serve(1, Moment(101), &deposit(1, 5)?, |_| panic!("it is asked"))?;
    assert_eq!(exception_of(&server.take_output(1))?, (id_of("BAD_CONTEXT"), 0, 1));
    Ok(())
}

#[test]
fn what_is_due_belongs_to_a_connection() -> Result<(), Error> {
    let mut server = connected()?;
    server.connect(2)?;
    server.serve(1, NOW, &request(b"bank", "close", None, b"")?, |_| Ok(()))?;
    assert_eq!(server.feed(2, NOW, b"G"), Ok(1));
    server.farewell(2)?;
    // it is moved out in pieces
    let mut piece = [0; 7];
    assert_eq!(server.output(1, &mut piece), 7);
    assert_eq!(&piece[..4], b"GIOP");
    assert_eq!(server.output(1, &mut []), 0);
    assert!(!server.take_output(1).is_empty());
    assert_eq!(server.next_due(), None);

    let closed = read(&server.take_output(2), |message| message.message_type())?;
    assert_eq!(closed, MessageType::CloseConnection);
    assert!(server.is_closed(2) && !server.is_closed(1));
    Ok(())
}

#[test]
fn a_connection_says_why_it_ended() -> Result<(), Error> {
    let mut server = connected()?;
    let ends = [
        (b"nonsense, and so on".to_vec(), Why::Fault(Fault::Magic)),
        (write::reply(Version::V12, Order::Big, 1, Status::NoException, b"")?, Why::Direction),
        (write::close_connection()?, Why::Goodbye),
        (write::message_error()?, Why::Error),
        (deposit(1, 1)?, Why::GivenUp),
    ];
    for (connection, (octets, why)) in (2..).zip(ends) {
        server.connect(connection)?;
        assert_eq!(server.why(connection), Ok(Why::Open));
        let served = server.serve(connection, NOW, &octets, |request| {
            request.give_up();
            Ok(())
        });
        assert_eq!(served.is_err(), why == Why::GivenUp); // (it is gone)
        assert_eq!((server.why(connection), server.is_closed(connection)), (Ok(why), true));
    }
    assert_eq!(server.farewell(1), Ok(0));
    assert_eq!(server.why(1), Ok(Why::Farewell));
    server.lost(1)?;
    assert_eq!(server.why(1), Err(Error::Connection));
    Ok(())
}

#[test]
fn a_body_is_as_it_came() -> Result<(), Error> {
    let mut server = connected()?;
    let mut body = Writer::new(Order::Little);
    body.string("alice")?.longlong(-9)?;
    let octets = write::request(&write::Request {
        version: Version::V12,
        order: Order::Little,
        request_id: 1,
        wish: Wish::Full,
        key: b"bank",
        operation: "deposit",
        context: None,
        body: body.as_octets(),
    })?;
    let mut asked = 0;
    server.serve(1, NOW, &octets, |request| {
        asked += 1;
        assert_eq!((request.body(), request.order()), (body.as_octets(), Order::Little));
        assert_eq!(request.place(), (octets.len() - body.as_octets().len()) as u64);
        let mut reader = request.reader();
        assert_eq!((reader.text()?, reader.longlong()?), ("alice", -9));
        request.answer(Writer::new(Order::Big).longlong(1)?)
    })?;
    assert_eq!(asked, 1);
    Ok(())
}

#[test]
fn a_raw_operation_has_octets() -> Result<(), Error> {
    let mut catalogue = Catalogue::open()?;
    catalogue.raw_object("echo")?;
    let mut server = Server::open(catalogue, &Settings::default())?;
    server.connect(1)?;
    let octets = request(b"echo", "whatever", None, &[1, 2, 3])?;
    server.serve(1, NOW, &octets, |request| {
        assert!(request.is_raw() && request.ft_request().is_none());
        assert_eq!((request.operation(), request.body()), (&b"whatever"[..], &[1, 2, 3][..]));
        let body = Writer::of(Order::Little, request.body().to_vec());
        request.answer_raw(Status::NoException, &body)
    })?;
    let reply = server.take_output(1);
    let (order, body) = read(&reply, |message| (message.order(), message.body().to_vec()))?;
    assert_eq!((order, &body[..]), (Order::Little, &[1, 2, 3][..]));

    server.feed(1, NOW, &request(b"echo", "whatever", None, b"")?)?;
    let body = Writer::new(Order::Big);
    let permanent = Status::LocationForwardPerm;
    assert_eq!(server.asked()?.unwrap().answer_raw(permanent, &body), Err(Error::Range));
    server.give_up();
    Ok(())
}

#[test]
fn one_that_would_be_refused_is_asked_first() -> Result<(), Error> {
    let settings = Settings::default().ask_first(true);
    let mut server = Server::open(bank::catalogue()?, &settings)?;
    server.connect(1)?;
    let mut body = Writer::new(Order::Big);
    let body = body.longlong(7)?.as_octets().to_vec();
    let stored = Outcome { status: Status::NoException, order: Order::Big, body: body.clone() };
    let others = [
        ("none", "deposit", "OBJECT_NOT_EXIST"),
        ("bank", "gone", "BAD_OPERATION"),
        ("bank", "deposit", "MARSHAL"),
    ];
    for (key, operation, name) in others {
        let octets = request(key.as_bytes(), operation, Some(1), b"")?;
        server.serve(1, NOW, &octets, |request| {
            assert!(request.is_raw());
            assert_eq!(request.answer(&Writer::new(Order::Big)), Err(Error::Outcome));
            request.answer_unkept(&stored)
        })?;
        assert_eq!(read(&server.take_output(1), |message| message.body().to_vec())?, body);
        server.serve(1, NOW, &octets, |request| {
            let refusal = request.refusal().expect("it would be refused");
            request.refuse(refusal, 0)
        })?;
        assert_eq!(exception_of(&server.take_output(1))?, (id_of(name), 0, 1));
    }
    server.serve(1, NOW, &deposit(1, 5)?, |request| {
        assert!(!request.is_raw() && request.refusal().is_none());
        request.answer_unkept(&stored)
    })?;
    Ok(())
}

#[test]
fn an_object_says_what_it_is() -> Result<(), Error> {
    let mut catalogue = bank::catalogue()?;
    catalogue.repository_ids("bank", &["IDL:Bank:1.0", "IDL:Account:1.0"])?;
    assert_eq!(catalogue.repository_ids("bank", &["IDL:Bank:1.0"]), Err(Error::Taken));
    assert_eq!(catalogue.repository_ids("none", &["IDL:Bank:1.0"]), Err(Error::Object));
    let mut server = Server::open(catalogue, &Settings::default())?;
    server.connect(1)?;
    let ids = [("IDL:Bank:1.0", 1), ("IDL:Account:1.0", 1), ("IDL:Other:1.0", 0)];
    for (id, wanted) in ids {
        let body = Writer::new(Order::Big).string(id)?.clone();
        let octets = request(b"bank", "_is_a", None, body.as_octets())?;
        server.serve(1, NOW, &octets, |_| panic!("it is asked"))?;
        let body = read(&server.take_output(1), |message| message.body().to_vec())?;
        assert_eq!(body, [wanted], "{id}");
    }
    let octets = request(b"bank", "_non_existent", None, b"")?;
    server.serve(1, NOW, &octets, |_| panic!("it is asked"))?;
    assert_eq!(read(&server.take_output(1), |message| message.body().to_vec())?, [0]);
    Ok(())
}

#[test]
fn composed_types_are_read_and_checked() -> Result<(), Error> {
    // struct Quote { string symbol; long long cents; };
    // sequence<Quote> cheapest(in sequence<Quote> quotes, in Colour colour);
    const QUOTES: Type = Type::Sequence(&Type::Struct(&[Type::String, Type::LongLong]));
    const CHEAPEST: Signature = Signature::new(&[QUOTES, Type::Enum(3)], &[QUOTES]);
    let mut catalogue = Catalogue::open()?;
    catalogue.object("market")?;
    catalogue.operation("market", "cheapest", &CHEAPEST)?;
    let mut server = Server::open(catalogue, &Settings::default())?;
    server.connect(1)?;

    let mut body = Writer::new(Order::Big);
    body.ulong(2)?.string("A")?.longlong(5)?.string("B")?.longlong(4)?.ulong(2)?;
    let octets = request(b"market", "cheapest", None, body.as_octets())?;
    server.serve(1, NOW, &octets, |request| {
        let mut reader = request.reader();
        let quotes = (0..reader.ulong()?).map(|_| Ok((reader.string()?, reader.longlong()?)));
        let quotes = quotes.collect::<Result<Vec<_>, Error>>()?;
        assert_eq!(quotes, [(&b"A"[..], 5), (b"B", 4)]);
        assert_eq!(reader.ulong()?, 2);
        request.answer(Writer::new(Order::Big).ulong(1)?.string("B")?.longlong(4)?)
    })?;
    let reply = server.take_output(1);
    let wanted = Writer::new(Order::Big).ulong(1)?.string("B")?.longlong(4)?.clone();
    assert_eq!(read(&reply, |message| message.body().to_vec())?, wanted.as_octets());

    // there is no third colour
    let octets = request(b"market", "cheapest", None, &[0, 0, 0, 0, 0, 0, 0, 3])?;
    server.serve(1, NOW, &octets, |_| panic!("it is asked"))?;
    assert_eq!(exception_of(&server.take_output(1))?.0, id_of("MARSHAL"));
    Ok(())
}

#[test]
fn a_catalogue_refuses_what_has_no_place() -> Result<(), Error> {
    let mut catalogue = Catalogue::open()?;
    catalogue.object("a")?;
    catalogue.raw_object("raw")?;
    assert_eq!(catalogue.object("a"), Err(Error::Taken));
    assert_eq!(catalogue.raw_object("a"), Err(Error::Taken));
    assert_eq!(catalogue.operation("b", "f", &DEPOSIT), Err(Error::Object));
    assert_eq!(catalogue.operation("raw", "f", &DEPOSIT), Err(Error::Raw));
    assert_eq!(catalogue.operation("a", "f\0", &DEPOSIT), Err(Error::Text));
    let none = Signature::new(&[Type::Enum(0)], &[]);
    assert_eq!(catalogue.operation("a", "f", &none), Err(Error::Types));
    let empty = Signature::new(&[], &[Type::Struct(&[])]);
    assert_eq!(catalogue.operation("a", "f", &empty), Err(Error::Types));
    assert_eq!(catalogue.raw_operation("raw", "f"), Err(Error::Raw));
    catalogue.raw_operation("a", "f")?;
    assert_eq!(catalogue.operation("a", "f", &DEPOSIT), Err(Error::Taken));
    assert_eq!(catalogue.repository_ids("a", &["IDL\0:A:1.0"]), Err(Error::Text));

    // of a signature that is refused nothing is kept
    let raises: &[(&str, &[Type])] =
        &[(OVERDRAWN, &[Type::LongLong]), ("IDL:A:1.0", &[Type::Enum(0)])];
    let refused = Signature { raises, ..Signature::default() };
    assert_eq!(catalogue.operation("a", "g", &refused), Err(Error::Types));
    catalogue.operation("a", "g", &Signature::default())?;
    let mut server = Server::open(catalogue, &Settings::default())?;
    server.connect(1)?;
    server.feed(1, NOW, &request(b"a", "g", None, b"")?)?;
    let members = Writer::new(Order::Big).longlong(1)?.clone();
    assert_eq!(server.asked()?.unwrap().raise(OVERDRAWN, &members), Err(Error::Outcome));
    server.asked()?.unwrap().answer(&Writer::new(Order::Big))
}

#[test]
fn limits_are_within_their_ranges() -> Result<(), Error> {
    let settings = || Settings::new([1, 2]);
    let wrong = [
        settings().message(4095),
        settings().message(1 << 25),
        settings().partials(0),
        settings().partials(17),
        settings().capacity(1).message(0),
    ];
    for settings in wrong {
        let server = Server::open(bank::catalogue()?, &settings);
        assert_eq!(server.err(), Some(Error::Range), "{settings:?}");
    }
    assert_ne!(format!("{:?}", Settings::default()), format!("{:?}", Settings::default()));
    assert_eq!(Reader::new(b"", Order::NATIVE).rest(), b"");
    Ok(())
}

#[test]
fn a_share_holds_for_each_client() -> Result<(), Error> {
    let settings = Settings::default().capacity(3).share(1);
    let mut server = Server::open(bank::catalogue()?, &settings)?;
    server.connect(1)?;
    let mut bank = Bank::default();
    server.serve(1, NOW, &deposit(1, 5)?, |request| bank.perform(request))?;
    server.take_output(1);
    server.serve(1, NOW, &deposit(2, 5)?, |request| bank.perform(request))?;
    assert_eq!(exception_of(&server.take_output(1))?, (id_of("NO_RESOURCES"), 0, 1));
    assert_eq!(bank.performed.len(), 1);
    Ok(())
}
