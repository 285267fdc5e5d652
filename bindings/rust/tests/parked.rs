//! Requests that are parked, and what a server says of itself.

mod bank;

use bank::DEPOSIT;
use lemonrudder::cdr::Writer;
use lemonrudder::write::{self, Request};
use lemonrudder::{
    Assembler, Catalogue, Counted, Error, FtRequest, Limits, MessageType, Moment, Order, Part,
    Server, Settings, Signature, Status, SystemName, Ticket, Type, Version, Why, Wish,
};

const NOW: Moment = Moment(50);
const LATER: Moment = Moment(100);

/// A deposit of a client's number, with a request id.
fn deposit(request_id: u32, number: i32) -> Result<Vec<u8>, Error> {
    let ft = FtRequest { client_id: b"A", retention_id: number, expiration: LATER };
    let context = write::ft_request(Order::Big, &ft)?;
    let mut body = Writer::new(Order::Big);
    body.string("alice")?.longlong(5)?;
    write::request(&Request {
        version: Version::V12,
        order: Order::Big,
        request_id,
        wish: Wish::Full,
        key: b"bank",
        operation: "deposit",
        context: Some((write::FT_REQUEST, &context)),
        body: body.as_octets(),
    })
}

/// The messages of a stream: of each its type, its request id, and its result, where it has one.
fn messages(mut octets: &[u8]) -> Result<Vec<(MessageType, u32, Option<i64>)>, Error> {
    let mut assembler = Assembler::open(Limits::default())?;
    let mut all = Vec::new();
    while !octets.is_empty() {
        octets = &octets[assembler.feed(octets)?..];
        if let Some(message) = assembler.message()? {
            let is_result = message.status() == Some(Status::NoException);
            let result = if is_result { Some(message.reader().longlong()?) } else { None };
            all.push((message.message_type(), message.request_id(), result));
        }
    }
    Ok(all)
}

/// A bank with connections 1 and 2.
fn connected(settings: &Settings) -> Result<Server, Error> {
    let mut server = Server::open(bank::catalogue()?, settings)?;
    server.connect(1)?;
    server.connect(2)?;
    Ok(server)
}

/// Serves octets, and parks what they ask for.
fn park(server: &mut Server, connection: u64, octets: &[u8]) -> Result<Vec<Ticket>, Error> {
    let mut parked = Vec::new();
    let taken = server.serve(connection, NOW, octets, |request| {
        assert_eq!(request.park()?, request.ticket());
        parked.push(request.ticket());
        Ok(())
    })?;
    assert_eq!(taken, octets.len());
    Ok(parked)
}

fn long(value: i64) -> Result<Writer, Error> {
    Ok(Writer::new(Order::Big).longlong(value)?.clone())
}

#[test]
fn what_is_parked_is_answered_in_any_order() -> Result<(), Error> {
    let mut server = connected(&Settings::default())?;
    let one = park(&mut server, 1, &[deposit(1, 1)?, deposit(2, 2)?].concat())?;
    let other = park(&mut server, 2, &[deposit(3, 3)?, deposit(4, 1)?].concat())?;
    assert_eq!((one.len(), other.len()), (2, 1));
    assert_eq!((server.parked(), server.parked_of(1), server.parked_of(2)), (3, 2, 1));
    assert_eq!((server.wanted(one[0]), server.wanted(one[1])), (Ok(2), Ok(1)));
    assert_eq!(server.part(one[1], Part::Key)?, b"bank");
    assert_eq!(server.part(one[1], Part::Client)?, b"A");
    assert_eq!(server.next_due(), None);

    server.answer(other[0], &long(3)?)?;
    let due: Vec<_> = server.due().collect();
    assert_eq!(due.len(), 1);
    assert_eq!((due[0].0, messages(&due[0].1)?), (2, vec![(MessageType::Reply, 3, Some(3))]));

    // the first of them has two who wait
    server.answer(one[0], &long(7)?)?;
    assert_eq!(server.answer(one[0], &long(8)?), Err(Error::Ticket));
    let mut due: Vec<_> = server.due().collect();
    due.sort();
    let said: Result<Vec<_>, Error> =
        due.iter().map(|(number, octets)| Ok((*number, messages(octets)?))).collect();
    let wanted = [(1, 1), (2, 4)]
        .map(|(connection, id)| (connection, vec![(MessageType::Reply, id, Some(7))]));
    assert_eq!(said?, wanted);
    assert_eq!(server.due().count(), 0);

    // what is kept answers a repeat
    assert!(park(&mut server, 2, &deposit(9, 1)?)?.is_empty());
    let repeat = messages(&server.take_output(2))?;
    assert_eq!(repeat, [(MessageType::Reply, 9, Some(7))]);
    server.refuse(one[1], SystemName::Transient, 0)?;
    assert_eq!(server.due().count(), 1);
    assert_eq!((server.parked(), server.count(Counted::ParkedNow)), (0, 0));
    let counts = [Counted::Asked, Counted::Parked, Counted::Settled, Counted::Joined];
    assert_eq!(counts.map(|what| server.count(what)), [3, 3, 2, 1]);
    assert_eq!((server.count(Counted::Withdrawn), server.count(Counted::Repeated)), (1, 1));
    Ok(())
}

#[test]
fn what_comes_after_a_repeat_of_a_parked_request_is_served() -> Result<(), Error> {
    let mut server = connected(&Settings::default())?;
    let parked = park(&mut server, 1, &deposit(1, 1)?)?;
    let octets = [deposit(2, 1)?, deposit(3, 2)?].concat();
    let taken = server.serve(2, NOW, &octets, |request| request.answer(&long(2)?))?;
    assert_eq!((taken, server.count(Counted::Joined)), (octets.len(), 1));
    assert_eq!(messages(&server.take_output(2))?, [(MessageType::Reply, 3, Some(2))]);
    server.answer(parked[0], &long(1)?)
}

#[test]
fn while_one_waits_no_parked_one_is_answered() -> Result<(), Error> {
    let mut server = connected(&Settings::default())?;
    let parked = park(&mut server, 1, &deposit(1, 1)?)?;
    server.feed(2, NOW, &deposit(2, 2)?)?;
    assert_eq!(server.answer(parked[0], &long(7)?), Err(Error::Asking));
    assert_eq!(server.refuse(parked[0], SystemName::Transient, 0), Err(Error::Asking));
    assert_eq!(server.tick(LATER), Err(Error::Asking));
    let waits = server.asked()?.expect("it waits").ticket();
    assert_eq!(server.wanted(waits), Err(Error::Ticket));
    server.answer(waits, &long(1)?)?;
    assert_eq!(messages(&server.take_output(2))?.len(), 1);
    let wrong = Writer::new(Order::Big).octet(1)?.clone();
    assert_eq!(server.answer(parked[0], &wrong), Err(Error::Outcome));
    server.answer(parked[0], &long(7)?)
}

#[test]
fn as_many_are_parked_as_may_be() -> Result<(), Error> {
    let settings = Settings::default().parked(2).parked_of_one(1);
    let mut server = connected(&settings)?;
    let mut refused = Vec::new();
    let octets = [deposit(1, 1)?, deposit(2, 2)?].concat();
    server.serve(1, NOW, &octets, |request| match request.park() {
        Ok(_) => Ok(()),
        Err(error) => {
            refused.push(error);
            request.refuse(SystemName::Transient, 3)
        }
    })?;
    assert_eq!((refused, server.parked()), (vec![Error::Parks], 1));
    assert_eq!(messages(&server.take_output(1))?, [(MessageType::Reply, 2, None)]);
    Ok(())
}

#[test]
fn goodbye_comes_after_replies() -> Result<(), Error> {
    let mut server = connected(&Settings::default())?;
    let parked = park(&mut server, 1, &[deposit(1, 1)?, deposit(2, 2)?].concat())?;
    assert_eq!((server.farewell(2), server.farewell(1)), (Ok(0), Ok(2)));
    assert!(server.is_closed(2) && !server.take_output(2).is_empty());
    // what comes now means nothing
    let late = deposit(3, 3)?;
    assert_eq!(server.serve(1, NOW, &late, |_| panic!("it is asked"))?, late.len());
    for (ticket, result) in [(parked[1], 2), (parked[0], 1)] {
        assert!(!server.is_closed(1) && server.why(1) == Ok(Why::Open));
        server.answer(ticket, &long(result)?)?;
    }
    assert!(server.is_closed(1) && server.why(1) == Ok(Why::Farewell));
    let due: Vec<_> = server.due().collect();
    assert_eq!((due.len(), due[0].0), (1, 1));
    let said: Vec<_> = messages(&due[0].1)?.into_iter().map(|(kind, id, _)| (kind, id)).collect();
    let wanted =
        [(MessageType::Reply, 2), (MessageType::Reply, 1), (MessageType::CloseConnection, 0)];
    assert_eq!(said, wanted);
    Ok(())
}

#[test]
fn what_is_parked_outlives_its_connection() -> Result<(), Error> {
    let mut server = connected(&Settings::default())?;
    let parked = park(&mut server, 1, &deposit(1, 1)?)?;
    server.lost(1)?;
    assert_eq!((server.parked(), server.wanted(parked[0])), (1, Ok(0)));
    server.answer(parked[0], &long(7)?)?;
    assert_eq!(server.next_due(), None);
    assert!(park(&mut server, 2, &deposit(5, 1)?)?.is_empty());
    assert_eq!(messages(&server.take_output(2))?, [(MessageType::Reply, 5, Some(7))]);
    Ok(())
}

#[test]
fn no_more_is_taken_while_enough_is_due() -> Result<(), Error> {
    let mut server = connected(&Settings::default().due(30))?;
    let octets = [deposit(1, 1)?, deposit(2, 2)?, deposit(3, 3)?].concat();
    let mut taken = 0;
    let mut replies = 0;
    while taken < octets.len() {
        let more = server.serve(1, NOW, &octets[taken..], |request| request.answer(&long(1)?))?;
        assert!(more > 0 && more <= octets.len() / 3);
        taken += more;
        replies += messages(&server.take_output(1))?.len();
    }
    assert_eq!(replies, 3);
    Ok(())
}

#[test]
fn a_server_says_what_it_keeps() -> Result<(), Error> {
    let mut server = connected(&Settings::default())?;
    assert_eq!((server.next_expiry(), server.held_by("A")), (None, 0));
    server.serve(1, NOW, &deposit(1, 1)?, |request| request.answer(&long(1)?))?;
    assert_eq!(
        (server.next_expiry(), server.held_by("A"), server.held_by("B")),
        (Some(LATER), 1, 0)
    );
    assert_eq!((server.count(Counted::Kept), server.count(Counted::Connections)), (1, 2));
    server.tick(Moment(101))?;
    assert_eq!((server.count(Counted::Kept), server.next_expiry()), (0, None));
    Ok(())
}

#[test]
fn a_request_has_its_contexts() -> Result<(), Error> {
    let mut server = connected(&Settings::default())?;
    server.serve(1, NOW, &deposit(1, 1)?, |request| {
        let contexts = request.contexts();
        assert_eq!(contexts.len(), 1);
        let ids: Result<Vec<_>, Error> = contexts.map(|each| Ok(each?.0)).collect();
        assert_eq!(ids?, [write::FT_REQUEST]);
        request.answer(&long(1)?)
    })?;
    Ok(())
}

#[test]
fn families_and_a_default_object_lead_many_keys_to_one() -> Result<(), Error> {
    let mut families = Catalogue::open()?;
    families.object("account/")?;
    families.operation("account/", "deposit", &DEPOSIT)?;
    let mut catalogue = bank::catalogue()?;
    catalogue.families(families)?;
    catalogue.default_object()?;
    assert_eq!(catalogue.default_object(), Err(Error::Taken));
    assert_eq!(catalogue.families(Catalogue::open()?), Err(Error::Taken));
    assert_eq!(catalogue.remove("none"), Err(Error::Object));
    let mut server = Server::open(catalogue, &Settings::default())?;
    server.connect(1)?;
    let request = |key, body: &Writer| {
        write::request(&Request {
            version: Version::V12,
            order: Order::Big,
            request_id: 1,
            wish: Wish::Full,
            key,
            operation: "deposit",
            context: None,
            body: body.as_octets(),
        })
    };
    let mut body = Writer::new(Order::Big);
    body.string("alice")?.longlong(5)?;
    for (key, is_raw) in [(&b"account/7"[..], false), (b"bank", false), (b"other", true)] {
        server.serve(1, NOW, &request(key, &body)?, |request| {
            assert_eq!((request.key(), request.is_raw()), (key, is_raw));
            request.system(SystemName::NoImplement, 0, lemonrudder::Completed::No)
        })?;
    }

    // another catalogue takes the place of this one
    let mut other = Catalogue::open()?;
    other.object("new")?;
    other.operation("new", "deposit", &Signature::new(&[Type::String], &[]))?;
    server.swap(&mut other)?;
    server.take_output(1);
    server.serve(1, NOW, &request(b"bank", &body)?, |_| panic!("it is asked"))?;
    assert_eq!(messages(&server.take_output(1))?.len(), 1);
    other.remove("bank")
}

/// The exception of the first reply of a stream.
fn raised(octets: &[u8]) -> Result<Vec<u8>, Error> {
    let mut assembler = Assembler::open(Limits::default())?;
    assembler.feed(octets)?;
    let message = assembler.message()?.ok_or(Error::Idle)?;
    assert_eq!(message.status(), Some(Status::SystemException));
    let mut reader = message.reader();
    reader.string().map(Into::into)
}

const GONE: &[u8] = b"IDL:omg.org/CORBA/OBJECT_NOT_EXIST:1.0";

#[test]
fn what_is_parked_of_an_object_that_is_taken_away_ends_by_its_outcome() -> Result<(), Error> {
    let mut server = connected(&Settings::default())?;
    let parked = park(&mut server, 1, &deposit(1, 1)?)?;

    // it takes itself away, and answers all the same
    server.serve(2, NOW, &deposit(2, 2)?, |request| {
        request.remove("bank");
        request.answer(Writer::new(Order::Big).longlong(7)?)
    })?;
    assert_eq!(messages(&server.take_output(2))?, [(MessageType::Reply, 2, Some(7))]);
    server.serve(2, NOW, &deposit(3, 3)?, |_| panic!("it is asked"))?;
    assert_eq!(raised(&server.take_output(2))?, GONE);

    // what is parked ends by its outcome, which a repeat gets
    server.answer(parked[0], Writer::new(Order::Big).longlong(5)?)?;
    assert_eq!(server.next_due(), Some(1));
    assert_eq!(messages(&server.take_output(1))?, [(MessageType::Reply, 1, Some(5))]);
    server.serve(2, NOW, &deposit(4, 1)?, |_| panic!("it is asked"))?;
    assert_eq!(messages(&server.take_output(2))?, [(MessageType::Reply, 4, Some(5))]);
    server.serve(2, NOW, &deposit(5, 4)?, |_| panic!("it is asked"))?;
    assert_eq!(raised(&server.take_output(2))?, GONE);

    // now there may be another one of its key
    server.change(|all| {
        all.object("bank")?;
        all.operation("bank", "deposit", &DEPOSIT)
    })?;
    server.serve(2, NOW, &deposit(6, 5)?, |request| {
        let another = |all: &mut Catalogue| all.object("another");
        request.change(another)?;
        assert_eq!(request.change(|all| all.remove("none")), Err(Error::Object));
        request.answer(Writer::new(Order::Big).longlong(8)?)
    })?;
    assert_eq!(messages(&server.take_output(2))?, [(MessageType::Reply, 6, Some(8))]);
    assert_eq!(server.change(|all| all.object("another")), Err(Error::Taken));
    Ok(())
}

#[test]
fn who_asks_for_what_was_taken_away_is_asked_for_first() -> Result<(), Error> {
    let mut server = connected(&Settings::default().ask_first(true))?;
    let parked = park(&mut server, 1, &deposit(1, 1)?)?;
    server.remove("bank");
    let mut refusals = Vec::new();
    for (request_id, number) in [(2, 2), (3, 3)] {
        server.serve(2, NOW, &deposit(request_id, number)?, |request| {
            refusals.push(request.refusal());
            request.refuse(SystemName::ObjectNotExist, 0)
        })?;
        assert_eq!(raised(&server.take_output(2))?, GONE);
        if number == 2 {
            server.answer(parked[0], Writer::new(Order::Big).longlong(5)?)?;
            server.tick(NOW)?;
        }
    }
    assert_eq!(refusals, [Some(SystemName::ObjectNotExist); 2]);
    Ok(())
}
