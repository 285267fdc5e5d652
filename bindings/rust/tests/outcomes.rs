//! Outcomes that are stored before they count, and contexts of replies.

mod bank;

use bank::OVERDRAWN;
use lemonrudder::cdr::Writer;
use lemonrudder::{
    write, Assembler, Completed, Error, FtRequest, Limits, Moment, Order, Outcome, Server, Status,
    SystemName, Ticket, Version, Wish,
};

const NOW: Moment = Moment(50);

/// A deposit of a version.
fn deposit(version: Version, number: i32) -> Result<Vec<u8>, Error> {
    let ft = FtRequest { client_id: b"A", retention_id: number, expiration: Moment(100) };
    let context = write::ft_request(Order::Big, &ft)?;
    let mut body = Writer::new(Order::Big);
    body.string("alice")?.longlong(5)?;
    write::request(&write::Request {
        version,
        order: Order::Big,
        request_id: 1,
        wish: Wish::Full,
        key: b"bank",
        operation: "deposit",
        context: Some((write::FT_REQUEST, &context)),
        body: body.as_octets(),
    })
}

/// A bank at which a deposit is parked.
fn parked(number: i32) -> Result<(Server, Ticket), Error> {
    let (mut server, mut ticket) = (bank::server(100)?, None);
    server.connect(1)?;
    server.serve(1, NOW, &deposit(Version::V12, number)?, |request| {
        ticket = Some(request.park()?);
        Ok(())
    })?;
    Ok((server, ticket.expect("it was asked")))
}

/// What a Reply says.
type Said = (Status, Order, Vec<u8>, Vec<(u32, Vec<u8>)>);

/// The one Reply that is due.
fn reply(server: &mut Server) -> Result<Said, Error> {
    let octets = server.take_output(1);
    let mut assembler = Assembler::open(Limits::default())?;
    assert_eq!(assembler.feed(&octets)?, octets.len());
    let mut message = assembler.message()?.expect("it is whole");
    let status = message.status().expect("it has one");
    let contexts = message.contexts().collect::<Result<_, _>>()?;
    Ok((status, message.order(), message.body().to_vec(), contexts))
}

/// What a server answers another one's request by, and a repeat of it.
fn answered_elsewhere(outcome: &Outcome) -> Result<(), Error> {
    let (mut server, ticket) = parked(1)?;
    server.answer_stored(ticket, outcome)?;
    let said = (outcome.status, outcome.order, outcome.body.clone(), vec![]);
    assert_eq!(reply(&mut server)?, said);
    server.serve(1, NOW, &deposit(Version::V12, 1)?, |_| panic!("it is asked"))?;
    assert_eq!(reply(&mut server)?, said);
    Ok(())
}

#[test]
fn results_are_stored_and_answered_later() -> Result<(), Error> {
    for order in [Order::Big, Order::Little] {
        let (mut server, ticket) = parked(1)?;
        let mut results = Writer::new(order);
        results.longlong(5)?;
        assert_eq!(server.can_answer(ticket, &results), Ok(true));
        let outcome = server.stored(ticket, &results)?;
        assert_eq!(outcome.status, Status::NoException);
        assert_eq!((outcome.order, &outcome.body[..]), (order, results.as_octets()));
        answered_elsewhere(&outcome)?;
        // nothing was answered here
        assert!(server.take_output(1).is_empty());
        server.answer(ticket, &results)?;
        assert_eq!(server.can_answer(ticket, &results), Err(Error::Ticket));
        assert_eq!(server.stored(ticket, &results), Err(Error::Ticket));
    }
    Ok(())
}

#[test]
fn unkept_outcomes_are_asked_for_again() -> Result<(), Error> {
    let mut server = bank::server(100)?;
    server.connect(1)?;
    let mut results = Writer::new(Order::Big);
    results.longlong(5)?;
    let mut asked = 0;
    for _ in 0..3 {
        server.serve(1, NOW, &deposit(Version::V12, 1)?, |request| {
            asked += 1;
            let outcome = request.stored(&results)?;
            request.answer_unkept(&outcome)
        })?;
        let body = results.as_octets().to_vec();
        assert_eq!(reply(&mut server)?, (Status::NoException, Order::Big, body, vec![]));
    }
    assert_eq!(asked, 3);
    Ok(())
}

#[test]
fn exceptions_too() -> Result<(), Error> {
    let (mut server, ticket) = parked(1)?;
    let mut members = Writer::new(Order::Little);
    members.longlong(-3)?;
    let outcome = server.stored_exception(ticket, OVERDRAWN, &members)?;
    let mut wanted = Writer::new(Order::Little);
    wanted.string(OVERDRAWN)?.longlong(-3)?;
    let body = wanted.into_octets();
    let whole = Outcome { status: Status::UserException, order: Order::Little, body };
    assert_eq!(outcome, whole);
    answered_elsewhere(&outcome)?;
    let other = server.stored_exception(ticket, "IDL:Other:1.0", &members);
    assert_eq!(other, Err(Error::Outcome));
    let none = server.stored_exception(ticket, OVERDRAWN, &Writer::new(Order::Big));
    assert_eq!(none, Err(Error::Outcome));
    Ok(())
}

#[test]
fn what_is_no_outcome_is_not_stored() -> Result<(), Error> {
    let (mut server, ticket) = parked(1)?;
    for octets in [vec![], vec![0; 7], vec![0; 9]] {
        let results = Writer::of(Order::Big, octets);
        assert_eq!(server.can_answer(ticket, &results), Ok(false));
        assert_eq!(server.stored(ticket, &results), Err(Error::Outcome));
    }
    Ok(())
}

#[test]
fn one_that_waits_is_stored_too() -> Result<(), Error> {
    let mut server = bank::server(100)?;
    server.connect(1)?;
    let mut results = Writer::new(Order::Big);
    results.longlong(5)?;
    server.serve(1, NOW, &deposit(Version::V12, 1)?, |request| {
        assert!(request.can_answer(&results));
        assert!(!request.can_answer(&Writer::new(Order::Big)));
        request.stored_exception(OVERDRAWN, &results)?;
        let outcome = request.stored(&results)?;
        request.answer_stored(&outcome)
    })?;
    let body = results.into_octets();
    assert_eq!(reply(&mut server)?, (Status::NoException, Order::Big, body, vec![]));
    Ok(())
}

#[test]
fn a_reply_has_contexts() -> Result<(), Error> {
    let mut results = Writer::new(Order::Big);
    results.longlong(5)?;
    let said = vec![(7, b"seven".to_vec()), (8, vec![])];
    for order in [Order::Big, Order::Little] {
        let (mut server, ticket) = parked(1)?;
        let contexts = write::contexts(order, &[(7, b"seven"), (8, b"")])?;
        let other = write::contexts(order, &[(1, b"")])?;
        server.reply_contexts(ticket, order, &other)?;
        server.reply_contexts(ticket, order, &contexts)?;
        for (octets, error) in [(&[0, 0][..], Error::Short), (&[0; 5][..], Error::Value)] {
            assert_eq!(server.reply_contexts(ticket, Order::Big, octets), Err(error));
        }
        server.answer(ticket, &results)?;
        let (_, _, body, found) = reply(&mut server)?;
        assert_eq!((&body[..], &found), (results.as_octets(), &said));
        assert_eq!(server.reply_contexts(ticket, order, &contexts), Err(Error::Ticket));
        // a repeat gets none
        server.serve(1, NOW, &deposit(Version::V12, 1)?, |_| panic!("it is asked"))?;
        assert_eq!(reply(&mut server)?.3, []);
    }
    Ok(())
}

#[test]
fn contexts_are_said_for_one_answer() -> Result<(), Error> {
    let (mut server, ticket) = parked(1)?;
    let contexts = write::contexts(Order::Big, &[(7, b"seven")])?;
    server.serve(1, NOW, &deposit(Version::V12, 2)?, |request| {
        request.reply_contexts(Order::Big, &contexts)?;
        request.system(SystemName::BadParam, 0, Completed::No)
    })?;
    assert_eq!(reply(&mut server)?.3, [(7, b"seven".to_vec())]);
    let mut results = Writer::new(Order::Big);
    server.answer(ticket, results.longlong(5)?)?;
    assert_eq!(reply(&mut server)?.3, []);
    // none takes them back
    server.serve(1, NOW, &deposit(Version::V12, 3)?, |request| {
        request.reply_contexts(Order::Big, &contexts)?;
        request.reply_contexts(Order::Big, &[])?;
        request.answer(&results)
    })?;
    assert_eq!(reply(&mut server)?.3, []);
    Ok(())
}
