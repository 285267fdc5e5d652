//! How the calls of a client end.

use lemonrudder::cdr::Writer;
use lemonrudder::{
    write, Assembler, Call, Client, Completed, Ended, Error, Ior, Limits, Moment, Order, RawCall,
    Status, Type, Version, Wish,
};

const CALL: Call =
    Call { key: b"c", operation: "get", types: &[], arguments: &NOTHING, expiration: Moment(100) };
static NOTHING: Writer = Writer::new(Order::Big);

/// A client that has called and sent its call.
fn called() -> Result<Client, Error> {
    let mut client = Client::open("A")?;
    client.connected(Moment(50))?;
    assert_eq!(client.call(Moment(50), &CALL)?, 1);
    assert!(!client.take_output().is_empty());
    Ok(client)
}

/// A Reply to its first request.
fn reply(status: Status, body: &[u8]) -> Result<Vec<u8>, Error> {
    write::reply(Version::V12, Order::Big, 1, status, body)
}

#[test]
fn a_call_ends_as_its_reply_says() -> Result<(), Error> {
    let statuses = [
        (Status::NoException, Ended::Returned),
        (Status::LocationForward, Ended::Forwarded),
        (Status::LocationForwardPerm, Ended::Forwarded),
        (Status::NeedsAddressingMode, Ended::NeedsAddressing),
    ];
    for (status, ended) in statuses {
        let mut client = called()?;
        client.feed(&reply(status, &[0, 0, 0, 9])?)?;
        let completion = client.completed()?.expect("it has ended");
        assert_eq!((completion.call, completion.ended), (1, ended));
        assert_eq!((completion.raised()?.is_none(), completion.system()?), (true, None));
        assert_eq!(completion.forwarded().is_err(), ended == Ended::Forwarded);
        if ended != Ended::NeedsAddressing {
            assert_eq!((completion.body, completion.reader().long()?), (&[0, 0, 0, 9][..], 9));
        }
        assert!(client.completed()?.is_none());
    }
    Ok(())
}

#[test]
fn a_forward_has_a_reference() -> Result<(), Error> {
    let mut body = Writer::new(Order::Big);
    Ior::iiop("IDL:A:1.0", Version::V12, "host", 9, b"key")?.write(&mut body)?;
    let mut client = called()?;
    client.feed(&reply(Status::LocationForward, body.as_octets())?)?;
    let completion = client.completed()?.expect("it has ended");
    let address =
        completion.forwarded()?.expect("it has one").address()?.expect("it has an address");
    assert_eq!((address.port, &address.key[..]), (9, &b"key"[..]));
    Ok(())
}

#[test]
fn an_exception_has_an_id_and_members() -> Result<(), Error> {
    let mut client = called()?;
    let mut body = Writer::new(Order::Big);
    body.string("IDL:A:1.0")?.longlong(7)?;
    client.feed(&reply(Status::UserException, body.as_octets())?)?;
    let completion = client.completed()?.expect("it has ended");
    let (id, mut members) = completion.raised()?.expect("it raised one");
    assert_eq!((id, members.longlong()?, members.rest()), (&b"IDL:A:1.0"[..], 7, &[][..]));

    let mut client = called()?;
    let mut body = Writer::new(Order::Big);
    body.string("IDL:omg.org/CORBA/TRANSIENT:1.0")?.ulong(3)?.ulong(1)?;
    client.feed(&reply(Status::SystemException, body.as_octets())?)?;
    let completion = client.completed()?.expect("it has ended");
    let exception = completion.system()?.expect("it raised one");
    assert_eq!(exception.id, b"IDL:omg.org/CORBA/TRANSIENT:1.0");
    assert_eq!((exception.minor, exception.completed), (3, Completed::No));

    // one that doesn't read
    let mut client = called()?;
    client.feed(&reply(Status::SystemException, b"\0")?)?;
    let completion = client.completed()?.expect("it has ended");
    assert_eq!(completion.system(), Err(Error::Short));
    Ok(())
}

#[test]
fn a_call_is_sent_again_until_it_expires() -> Result<(), Error> {
    let mut client = called()?;
    client.lost();
    assert!(!client.is_connected());
    client.connected(Moment(100))?;
    assert!(client.is_connected());
    assert!(!client.take_output().is_empty());
    client.tick(Moment(100));
    assert!(client.completed()?.is_none());
    client.tick(Moment(101));
    let completion = client.completed()?.expect("it has ended");
    assert_eq!((completion.call, completion.ended, completion.body), (1, Ended::Expired, &[][..]));
    assert_eq!(client.call(Moment(101), &CALL), Err(Error::Expired));
    Ok(())
}

#[test]
fn a_call_is_cancelled_once() -> Result<(), Error> {
    let mut client = called()?;
    assert!(client.cancel(1)?);
    assert!(!client.cancel(1)?);
    assert!(!client.cancel(9)?);
    let completion = client.completed()?.expect("it has ended");
    assert_eq!((completion.call, completion.ended), (1, Ended::Cancelled));
    assert_eq!(client.take_output()[7], 2);
    Ok(())
}

#[test]
fn a_fault_or_a_goodbye_ends_the_connection() -> Result<(), Error> {
    for octets in [b"GIOX\x01\x02\0\0\0\0\0\0".to_vec(), write::close_connection()?] {
        let mut client = called()?;
        client.feed(&octets)?;
        assert!(!client.is_connected());
        assert!(client.completed()?.is_none());
        client.connected(Moment(60))?;
        assert!(!client.take_output().is_empty());
    }
    Ok(())
}

/// The Request that is due: its request id, the number of its call, and its key.
fn sent(client: &mut Client) -> Result<(u32, i32, Vec<u8>), Error> {
    let mut assembler = Assembler::open(Limits::default())?;
    assembler.feed(&client.take_output())?;
    let message = assembler.message()?.expect("it is whole");
    let number = message.ft_request().expect("it carries FT_REQUEST").retention_id;
    Ok((message.request_id(), number, message.key().expect("it has a key").to_vec()))
}

#[test]
fn transient_leaves_a_call_pending_where_that_is_kept() -> Result<(), Error> {
    let mut client = called()?;
    client.keep_transient(true);
    let mut body = Writer::new(Order::Big);
    body.string("IDL:omg.org/CORBA/TRANSIENT:1.0")?.ulong(0)?.ulong(1)?;
    client.feed(&reply(Status::SystemException, body.as_octets())?)?;
    assert!(client.completed()?.is_none());
    assert_eq!(client.take_output(), []);
    client.resend(Moment(60))?;
    assert_eq!(sent(&mut client)?, (2, 1, b"c".to_vec()));
    client.keep_transient(false);
    let again =
        write::reply(Version::V12, Order::Big, 2, Status::SystemException, body.as_octets())?;
    client.feed(&again)?;
    let completion = client.completed()?.expect("it has ended");
    assert_eq!((completion.call, completion.ended), (1, Ended::System));
    Ok(())
}

#[test]
fn a_call_of_before_keeps_its_number() -> Result<(), Error> {
    let mut client = Client::open("A")?;
    let now = Moment(50);
    assert_eq!(client.recall(-1, now, &CALL), Err(Error::Range));
    assert_eq!(client.recall(0, now, &CALL), Err(Error::Taken));
    client.connected(now)?;
    client.recall(7, now, &CALL)?;
    assert_eq!(sent(&mut client)?, (1, 7, b"c".to_vec()));
    assert_eq!(client.recall(7, now, &CALL), Err(Error::Taken));
    assert_eq!(client.recall(8, Moment(101), &CALL), Err(Error::Expired));
    client.skip_to(9)?;
    client.skip_to(8)?;
    assert_eq!(client.skip_to(-1), Err(Error::Range));
    assert_eq!(client.call(now, &CALL), Ok(10));
    Ok(())
}

#[test]
fn a_forward_is_followed_under_the_same_number() -> Result<(), Error> {
    let mut client = called()?;
    client.keep_forward(true);
    assert!(client.forwarded()?.is_none());
    assert_eq!(client.redirect(1, &CALL), Err(Error::Forward));
    let mut body = Writer::new(Order::Big);
    Ior::iiop("IDL:A:1.0", Version::V12, "host", 9, b"key")?.write(&mut body)?;
    client.feed(&reply(Status::LocationForward, body.as_octets())?)?;
    assert!(client.completed()?.is_none());
    let led = client.forwarded()?.expect("it is led elsewhere");
    assert_eq!((led.call, led.ended, led.body), (1, Ended::Forwarded, body.as_octets()));
    let key = led.forwarded()?.expect("it has one").address()?.expect("it has an address").key;
    client.redirect(1, &Call { key: &key, ..CALL })?;
    assert!(client.forwarded()?.is_none());
    client.resend(Moment(60))?;
    assert_eq!(sent(&mut client)?, (2, 1, b"key".to_vec()));
    Ok(())
}

#[test]
fn so_is_one_of_a_raw_call() -> Result<(), Error> {
    let mut client = Client::open("A")?;
    client.keep_forward(true);
    client.connected(Moment(50))?;
    let mut arguments = Writer::new(Order::Little);
    arguments.long(7)?;
    let contexts = write::contexts(Order::Little, &[(7, b"seven")])?;
    let call = RawCall {
        key: b"c",
        operation: "get",
        wish: Wish::Full,
        body: &arguments,
        contexts: &contexts,
        expiration: Moment(100),
    };
    assert_eq!(client.call_raw(Moment(50), &call)?, 1);
    client.take_output();
    assert_eq!(client.redirect_raw(1, &call), Err(Error::Forward));
    let mut body = Writer::new(Order::Big);
    Ior::iiop("IDL:A:1.0", Version::V12, "host", 9, b"key")?.write(&mut body)?;
    client.feed(&reply(Status::LocationForward, body.as_octets())?)?;
    let none = RawCall { contexts: b"\0\0", ..call };
    assert_eq!(client.redirect_raw(1, &none), Err(Error::Short));
    client.redirect_raw(1, &RawCall { key: b"key", ..call })?;
    client.resend(Moment(60))?;
    let octets = client.take_output();
    assert!(octets.ends_with(arguments.as_octets()));
    let mut assembler = Assembler::open(Limits::default())?;
    assert_eq!(assembler.feed(&octets)?, octets.len());
    let mut message = assembler.message()?.expect("it is whole");
    assert_eq!((message.key(), message.order()), (Some(&b"key"[..]), Order::Little));
    let contexts: Result<Vec<_>, Error> = message.contexts().collect();
    assert!(contexts?.contains(&(7, b"seven".to_vec())));
    Ok(())
}

#[test]
fn what_is_no_call_is_refused() -> Result<(), Error> {
    assert_eq!(Client::open("").err(), Some(Error::Text));
    assert_eq!(Client::open("A\0").err(), Some(Error::Text));
    assert_eq!(Client::open([b'A'; 257]).err(), Some(Error::Text));
    let mut client = Client::open([b'A'; 256])?;
    let now = Moment(50);

    let nul = Call { operation: "g\0", ..CALL };
    assert_eq!(client.call(now, &nul), Err(Error::Text));
    let short = Call { types: &[Type::Long], ..CALL };
    assert_eq!(client.call(now, &short), Err(Error::Short));
    let none = Call { types: &[Type::Enum(0)], ..CALL };
    assert_eq!(client.call(now, &none), Err(Error::Types));
    let two = Writer::of(Order::Big, vec![2]);
    let wrong = Call { types: &[Type::Boolean], arguments: &two, ..CALL };
    assert_eq!(client.call(now, &wrong), Err(Error::Value));
    for number in 1..=64 {
        assert_eq!(client.call(now, &CALL), Ok(number));
    }
    assert_eq!(client.call(now, &CALL), Err(Error::Calls));
    assert_eq!(client.take_output(), []);
    Ok(())
}
