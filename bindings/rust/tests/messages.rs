//! Messages, compared with octets that were written out by hand (CORBA 3.3 Part 2, 9.4).

use lemonrudder::cdr::Writer;
use lemonrudder::write::{self, Request};
use lemonrudder::{
    Assembler, Cuts, Error, Fault, FtRequest, Limits, LocateStatus, MessageType, Moment, Order,
    Status, Version, Wish,
};

/// `add(7)` of 1.2, with FT_REQUEST: client `A`, its request 1, the last expiration.
const ADD: &[u8] = b"GIOP\x01\x02\0\0\0\0\0\x48\0\0\0\x05\x03\0\0\0\
    \0\0\0\0\0\0\0\x01c\0\0\0\0\0\0\x04add\0\
    \0\0\0\x01\0\0\0\x0d\0\0\0\x18\0\0\0\0\0\0\0\x02A\0\0\0\0\0\0\x01\
    \xff\xff\xff\xff\xff\xff\xff\xff\0\0\0\0\0\0\0\x07";

const FT: FtRequest = FtRequest { client_id: b"A", retention_id: 1, expiration: Moment(u64::MAX) };

fn add(context: &[u8]) -> Result<Vec<u8>, Error> {
    write::request(&Request {
        version: Version::V12,
        order: Order::Big,
        request_id: 5,
        wish: Wish::Full,
        key: b"c",
        operation: "add",
        context: Some((write::FT_REQUEST, context)),
        body: Writer::new(Order::Big).long(7)?.as_octets(),
    })
}

#[test]
fn a_request_is_written_and_read() -> Result<(), Error> {
    let octets = add(&write::ft_request(Order::Big, &FT)?)?;
    assert_eq!(octets, ADD);

    let mut assembler = Assembler::open(Limits::default())?;
    assert_eq!(assembler.feed(&ADD[..50])?, 50);
    assert!(assembler.message()?.is_none());
    assert_eq!(assembler.feed(&[&ADD[50..], b"GIOP"].concat())?, 34);
    let mut message = assembler.message()?.expect("it is whole");
    assert_eq!(message.message_type(), MessageType::Request);
    assert_eq!((message.version(), message.order()), (Version::V12, Order::Big));
    assert_eq!((message.request_id(), message.wish()), (5, Some(Wish::Full)));
    assert_eq!((message.key(), message.operation()), (Some(&b"c"[..]), &b"add"[..]));
    assert_eq!((message.status(), message.locate_status()), (None, None));
    assert_eq!(message.ft_request(), Some(FT));
    assert_eq!((message.reader().long()?, message.body()), (7, &[0, 0, 0, 7][..]));
    assert_eq!(message.payload(), b"");
    let mut contexts = message.contexts();
    assert_eq!(contexts.len(), 1);
    // after the header and 40 octets of fields, which end by the context's length
    assert_eq!(contexts.next(), Some(Ok((13, ADD[52..76].to_vec()))));
    assert_eq!(contexts.next(), None);
    Ok(())
}

#[test]
fn a_body_is_taken_from_the_frame() -> Result<(), Error> {
    let other = [&ADD[..80], b"\0\0\0\x08"].concat();
    for (frame, number) in [(ADD, 7), (&other, 8), (&ADD[..83], 7), (&ADD[80..], 7), (b"", 7)] {
        let mut assembler = Assembler::open(Limits::default())?;
        assembler.feed(ADD)?;
        let message = assembler.message_in(frame)?.expect("it is whole");
        assert_eq!((message.reader().long()?, message.key()), (number, Some(&b"c"[..])));
    }
    Ok(())
}

#[test]
fn a_long_context_is_copied_whole() -> Result<(), Error> {
    let context: Vec<u8> = (0..=255).cycle().take(5000).collect();
    let octets = add(&context)?;
    let mut assembler = Assembler::open(Limits::default())?;
    assert_eq!(assembler.feed(&octets)?, octets.len());
    let mut message = assembler.message()?.expect("it is whole");
    // it doesn't read as FT_REQUEST
    assert_eq!(message.ft_request(), None);
    assert!(message.contexts().eq([Ok((13, context))]));
    Ok(())
}

/// A Reply of 1.1 of 24 octets whose last Fragment is empty.
const CUT: &[u8] =
    b"GIOP\x01\x01\x02\x01\0\0\0\x0c\0\0\0\0\0\0\0\x07\0\0\0\0GIOP\x01\x01\0\x07\0\0\0\0";

#[test]
fn a_message_of_1_1_is_joined_where_it_may_be_cut_anywhere() -> Result<(), Error> {
    let mut assembler = Assembler::open(Limits::default())?;
    assert_eq!(assembler.feed(CUT), Err(Error::Stream));
    assert_eq!(assembler.fault(), Some(Fault::UnalignedFragment));
    let mut assembler = Assembler::open(Limits { cuts: Cuts::Anywhere, ..Limits::default() })?;
    assert_eq!(assembler.feed(CUT)?, CUT.len());
    let message = assembler.message()?.expect("it is whole");
    assert_eq!((message.version(), message.request_id()), (Version::V11, 7));
    Ok(())
}

#[test]
fn replies_are_written_and_read() -> Result<(), Error> {
    let body = [0, 0, 0, 0, 0, 0, 0, 7];
    let reply = write::reply(Version::V12, Order::Big, 5, Status::NoException, &body)?;
    let wanted = b"GIOP\x01\x02\0\x01\0\0\0\x14\0\0\0\x05\0\0\0\0\0\0\0\0\0\0\0\0\0\0\0\x07";
    assert_eq!(reply, wanted);

    let mut assembler = Assembler::open(Limits::default())?;
    assembler.feed(&reply)?;
    let message = assembler.message()?.expect("it is whole");
    assert_eq!((message.message_type(), message.request_id()), (MessageType::Reply, 5));
    assert_eq!((message.status(), message.wish()), (Some(Status::NoException), None));
    assert_eq!((message.reader().longlong()?, message.key()), (7, None));
    Ok(())
}

#[test]
fn other_messages_are_written_and_read() -> Result<(), Error> {
    let (version, order) = (Version::V10, Order::Little);
    let stream = [
        write::cancel_request(version, order, 3)?,
        write::locate_request(version, order, 4, b"c")?,
        write::locate_reply(version, order, 4, LocateStatus::ObjectHere)?,
        write::message_error()?,
        write::close_connection()?,
    ];
    assert_eq!(stream[0], b"GIOP\x01\0\x01\x02\x04\0\0\0\x03\0\0\0");
    assert_eq!(stream[1], b"GIOP\x01\0\x01\x03\x09\0\0\0\x04\0\0\0\x01\0\0\0c");
    assert_eq!(stream[2], b"GIOP\x01\0\x01\x04\x08\0\0\0\x04\0\0\0\x01\0\0\0");
    assert_eq!(stream[3], b"GIOP\x01\0\0\x06\0\0\0\0");
    assert_eq!(stream[4], b"GIOP\x01\0\0\x05\0\0\0\0");

    // a Request comes first, and none of its parts is seen afterwards
    let mut assembler = Assembler::open(Limits::default())?;
    assert_eq!(assembler.feed(ADD)?, ADD.len());
    assert_eq!(assembler.message()?.expect("it is whole").operation(), b"add");
    let mut read = Vec::new();
    let (stream, mut at) = (stream.concat(), 0);
    while at < stream.len() {
        at += assembler.feed(&stream[at..])?;
        let mut message = assembler.message()?.expect("each is whole");
        let key = (message.message_type() == MessageType::LocateRequest).then_some(&b"c"[..]);
        assert_eq!(message.key(), key);
        assert_eq!(
            (message.operation(), message.body(), message.payload()),
            (&[][..], &[][..], &[][..])
        );
        assert_eq!((message.ft_request(), message.wish(), message.status()), (None, None, None));
        assert_eq!(message.contexts().len(), 0);
        read.push((message.message_type(), message.request_id(), message.locate_status()));
    }
    let wanted = [
        (MessageType::CancelRequest, 3, None),
        (MessageType::LocateRequest, 4, None),
        (MessageType::LocateReply, 4, Some(LocateStatus::ObjectHere)),
        (MessageType::MessageError, 0, None),
        (MessageType::CloseConnection, 0, None),
    ];
    assert_eq!(read, wanted);
    Ok(())
}

#[test]
fn fragments_are_joined() -> Result<(), Error> {
    // the Request of 84 octets as a first frame of 64, a whole message between, and a Fragment
    let mut first = ADD[..64].to_vec();
    first[6] = 2;
    first[8..12].copy_from_slice(&[0, 0, 0, 52]);
    let rest = [b"GIOP\x01\x02\0\x07\0\0\0\x18\0\0\0\x05", &ADD[64..]].concat();
    let between = write::cancel_request(Version::V12, Order::Big, 6)?;

    let mut assembler = Assembler::open(Limits::default())?;
    assert_eq!(assembler.feed(&first)?, 64);
    assert!(assembler.message()?.is_none());
    assert_eq!(assembler.feed(&between)?, between.len());
    let message = assembler.message()?.expect("it is whole");
    assert_eq!(message.message_type(), MessageType::CancelRequest);
    assert_eq!(assembler.feed(&rest)?, rest.len());
    let message = assembler.message()?.expect("it is joined");
    assert_eq!((message.message_type(), message.request_id()), (MessageType::Request, 5));
    assert_eq!((message.operation(), message.reader().long()?), (&b"add"[..], 7));
    assert_eq!(message.ft_request(), Some(FT));
    Ok(())
}

#[test]
fn a_stream_ends_by_its_first_fault() -> Result<(), Error> {
    let mut assembler = Assembler::open(Limits::default())?;
    assert_eq!(assembler.fault(), None);
    assert_eq!(assembler.feed(b"GIOP\x01\x03\0\0\0\0\0\0"), Err(Error::Stream));
    assert_eq!(assembler.fault(), Some(Fault::Version));
    assert_eq!(assembler.feed(ADD), Err(Error::Stream));
    assert!(assembler.message()?.is_none());
    Ok(())
}

#[test]
fn what_no_message_can_have_is_refused() -> Result<(), Error> {
    let mut request = Request {
        version: Version::V10,
        order: Order::Big,
        request_id: 1,
        wish: Wish::None,
        key: b"",
        operation: "ping",
        context: None,
        body: b"",
    };
    assert!(write::request(&request).is_ok());
    // 1.2 alone has it
    request.wish = Wish::Empty;
    assert_eq!(write::request(&request), Err(Error::Range));
    request.wish = Wish::None;
    request.operation = "pi\0ng";
    assert_eq!(write::request(&request), Err(Error::Text));
    let forward = Status::LocationForwardPerm;
    assert_eq!(write::reply(Version::V11, Order::Big, 1, forward, b""), Err(Error::Range));
    let ft = FtRequest { client_id: b"A\0", ..FT };
    assert_eq!(write::ft_request(Order::Big, &ft), Err(Error::Text));
    let limits = Limits::default();
    for limits in [Limits { message: 4095, ..limits }, Limits { partials: 17, ..limits }] {
        assert_eq!(Assembler::open(limits).err(), Some(Error::Range));
    }
    Ok(())
}
