//! A client calls a counter, loses the connection with the reply, and calls again: it acts once.

use lemonrudder::{cdr::Writer, *};
use std::time::Duration;

/// long long add(in long n);
const ADD: Signature = Signature::new(&[Type::Long], &[Type::LongLong]);

fn main() -> Result<(), Error> {
    let mut catalogue = Catalogue::open()?;
    catalogue.object("counter")?;
    catalogue.operation("counter", "add", &ADD)?;
    let mut server = Server::open(catalogue, &Settings::default())?;

    let now = Moment::now();
    let mut client = Client::open("client 1")?;
    let mut arguments = Writer::new(Order::Big);
    let call = Call {
        key: b"counter",
        operation: "add",
        types: ADD.arguments,
        arguments: arguments.long(7)?,
        expiration: now + Duration::from_secs(60),
    };
    client.call(now, &call)?;

    let mut total = 0;
    for connection in [1, 2] {
        server.connect(connection)?;
        client.connected(now)?;
        server.serve(connection, now, &client.take_output(), |request| {
            let after = total + i64::from(request.reader().long()?);
            request.answer(Writer::new(Order::Big).longlong(after)?)?;
            total = after;
            Ok(())
        })?;
        let reply = server.take_output(connection);
        if connection == 1 {
            client.lost();
            server.lost(connection)?;
        } else {
            client.feed(&reply)?;
        }
    }
    if let Some(completion) = client.completed()? {
        println!("add returned {}, the total is {total}", completion.reader().longlong()?);
    }
    Ok(())
}
