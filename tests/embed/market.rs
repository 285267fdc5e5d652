//! The same in Rust: the objects of a family are those that its servants have.
#![forbid(unsafe_code)]

mod market_idl;

use lemonrudder::idl::{Asking, Reference};
use lemonrudder::{Catalogue, Error, Ior, Moment, Request, Server, Settings, SystemName, Version};
use market_idl::{market, session, MarketServant, SessionServant};
use std::collections::HashMap;
use std::io::{Read, Write};
use std::net::TcpListener;

/// What there is: the counts of sessions by their keys.
struct Doors {
    port: u16,
    last: i32,
    counts: HashMap<Vec<u8>, i32>,
}

impl MarketServant for Doors {
    fn login(
        &mut self,
        mut call: Asking<'_, '_, market::ops::Login>,
        is_of_family: bool,
    ) -> Result<(), Error> {
        self.last += 1;
        let key = format!("{}/{}", if is_of_family { "family" } else { "one" }, self.last);
        self.counts.insert(key.clone().into_bytes(), 0);
        if !is_of_family {
            let key = key.clone();
            call.request().change(move |all| session::offer(all, &key))?;
        }
        let (port, key) = (self.port, key.as_bytes());
        let mut ior = Ior::iiop(session::ids()[0], Version::V12, "127.0.0.1", port, key)?;
        call.answer(&Reference::try_from(&mut ior)?)
    }
}

/// The session of a key.
struct One<'a>(&'a mut HashMap<Vec<u8>, i32>);

impl SessionServant for One<'_> {
    fn more(&mut self, mut call: Asking<'_, '_, session::ops::More>) -> Result<(), Error> {
        let count = self.0.entry(call.request().key().to_vec()).or_default();
        *count += 1;
        call.answer(count)
    }

    fn bye(&mut self, mut call: Asking<'_, '_, session::ops::Bye>) -> Result<(), Error> {
        let key = call.request().key().to_vec();
        let count = self.0.remove(&key).unwrap_or_default();
        if key.starts_with(b"one/") {
            call.request().remove(key);
        }
        call.answer(&count)
    }
}

fn perform(doors: &mut Doors, request: &mut Request<'_>) -> Result<(), Error> {
    if request.key() == b"market" {
        return market::perform(doors, request);
    }
    if !doors.counts.contains_key(request.key()) {
        return request.refuse(SystemName::ObjectNotExist, 0);
    }
    session::perform(&mut One(&mut doors.counts), request)
}

fn main() -> Result<(), Box<dyn std::error::Error>> {
    let (mut catalogue, mut families) = (Catalogue::open()?, Catalogue::open()?);
    market::offer(&mut catalogue, "market")?;
    session::offer(&mut families, "family/")?;
    catalogue.families(families)?;
    let mut server = Server::open(catalogue, &Settings::default())?;
    let listener = TcpListener::bind("127.0.0.1:0")?;
    let port = listener.local_addr()?.port();
    let mut doors = Doors { port, last: 0, counts: HashMap::new() };
    println!("{}", Ior::iiop(market::ids()[0], Version::V12, "127.0.0.1", port, b"market")?.to_text()?);
    let mut room = [0; 4096];
    for connection in 1.. {
        let (mut stream, _) = listener.accept()?;
        server.connect(connection)?;
        loop {
            let size = stream.read(&mut room)?;
            if size == 0 {
                break;
            }
            let serve = |request: &mut Request<'_>| perform(&mut doors, request);
            server.serve_all(connection, Moment::now(), &room[..size], serve)?;
            stream.write_all(&server.take_output(connection))?;
        }
        server.lost(connection)?;
    }
    Ok(())
}
