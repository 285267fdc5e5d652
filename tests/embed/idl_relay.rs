//! Relays of what is made in Rust, of which tests/embed/idl_exchange_rust.py makes the rest: a servant
//! of all interfaces that hands each call to another object.

use lemonrudder::idl::{Asking, Caller, Failure, Object, Operation};
use lemonrudder::*;
use std::io::{Read, Write};
use std::net::{TcpListener, TcpStream};
use std::sync::{Arc, Mutex};
use std::{env, error, fs, str, thread};

/// What is made of an interface.
pub struct Interface {
    pub id: &'static str,
    pub offer: fn(&mut Catalogue, &str) -> Result<(), Error>,
    pub perform: fn(&mut Relay, &mut Request<'_>) -> Result<(), Error>,
}

/// A servant of any interface.
pub struct Relay {
    reference: String,
    object: Option<Object<Caller>>,
}

impl Relay {
    /// The object that calls are handed to.
    pub fn relayed(&mut self) -> Result<Object<&mut Caller>, Error> {
        let object = match self.object.take() {
            Some(object) => self.object.insert(object),
            None => self.object.insert(Object::of(&self.reference)?),
        };
        let key = object.key().to_vec();
        Ok(Object::new(object.calls(), key))
    }
}

/// Answers a call by the outcome of another one.
pub fn passed<O: Operation>(
    call: Asking<'_, '_, O>,
    outcome: Result<O::Results, Failure<O>>,
) -> Result<(), Error> {
    match outcome {
        Ok(results) => call.answer(&results),
        Err(Failure::Raised(raised)) => call.raise(raised),
        Err(_) => call.system(SystemName::Unknown, Completed::Maybe),
    }
}

/// An engine, and the relays of its objects.
struct Served {
    server: Server,
    interfaces: &'static [Interface],
    relays: Vec<Relay>,
}

/// The number of an object, by its key.
fn number_of(key: &[u8]) -> Option<usize> {
    str::from_utf8(key).ok()?.strip_prefix("object ")?.parse().ok()
}

impl Served {
    /// Feeds what came on a connection, and answers what is due on it.
    fn fed(&mut self, connection: u64, mut came: &[u8]) -> Result<Vec<u8>, Error> {
        let Served { server, interfaces, relays } = self;
        let mut due = Vec::new();
        while !came.is_empty() {
            let taken = server.serve(connection, Moment::now(), came, |request| {
                let at = number_of(request.key()).ok_or(Error::Value)?;
                (interfaces[at].perform)(&mut relays[at], request)
            })?;
            due.extend(server.take_output(connection));
            came = &came[taken..];
        }
        Ok(due)
    }
}

/// Serves a connection.
fn talk(mut stream: TcpStream, connection: u64, served: &Mutex<Served>) -> std::io::Result<()> {
    let mut room = [0; 65536];
    loop {
        let size = stream.read(&mut room)?;
        let due = served.lock().unwrap().fed(connection, &room[..size]);
        match due {
            Ok(due) if size > 0 => stream.write_all(&due)?,
            _ => break,
        }
    }
    served.lock().unwrap().server.lost(connection).map_err(std::io::Error::other)
}

/// Serves objects of interfaces, each before one of those whose references stand in a file.
pub fn serve(interfaces: &'static [Interface]) -> Result<(), Box<dyn error::Error>> {
    let behind = fs::read_to_string(env::args().nth(1).ok_or("no file")?)?;
    let relays = behind.lines().map(|line| Relay { reference: line.to_string(), object: None });
    let mut catalogue = Catalogue::open()?;
    for (at, one) in interfaces.iter().enumerate() {
        (one.offer)(&mut catalogue, &format!("object {at}"))?;
    }
    let server = Server::open(catalogue, &Settings::default())?;
    let served = Arc::new(Mutex::new(Served { server, interfaces, relays: relays.collect() }));
    let listener = TcpListener::bind("127.0.0.1:0")?;
    let port = listener.local_addr()?.port();
    for (at, one) in interfaces.iter().enumerate() {
        let key = format!("object {at}");
        let mut ior = Ior::iiop(one.id, Version::V12, "127.0.0.1", port, key.as_bytes())?;
        println!("{}", ior.to_text()?);
    }
    for connection in 1.. {
        let (stream, _) = listener.accept()?;
        served.lock().unwrap().server.connect(connection)?;
        let served = served.clone();
        thread::spawn(move || talk(stream, connection, &served));
    }
    Ok(())
}
