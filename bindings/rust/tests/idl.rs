//! Calls of stubs over sockets, whatever becomes of their connections.

use lemonrudder::idl::{Caller, Failure, Object, Reference, SystemRaised};
use lemonrudder::{
    Catalogue, Completed, Error, Ior, Moment, Server, Settings, SystemName, Version,
};
use std::io::{Read, Write};
use std::net::{SocketAddr, TcpListener, TcpStream};
use std::thread::{self, JoinHandle};
use std::time::{Duration, Instant};

const ID: &str = "IDL:Counter:1.0";

/// What a server does of the requests that come on a connection.
#[derive(Clone, Copy)]
enum Step {
    /// It reads one, and closes.
    Close,
    /// It performs one, and closes before its reply is sent.
    Lose,
    /// It refuses the first by `TRANSIENT`, and answers the others.
    Refuse,
    /// It answers.
    Answer,
}

/// A server of an object `c`, which takes the next step with each connection, and gives how many
/// requests came.
struct Script {
    server: Server,
    asked: usize,
}

impl Script {
    fn new() -> Script {
        let mut catalogue = Catalogue::open().unwrap();
        catalogue.object("c").unwrap();
        catalogue.repository_ids("c", &[ID]).unwrap();
        Script { server: Server::open(catalogue, &Settings::default()).unwrap(), asked: 0 }
    }

    /// Answers what came, or refuses it.
    fn answer(&mut self, connection: u64, came: &[u8], refuses: bool) {
        self.server.feed(connection, Moment::now(), came).unwrap();
        let asked = self.server.asked().unwrap().map(|request| request.ticket());
        let Some(ticket) = asked else { return };
        self.asked += 1;
        if refuses {
            self.server.refuse(ticket, SystemName::Transient, 0).unwrap();
        } else {
            assert!(self.server.identify(ticket).unwrap());
        }
    }

    /// Serves a connection as a step says, until the other side closes it.
    fn serve(&mut self, connection: u64, mut stream: TcpStream, step: Step) {
        self.server.connect(connection).unwrap();
        let mut room = [0; 4096];
        let mut refuses = matches!(step, Step::Refuse);
        loop {
            let size = stream.read(&mut room).unwrap_or(0);
            if size == 0 || matches!(step, Step::Close) {
                break;
            }
            self.answer(connection, &room[..size], refuses);
            refuses = false;
            if matches!(step, Step::Lose) {
                break;
            }
            stream.write_all(&self.server.take_output(connection)).unwrap();
        }
        self.server.lost(connection).unwrap();
    }
}

/// Serves one connection after another by these steps, and gives how many requests came.
fn serving(steps: &'static [Step]) -> (SocketAddr, JoinHandle<usize>) {
    let listener = TcpListener::bind("127.0.0.1:0").unwrap();
    let address = listener.local_addr().unwrap();
    let served = thread::spawn(move || {
        let mut script = Script::new();
        for (connection, step) in (1..).zip(steps) {
            let (stream, _) = listener.accept().unwrap();
            script.serve(connection, stream, *step);
        }
        script.asked
    });
    (address, served)
}

fn object(address: SocketAddr) -> Object<Caller> {
    Object::new(Caller::open(address.ip().to_string(), address.port()).unwrap(), "c")
}

/// The object of several addresses.
fn object_at(addresses: &[SocketAddr]) -> Object<Caller> {
    let mut reference = Reference::default();
    for address in addresses {
        let host = address.ip().to_string();
        let mut ior = Ior::iiop(ID, Version::V12, &host, address.port(), b"c").unwrap();
        reference.profiles.extend(Reference::try_from(&mut ior).unwrap().profiles);
    }
    Object::of(&reference.to_text().unwrap()).unwrap()
}

/// An address where nobody listens.
fn nobody() -> SocketAddr {
    TcpListener::bind("127.0.0.1:0").unwrap().local_addr().unwrap()
}

/// A failure by a system exception.
fn raised<O>(name: &str, completed: Completed) -> Failure<O> {
    let id = format!("IDL:omg.org/CORBA/{name}:1.0");
    Failure::System(SystemRaised { id, minor: 0, completed })
}

#[test]
fn a_call_goes_to_the_next_address() {
    let (lost, lost_by) = serving(&[Step::Lose]);
    let (refused, refused_by) = serving(&[Step::Refuse]);
    let (answered, answered_by) = serving(&[Step::Answer]);
    let mut object = object_at(&[nobody(), lost, refused, answered]);
    assert_eq!(object.is_a(ID), Ok(true));
    // (it stays where it was answered)
    assert_eq!(object.non_existent(), Ok(false));
    drop(object);
    assert_eq!(lost_by.join().unwrap(), 1);
    assert_eq!(refused_by.join().unwrap(), 1);
    assert_eq!(answered_by.join().unwrap(), 2);
}

#[test]
fn a_call_that_was_sent_may_be_completed_where_nobody_is_left() {
    let (address, served) = serving(&[Step::Lose]);
    let mut object = object_at(&[nobody(), address]);
    object.calls().set_patience(Duration::from_millis(200));
    assert_eq!(object.is_a(ID).unwrap_err(), raised("COMM_FAILURE", Completed::Maybe));
    assert_eq!(served.join().unwrap(), 1);
    assert_eq!(object.is_a(ID).unwrap_err(), raised("TRANSIENT", Completed::No));
}

#[test]
fn a_call_is_sent_again_until_it_is_answered() {
    let (address, served) = serving(&[Step::Close, Step::Lose, Step::Answer]);
    let mut object = object(address);
    assert_eq!(object.is_a(ID), Ok(true));
    assert_eq!(object.is_a("IDL:Other:1.0"), Ok(false));
    assert_eq!(object.non_existent(), Ok(false));
    drop(object);
    // (what was lost is answered from what is kept, and not asked again)
    assert_eq!(served.join().unwrap(), 3);
}

#[test]
fn transient_is_sent_again() {
    let (address, served) = serving(&[Step::Refuse]);
    let mut object = object(address);
    assert_eq!(object.is_a(ID), Ok(true));
    drop(object);
    assert_eq!(served.join().unwrap(), 2);
}

#[test]
fn a_call_expires_where_nobody_listens() {
    let mut object = object(nobody());
    object.calls().set_patience(Duration::from_millis(200));
    let begun = Instant::now();
    let failure = object.non_existent().unwrap_err();
    assert_eq!(failure, raised("TRANSIENT", Completed::No));
    assert!(begun.elapsed() >= Duration::from_millis(200));
}

#[test]
fn a_system_exception_is_a_failure() {
    let (address, served) = serving(&[Step::Answer]);
    let mut caller = Caller::open("127.0.0.1", address.port()).unwrap();
    let failure = Object::new(&mut caller, "other").is_a(ID).unwrap_err();
    let Failure::System(raised) = &failure else { panic!("{failure}") };
    assert_eq!(raised.id, "IDL:omg.org/CORBA/OBJECT_NOT_EXIST:1.0");
    assert_eq!(raised.completed, Completed::No);
    assert_eq!(Object::new(&mut caller, "c").is_a(ID), Ok(true));
    drop(caller);
    assert_eq!(served.join().unwrap(), 1);
}

#[test]
fn an_object_is_that_of_a_reference() {
    let (address, served) = serving(&[Step::Answer]);
    let mut ior = Ior::iiop(ID, Version::V12, "127.0.0.1", address.port(), b"c").unwrap();
    let mut object = Object::of(&ior.to_text().unwrap()).unwrap();
    assert_eq!((object.non_existent(), object.key()), (Ok(false), &b"c"[..]));
    drop(object);
    assert_eq!(served.join().unwrap(), 1);
    assert_eq!(Object::of("IOR:00").err(), Some(Error::Reference));
    assert_eq!(Object::of("corbaloc:rir:/b").err(), Some(Error::Reference));
}
