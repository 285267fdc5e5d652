//! The store of tests/embed/idl_files_test.py in Rust: a server, and a client that prints what it is
//! answered.
#![forbid(unsafe_code)]

mod store_idl;

use lemonrudder::cdr::Writer;
use lemonrudder::idl::{read, write, Asking, Body, Exception, Failure, Object};
use lemonrudder::*;
use std::env;
use std::io::{Read, Write};
use std::net::TcpListener;
use store_idl::store::{self, deep, BoxServant, Deep, DeepServant, Missing, NamedServant, Node};

const TK_STRING: u32 = 18;

struct Own;

impl NamedServant for Own {
    fn name(&mut self, call: Asking<'_, '_, store::named::ops::NameGetter>) -> Result<(), Error> {
        call.answer(&"deep".to_string())
    }
}

impl BoxServant for Own {
    fn keep(
        &mut self,
        call: Asking<'_, '_, store::r#box::ops::Keep>,
        mut tree: Node,
    ) -> Result<(), Error> {
        if tree.name.is_empty() {
            return call.raise(Missing { name: "none".to_string() });
        }
        tree.name.push('!');
        call.answer(&tree)
    }
}

impl DeepServant for Own {
    fn put(&mut self, call: Asking<'_, '_, deep::ops::Put>, body: Body) -> Result<(), Error> {
        let (mut reader, mut writer) = (body.reader(), Writer::new(Order::Little));
        let (kind, number) = (reader.ulong()?, reader.long()?);
        if kind != TK_STRING {
            return call.refuse(SystemName::Marshal);
        }
        if number < 0 {
            writer.string(Missing::ID)?;
            write::<Missing>(&mut writer, &Missing { name: "below".to_string() })?;
            return call.raise(deep::ops::Put(writer.into()));
        }
        writer.ulong(TK_STRING)?.long(number + 1)?;
        call.answer(&writer.into())
    }

    fn call(
        &mut self,
        asking: Asking<'_, '_, deep::ops::Call>,
        call: i32,
    ) -> Result<(), Error> {
        asking.answer(&(call + 1))
    }
}

/// Serves one connection after another.
fn run() -> Result<(), std::boxed::Box<dyn std::error::Error>> {
    let mut catalogue = Catalogue::open()?;
    deep::offer(&mut catalogue, "deep")?;
    let mut server = Server::open(catalogue, &Settings::default())?;
    let listener = TcpListener::bind("127.0.0.1:0")?;
    let port = listener.local_addr()?.port();
    println!("{}", Ior::iiop(deep::ids()[0], Version::V12, "127.0.0.1", port, b"deep")?.to_text()?);
    let mut room = [0; 4096];
    for connection in 1.. {
        let (mut stream, _) = listener.accept()?;
        server.connect(connection)?;
        loop {
            let size = stream.read(&mut room)?;
            if size == 0 {
                break;
            }
            let serve = |request: &mut Request<'_>| deep::perform(&mut Own, request);
            server.serve(connection, Moment::now(), &room[..size], serve)?;
            stream.write_all(&server.take_output(connection))?;
        }
        server.lost(connection)?;
    }
    Ok(())
}

fn put(deep: &mut Deep<idl::Caller>, number: i32) -> Result<(), Error> {
    let mut writer = Writer::new(Order::Big);
    writer.ulong(TK_STRING)?.long(number)?;
    match deep.put(&writer) {
        Ok(body) => {
            let mut reader = body.reader();
            assert_eq!(reader.ulong()?, TK_STRING);
            println!("{}", reader.long()?);
        }
        Err(Failure::Raised(deep::ops::Put(body))) if body.id() == Missing::ID => {
            let mut reader = body.reader();
            reader.string()?;
            println!("missing {}", read::<Missing>(&mut reader)?.name);
        }
        Err(failure) => println!("{failure}"),
    }
    Ok(())
}

fn ask(reference: &str) -> Result<(), std::boxed::Box<dyn std::error::Error>> {
    let mut deep = Deep::new(Object::of(reference)?);
    let node = |name: &str, children| Node { name: name.to_string(), children };
    let tree = node("a", vec![node("", vec![]), node("b", vec![node("c", vec![])])]);
    println!("{}", deep.name()?);
    let kept = deep.keep(&tree)?;
    println!("{} {} {}", kept.name, kept.children.len(), kept.children[1].children[0].name);
    if let Err(Failure::Raised(store::r#box::ops::Keep::Missing(raised))) =
        deep.keep(&node("", vec![]))
    {
        println!("missing {}", raised.name);
    }
    put(&mut deep, 5)?;
    put(&mut deep, -1)?;
    println!("{}", deep.call(4)?);
    Ok(())
}

fn main() -> Result<(), std::boxed::Box<dyn std::error::Error>> {
    match env::args().nth(2) {
        Some(reference) => ask(&reference),
        None => run(),
    }
}
