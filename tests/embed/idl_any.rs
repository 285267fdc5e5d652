//! The box of tests/embed/idl_any_test.py in Rust: a server, and a client of a box, whose anys another
//! box judges.
#![forbid(unsafe_code)]

mod box_idl;

use box_idl::pass::r#box::{self, ops};
use box_idl::pass::{Bad, Box, BoxServant, Either, Held};
use lemonrudder::idl::{Any, Asking, Caller, Failure, Object, Plain};
use lemonrudder::{idl, *};
use std::{borrow::Borrow, env};
use tokio::net::TcpListener;
use tokio_bank::{serve, share, Servant, Shared};

/// A basic type: how an any of its value is made, and whether one has that.
type Basic = (&'static str, fn() -> Result<Any, Error>, fn(&Any) -> bool);

/// Whether an any has a value, and of no other type.
fn is_of<C: Plain>(one: &Any, value: &C::Lent) -> bool
where
    C::Lent: PartialEq,
{
    let others = C::KIND == idl::Short::KIND || one.value::<idl::Short>() == Err(Error::Value);
    others && one.value::<C>().is_ok_and(|found| found.borrow() == value)
}

macro_rules! basics {
    ($($name:literal: $codec:ty = $value:expr;)*) => {
        const BASICS: &[Basic] = &[$(
            ($name, || Any::of::<$codec>(&$value), |one| is_of::<$codec>(one, &$value)),
        )*];
    };
}

basics! {
    "boolean": idl::Boolean = true;
    "char": idl::Char = 'x';
    "octet": idl::Octet = 200;
    "short": idl::Short = -5;
    "ushort": idl::UShort = 65000;
    "long": idl::Long = -70000;
    "ulong": idl::ULong = 4_000_000_000;
    "longlong": idl::LongLong = -5_000_000_000;
    "ulonglong": idl::ULongLong = 10_000_000_000_000_000_000;
    "float": idl::Float = 0.5;
    "double": idl::Double = -0.375;
    "string": idl::Text = *"a text";
}

fn basic_of(name: &str) -> Result<&'static Basic, Error> {
    BASICS.iter().find(|(its, _, _)| *its == name).ok_or(Error::Value)
}

#[derive(Default)]
struct Own {
    kept: Any,
}

impl BoxServant for Own {
    fn known(&mut self, call: Asking<'_, '_, ops::Known>, _: bool) -> Result<(), Error> {
        call.answer(&BASICS.iter().map(|(name, _, _)| name.to_string()).collect())
    }

    fn make(&mut self, call: Asking<'_, '_, ops::Make>, name: String) -> Result<(), Error> {
        call.answer(&basic_of(&name)?.1()?)
    }

    fn check(
        &mut self,
        call: Asking<'_, '_, ops::Check>,
        name: String,
        one: Any,
    ) -> Result<(), Error> {
        call.answer(&basic_of(&name)?.2(&one))
    }

    fn turn(&mut self, call: Asking<'_, '_, ops::Turn>, one: Any, two: Any) -> Result<(), Error> {
        call.answer(&(one.clone(), two, one))
    }

    fn hold(&mut self, call: Asking<'_, '_, ops::Hold>, one: Held) -> Result<(), Error> {
        call.answer(&one)
    }

    fn pick(&mut self, call: Asking<'_, '_, ops::Pick>, one: Either) -> Result<(), Error> {
        call.answer(&one)
    }

    fn fail(&mut self, call: Asking<'_, '_, ops::Fail>, why: u8, what: Any) -> Result<(), Error> {
        call.raise(Bad { why, what })
    }

    fn kept(&mut self, call: Asking<'_, '_, ops::KeptGetter>) -> Result<(), Error> {
        call.answer(&self.kept)
    }

    fn set_kept(&mut self, call: Asking<'_, '_, ops::KeptSetter>, value: Any) -> Result<(), Error> {
        self.kept = value;
        call.answer(&())
    }
}

struct Served {
    server: Server,
    own: Own,
}

impl Servant for Served {
    fn server(&mut self) -> &mut Server {
        &mut self.server
    }

    fn feed(&mut self, _: &Shared<Served>, connection: u64, came: &[u8]) -> Result<usize, Error> {
        let Served { server, own } = self;
        server.serve(connection, Moment::now(), came, |request| r#box::perform(own, request))
    }
}

type Ended = Result<(), std::boxed::Box<dyn std::error::Error>>;

#[tokio::main(flavor = "current_thread")]
async fn run() -> Ended {
    let mut catalogue = Catalogue::open()?;
    r#box::offer(&mut catalogue, "box")?;
    let server = Server::open(catalogue, &Settings::default())?;
    let listener = TcpListener::bind("127.0.0.1:0").await?;
    let port = listener.local_addr()?.port();
    println!("{}", Ior::iiop(r#box::ids()[0], Version::V12, "127.0.0.1", port, b"box")?.to_text()?);
    serve(listener, &share(Served { server, own: Own::default() })).await
}

/// What comes back of an any.
fn passed(
    object: &mut Box<Caller>,
    one: &Any,
) -> Result<Vec<Any>, std::boxed::Box<dyn std::error::Error>> {
    let (first, second, third) = object.turn(one, one)?;
    let more = vec![one.clone(), one.clone()];
    let held = object.hold(&Held { tag: 3, one: one.clone(), more })?;
    let mut back = vec![first, second, third, held.one];
    back.extend(held.more);
    if let Either::One(picked) = object.pick(&Either::One(one.clone()))? {
        back.push(picked);
    }
    if let Err(Failure::Raised(ops::Fail::Bad(raised))) = object.fail(7, one) {
        back.push(raised.what);
    }
    object.set_kept(one)?;
    back.push(object.kept()?);
    Ok(back)
}

fn ask(reference: &str, of_judge: &str) -> Ended {
    let mut object = Box::new(Object::of(reference)?);
    let mut judge = Box::new(Object::of(of_judge)?);
    for name in judge.known(false)? {
        let one = judge.make(&name)?;
        let mut count = 0;
        for back in passed(&mut object, &one)? {
            count += u32::from(judge.check(&name, &back)?);
        }
        println!("{name} {count}");
    }
    for (name, make, has) in BASICS {
        let its = judge.make(name)?;
        let is_so = judge.check(name, &make()?)?;
        println!("of {name} {} {}", u8::from(has(&its)), u8::from(is_so));
    }
    Ok(())
}

fn main() -> Ended {
    let words: Vec<String> = env::args().collect();
    match words.as_slice() {
        [_, _, reference, .., judge] => ask(reference, judge),
        [_, _, reference] => ask(reference, reference),
        _ => run(),
    }
}
