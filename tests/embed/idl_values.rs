//! What is made in Rust of the shapes of tests/embed/idl_test.py and of the names of tests/embed/idl_rust_test.py: calls
//! between a client and a server without a socket, values that are none of their types, unions and names.
#![forbid(unsafe_code)]

mod odd_idl;
mod shapes_idl;

use lemonrudder::cdr::{Reader, Writer};
use lemonrudder::idl::{
    self, Asking, Calls, Codec, Failure, Object, Operation, Parked, Reference, Refused,
};
use lemonrudder::*;
use shapes_idl::shapes::desk::{self, ops, Inner};
use shapes_idl::shapes::{self, r#class, Any, Colour, Full, Held, Lost, Mark, Never, Point};
use std::fmt::Debug;
use std::time::Duration;

type Desk = shapes::Desk<Wire>;
type Done = Result<(), Error>;

/// What the servant says to the next call of `keep` or `draw`.
#[derive(Default)]
enum Say {
    #[default]
    Same,
    Mark(Mark),
    Held(Held),
    Full(Full),
    Lost(Lost),
    Park,
    Nothing,
}

/// A servant of the desk: what it heard, and what it says next.
#[derive(Default)]
struct Servant {
    heard: Vec<String>,
    title: String,
    next: Say,
    parked: Vec<(Parked<ops::Draw>, Mark)>,
}

impl class::BaseServant for Servant {
    fn size(&mut self, call: Asking<'_, '_, r#class::base::ops::SizeGetter>) -> Done {
        call.answer(&7)
    }

    fn name(&mut self, call: Asking<'_, '_, r#class::base::ops::NameGetter>) -> Done {
        call.answer(&self.title)
    }

    fn set_name(
        &mut self,
        call: Asking<'_, '_, r#class::base::ops::NameSetter>,
        value: String,
    ) -> Done {
        self.title = value;
        call.answer(&())
    }
}

impl shapes::DeskServant for Servant {
    fn keep(&mut self, call: Asking<'_, '_, ops::Keep>, what: Held) -> Done {
        self.heard.push(format!("keep {}", what.number));
        match std::mem::take(&mut self.next) {
            Say::Held(held) => call.answer(&held),
            Say::Full(full) => call.raise(full),
            _ => call.answer(&what),
        }
    }

    fn draw(&mut self, call: Asking<'_, '_, ops::Draw>, what: Mark) -> Done {
        self.heard.push("draw".into());
        match std::mem::take(&mut self.next) {
            Say::Mark(mark) => call.answer(&mark),
            Say::Full(full) => call.raise(full),
            Say::Lost(lost) => call.raise(lost),
            Say::Nothing => Ok(()),
            Say::Park => match call.park() {
                Ok(parked) => {
                    self.parked.push((parked, what));
                    Ok(())
                }
                Err(call) => call.refuse(SystemName::Transient),
            },
            _ => call.answer(&what),
        }
    }

    fn say(&mut self, call: Asking<'_, '_, ops::Say>, some: shapes::Names) -> Done {
        let count = i32::try_from(some.len()).expect("it is small");
        let first = some[..1].to_vec();
        call.answer(&(some, first, count))
    }

    fn pass(&mut self, call: Asking<'_, '_, ops::Pass>, r#in: i32, self_: Inner) -> Done {
        self.heard.push(format!("pass {in} {}", self_.self_));
        call.answer(&())
    }

    fn tell(&mut self, call: Asking<'_, '_, ops::Tell>, what: String) -> Done {
        self.heard.push(what);
        call.answer(&())
    }

    fn show(&mut self, call: Asking<'_, '_, ops::Show>, what: Mark) -> Done {
        self.heard.push(format!("{what:?}"));
        call.answer(&())
    }

    fn real(
        &mut self,
        mut call: Asking<'_, '_, ops::Real>,
        one: f32,
        two: char,
        three: bool,
        four: u8,
    ) -> Done {
        let operation = String::from_utf8_lossy(call.request().operation()).into_owned();
        self.heard.push(format!("{operation} {two} {three} {four}"));
        call.answer(&f64::from(one))
    }

    fn listed(
        &mut self,
        call: Asking<'_, '_, ops::Listed>,
        some: r#class::Points,
    ) -> Done {
        call.answer(&some)
    }
}

/// A client and a server, between which octets are carried.
struct Wire {
    client: Client,
    server: Server,
    servant: Servant,
    /// What serving ended by.
    served: Result<usize, Error>,
}

impl Wire {
    fn open() -> Result<Wire, Error> {
        let mut catalogue = Catalogue::open()?;
        desk::offer(&mut catalogue, "desk")?;
        let mut server = Server::open(catalogue, &Settings::default())?;
        server.connect(1)?;
        let mut client = Client::open("a client")?;
        client.connected(Moment::now())?;
        Ok(Wire { client, server, servant: Servant::default(), served: Ok(0) })
    }

    /// Carries what is due to the server, and back.
    fn carry(&mut self) -> Done {
        let Wire { client, server, servant, .. } = self;
        let asked = client.take_output();
        let perform = |request: &mut Request<'_>| desk::perform(servant, request);
        self.served = server.serve(1, Moment::now(), &asked, perform);
        for (parked, mark) in self.servant.parked.drain(..) {
            parked.answer(&mut self.server, &mark)?;
        }
        self.client.feed(&self.server.take_output(1))
    }
}

impl Calls for Wire {
    fn call<O: Operation>(
        &mut self,
        key: &[u8],
        arguments: &Writer,
    ) -> Result<O::Results, Failure<O>> {
        let now = Moment::now();
        idl::call::<O>(&mut self.client, now, now + Duration::from_secs(60), key, arguments)?;
        self.carry()?;
        match self.client.completed()? {
            Some(completion) => idl::outcome(&completion),
            None => Err(Error::Idle.into()),
        }
    }
}

fn new_desk() -> Desk {
    Desk::new(Object::new(Wire::open().expect("there is memory"), "desk"))
}

/// The servant of a desk.
fn servant(desk: &mut Desk) -> &mut Servant {
    &mut desk.as_mut().calls().servant
}

fn held() -> Held {
    Held {
        some: vec!["a".into(), "bc".into()],
        its_key: *b"four",
        a_line: [Point { x: 1, y: -2 }, Point { x: 0, y: 3 }],
        its_colour: Colour::Green,
        number: 1 << 63,
    }
}

fn full() -> Full {
    Full { id: 9, args: "é".into(), its_colour: Colour::None }
}

/// Calls with results, attributes, and none.
fn calls() {
    let mut desk = new_desk();
    assert_eq!(desk.keep(&held()), Ok(held()));
    let marks = [Mark::At(Point { x: -1, y: 2 }), Mark::Text("t".into()), Mark::NoMember(Colour::None)];
    for mark in &marks {
        assert_eq!(desk.draw(mark).as_ref(), Ok(mark));
    }
    let names = ["a".to_string(), "b".to_string()];
    assert_eq!(desk.say(&names), Ok((names.to_vec(), vec!["a".to_string()], 2)));
    assert_eq!(desk.pass(3, &Inner { self_: 4 }), Ok(()));
    assert_eq!(desk.real(0.5, 'é', true, 255), Ok(0.5));
    assert_eq!(desk.listed(&[Point { x: 5, y: 6 }]), Ok(vec![Point { x: 5, y: 6 }]));
    assert_eq!((desk.size(), desk.set_name("b"), desk.name()), (Ok(7), Ok(()), Ok("b".into())));
    assert_eq!((desk.tell("hi"), desk.show(&marks[1])), (Ok(()), Ok(())));
    assert_eq!(servant(&mut desk).heard.len(), 8);
    assert_eq!(servant(&mut desk).heard[4..], ["pass 3 4", "real é true 255", "hi", "Text(\"t\")"]);
    let object = desk.as_mut();
    assert_eq!(object.is_a("IDL:Shapes/class/Base:1.0"), Ok(true));
    assert_eq!(object.is_a("IDL:Other:1.0"), Ok(false));
    assert_eq!((object.non_existent(), object.key()), (Ok(false), &b"desk"[..]));
    let mut base = r#class::Base::from(Object::from(desk));
    assert_eq!(base.size(), Ok(7));
}

/// Exceptions, of operations with types and of raw ones.
fn exceptions() {
    let mut desk = new_desk();
    servant(&mut desk).next = Say::Full(full());
    let raised = desk.keep(&held());
    assert_eq!(raised, Err(Failure::Raised(ops::Keep::Full(full()))));
    let text = raised.expect_err("it raises").to_string();
    assert_eq!(text, "IDL:Shapes/Full:1.0: Full(Full { id: 9, args: \"é\", its_colour: None })");
    servant(&mut desk).next = Say::Full(full());
    assert_eq!(desk.draw(&Mark::Text("".into())), Err(Failure::Raised(full().into())));
    let lost = Lost { r#where: Mark::Text("here".into()) };
    servant(&mut desk).next = Say::Lost(lost.clone());
    assert_eq!(desk.draw(&Mark::Text("".into())), Err(Failure::Raised(ops::Draw::Lost(lost))));
    assert_eq!(Never {}.to_string(), "IDL:Shapes/Never:1.0: Never");
}

/// Arguments that are none of their types: nothing is sent.
fn no_arguments() {
    fn refused<T: PartialEq + Debug, O: PartialEq + Debug>(
        outcome: Result<T, Failure<O>>,
        error: Error,
        why: &str,
    ) {
        assert_eq!(outcome, Err(Failure::Refused(Refused { error, why: why.into() })));
    }
    let mut desk = new_desk();
    let four = Held { some: vec!["".to_string(); 4], ..held() };
    let bound = "keep: what: some: a sequence of 4, and the bound is 3";
    refused(desk.keep(&four), Error::Range, bound);
    let long = Held { some: vec!["a".to_string(), "abcde".to_string()], ..held() };
    let bound = "keep: what: some: [1]: a string of 5, and the bound is 4";
    refused(desk.keep(&long), Error::Range, bound);
    let wide = "draw: what: text: \"€\" has characters beyond ISO 8859-1";
    refused(desk.draw(&Mark::Text("€".into())), Error::Range, wide);
    let other = format!("draw: what: {}", Error::Range);
    refused(desk.draw(&Mark::NoMember(Colour::Red)), Error::Range, &other);
    refused(desk.tell("a\0b"), Error::Text, "tell: what: a NUL in the string \"a\\0b\"");
    let wide = "real: two: '€' is no char: one character of ISO 8859-1";
    refused(desk.real(0.5, '€', true, 1), Error::Range, wide);
    assert!(servant(&mut desk).heard.is_empty());
    assert!(desk.as_mut().calls().client.take_output().is_empty());
}

/// What is no outcome of an operation is INTERNAL, COMPLETED_MAYBE, and an error.
fn no_outcome() {
    let mut desk = new_desk();
    let internal = |failure: &str| {
        assert_eq!(failure, "IDL:omg.org/CORBA/INTERNAL:1.0: minor 0, Maybe");
    };
    let many = Held { some: vec!["".to_string(); 4], ..held() };
    for next in [Say::Held(many), Say::Full(Full { args: "\0".into(), ..full() })] {
        servant(&mut desk).next = next;
        internal(&desk.keep(&held()).expect_err("it has no outcome").to_string());
        assert!(desk.as_mut().calls().served.is_err());
    }
    let lost = Lost { r#where: Mark::NoMember(Colour::Green) };
    for next in [Say::Mark(Mark::Text("\0".into())), Say::Lost(lost), Say::Nothing] {
        servant(&mut desk).next = next;
        internal(&desk.draw(&Mark::Text("".into())).expect_err("it has no outcome").to_string());
    }
}

/// A request that is parked is answered behind another call.
fn parked() {
    let mut desk = new_desk();
    servant(&mut desk).next = Say::Park;
    assert_eq!(desk.draw(&Mark::Text("later".into())), Ok(Mark::Text("later".into())));
    assert_eq!(desk.as_mut().calls().server.parked(), 0);
}

/// Arguments of a peer that are none of their types, or pass a bound, are answered MARSHAL: the servant is not called.
fn arguments_of_a_peer() {
    let mut wire = Wire::open().expect("there is memory");
    let bodies: [(&str, &[u8]); 4] = [
        ("draw", &[0, 0, 0, 3]),
        ("draw", &[0, 0, 0, 0, 0, 1]),
        ("say", b"\0\0\0\x01\0\0\0\x06abcde\0"),
        ("say", b"\0\0\0\x04\0\0\0\x01\0\0\0\0\0\0\0\x01\0\0\0\0\0\0\0\x01\0\0\0\0\0\0\0\x01\0"),
    ];
    for (operation, body) in bodies {
        let (now, body) = (Moment::now(), Writer::of(Order::Big, body.to_vec()));
        let expiration = now + Duration::from_secs(60);
        let call = RawCall { key: b"desk", operation, wish: Wish::Full, body: &body, contexts: &[], expiration };
        wire.client.call_raw(now, &call).expect("it is a call");
        wire.carry().expect("there is memory");
        let completion = wire.client.completed().expect("it is known").expect("it ended");
        let raised = completion.system().expect("it reads").expect("it is a system exception");
        assert_eq!(raised.id, b"IDL:omg.org/CORBA/MARSHAL:1.0", "{operation}");
        assert_eq!(raised.completed, Completed::No);
    }
    assert!(wire.servant.heard.is_empty());
}

/// What comes of a reply with this body.
fn replied<O: Operation>(ended: Ended, body: &[u8]) -> Result<O::Results, Failure<O>> {
    let order = Order::Big;
    idl::outcome(&Completion { call: 1, ended, body, order, at: 0, limit: None })
}

/// Results of a peer that are none of their types, or more than these, are an error.
fn replies_of_a_peer() {
    assert_eq!(replied::<ops::Draw>(Ended::Returned, &[0, 0, 0, 2]), Ok(Mark::NoMember(Colour::None)));
    assert_eq!(replied::<ops::Draw>(Ended::Returned, &[0, 0, 0, 3]), Err(Error::Value.into()));
    assert_eq!(replied::<ops::Draw>(Ended::Returned, &[0, 0, 0, 2, 0]), Err(Error::Value.into()));
    assert_eq!(replied::<ops::Draw>(Ended::Returned, &[0, 0, 0]), Err(Error::Short.into()));
    assert_eq!(replied::<ops::Tell>(Ended::Sent, &[]), Ok(()));
    assert_eq!(replied::<ops::Keep>(Ended::Expired, &[]), Err(Error::Expired.into()));
    assert_eq!(replied::<ops::Keep>(Ended::Forwarded, &[]), Err(Error::Outcome.into()));
    let body = |id: &str, members: &[u8]| {
        let mut writer = Writer::new(Order::Big);
        writer.string(id).expect("it fits");
        [writer.as_octets(), members].concat()
    };
    let never = body("IDL:Shapes/Never:1.0", &[]);
    assert_eq!(replied::<ops::Keep>(Ended::Raised, &never), Err(Error::Outcome.into()));
    let short = body("IDL:Shapes/Full:1.0", &[0; 4]);
    assert_eq!(replied::<ops::Keep>(Ended::Raised, &short), Err(Error::Short.into()));
}

/// What comes of reading octets.
fn read<C: Codec>(octets: &[u8]) -> Result<C::Value, Error> {
    idl::read::<C>(&mut Reader::new(octets, Order::Big))
}

fn octets_of<C: Codec>(value: &C::Lent) -> Result<Vec<u8>, Error> {
    let mut writer = Writer::new(Order::Big);
    idl::write::<C>(&mut writer, value)?;
    Ok(writer.into_octets())
}

fn octets() {
    assert_eq!(read::<Mark>(&[0, 0, 0, 0, 0, 1, 0, 2]), Ok(Mark::At(Point { x: 1, y: 2 })));
    assert_eq!(read::<Held>(&[0, 0, 0, 4, 0, 0, 0, 1, 0, 0, 0, 0]), Err(Error::Value));
    assert_eq!(read::<Held>(&[255; 4]), Err(Error::Short));
    assert_eq!(read::<Reference>(b"\0\0\0\x01\0\0\0\0\0\0\0\0"), Ok(Reference::default()));
    assert_eq!(Colour::ALL, [Colour::Red, Colour::Green, Colour::None]);
}

/// Unions whose members have one label, several, or those that no other has.
fn unions() {
    use odd_idl::{Always, AnyOdd, Big, Charred, Negative, No, Odd, OneOdd, OnlyDefault, Yes};
    assert_eq!(octets_of::<Any>(&Any::From(1.5)), Ok(b"\0\0\0\0\0\0\0\0\x3f\xf8\0\0\0\0\0\0".to_vec()));
    assert_eq!(octets_of::<Any>(&Any::Id(2)), Ok(b"\x01\0\0\0\0\0\0\x02".to_vec()));
    for label in [2, 3] {
        let value = Big::Some { label, value: "b".into() };
        let octets = [&[0; 7][..], &[label as u8], b"\0\0\0\x02b\0"].concat();
        assert_eq!(octets_of::<Big>(&value), Ok(octets.clone()));
        assert_eq!(read::<Big>(&octets), Ok(value));
    }
    assert_eq!(octets_of::<Big>(&Big::Last(7)), Ok(b"\xff\xff\xff\xff\xff\xff\xff\xff\0\x07".to_vec()));
    assert_eq!(octets_of::<Big>(&Big::Some { label: 4, value: "".into() }), Err(Error::Range));
    assert_eq!(octets_of::<Big>(&Big::Rest { label: 2, value: vec![] }), Err(Error::Range));
    let rest = Big::Rest { label: 4, value: vec![1] };
    assert_eq!(octets_of::<Big>(&rest), Ok(b"\0\0\0\0\0\0\0\x04\0\0\0\x01\x01".to_vec()));
    assert_eq!(read::<Big>(b"\0\0\0\0\0\0\0\x04\0\0\0\x01\x01"), Ok(rest));
    assert_eq!(octets_of::<Charred>(&Charred::One { label: '\'', value: 1 }), Ok(b"'\0\0\0\0\0\0\x01".to_vec()));
    assert_eq!(octets_of::<Charred>(&Charred::NoMember('a')), Err(Error::Range));
    assert_eq!(read::<Charred>(b"\xe9"), Ok(Charred::NoMember('é')));
    assert_eq!(read::<Negative>(&[255, 255, 255, 251, 1]), Ok(Negative::Below(true)));
    assert_eq!(octets_of::<Yes>(&Yes::NoMember(false)), Ok(vec![0]));
    assert_eq!(octets_of::<Yes>(&Yes::NoMember(true)), Err(Error::Range));
    assert_eq!((read::<Yes>(&[0]), read::<No>(&[1])), (Ok(Yes::NoMember(false)), Ok(No::NoMember(true))));
    assert_eq!(octets_of::<No>(&No::NoMember(true)), Ok(vec![1]));
    assert_eq!(octets_of::<No>(&No::NoMember(false)), Err(Error::Range));
    for label in [false, true] {
        let octets = [u8::from(label), 0, 0, 0, 0, 0, 0, 7];
        assert_eq!(read::<Always>(&octets), Ok(Always::X { label, value: 7 }));
        assert_eq!(octets_of::<Always>(&Always::X { label, value: 7 }), Ok(octets.to_vec()));
    }
    for label in Odd::ALL {
        let octets = [0, 0, 0, label as u8, 0, 0, 0, 7];
        assert_eq!(read::<AnyOdd>(&octets), Ok(AnyOdd::X { label, value: 7 }));
        assert_eq!(octets_of::<AnyOdd>(&AnyOdd::X { label, value: 7 }), Ok(octets.to_vec()));
        assert_eq!(octets_of::<OneOdd>(&OneOdd::X { label, value: 7 }), Ok(octets.to_vec()));
    }
    assert_eq!(octets_of::<OnlyDefault>(&OnlyDefault::X { label: -1, value: 2 }), Ok(vec![255, 255, 255, 255, 2]));
}

fn names() {
    use odd_idl::many;
    use odd_idl::{Odd, Own};
    assert_eq!((shapes::FEW, shapes::HELLO), (3, "hel\"lo"));
    assert_eq!((many::MAX_SIZE, many::S, many::C, many::O), (5, "a\"\\\né", '\'', Odd::Value));
    assert_eq!((many::LEAST, many::F, many::IS_SO), (-9_223_372_036_854_775_807, 0.5, true));
    let own = Own { name: Odd::Self_, r#type: 1, self_: 2 };
    assert_eq!((own.name as u32, Odd::Items1 as u32, Odd::Items1_2 as u32, Odd::RedGreen as u32), (2, 3, 4, 5));

    assert_eq!(odd_idl::r#impl::ids(), ["IDL:odd/Impl:3.1"]);
    assert_eq!(many::ids(), ["IDL:Many:1.0", "IDL:odd/Impl:3.1"]);
    assert_eq!(desk::ids(), ["IDL:Shapes/Desk:1.0", "IDL:Shapes/class/Base:1.0"]);
    assert_eq!(many::ops::GetHttpThing::NAME, "getHTTPThing");
    assert_eq!(r#class::base::ops::NameSetter::NAME, "_set_name");
}

fn main() {
    calls();
    exceptions();
    no_arguments();
    no_outcome();
    parked();
    arguments_of_a_peer();
    replies_of_a_peer();
    octets();
    unions();
    names();
}
