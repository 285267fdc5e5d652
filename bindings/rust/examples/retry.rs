//! Deposits into an account of a bank, over a connection that the other side may cut at any time,
//! and prints each result: `retry HOST PORT`, or `retry IOR:..`
//!
//! A call whose connection is lost is sent again on the next one, until it is answered; a bank that
//! keeps outcomes performs it once.
//!
//! ```idl
//! interface Bank {
//!   exception Overdrawn { long long balance; };
//!   long long deposit(in string account, in long long amount) raises (Overdrawn);
//!   long long balance(in string account);
//! };
//! ```

use lemonrudder::cdr::Writer;
use lemonrudder::{Call, Client, Completion, Ended, Error, Ior, Moment, Order, Type};
use std::io::{Read, Write};
use std::net::TcpStream;
use std::time::Duration;
use std::{env, process, thread};

/// How many calls are made: the last one asks for the balance, and the others deposit 1, 2, .. but
/// each fifth one takes more than there is.
const CALLS: i32 = 31;
/// How many are pending at a time.
const AT_ONCE: i32 = 4;
/// How long each is sent again.
const PATIENCE: Duration = Duration::from_secs(20);

type Failure = Box<dyn std::error::Error>;

/// A client of the bank, how many calls it has made, and how many have ended.
struct Teller {
    client: Client,
    key: Vec<u8>,
    account: String,
    called: i32,
    ended: i32,
}

impl Teller {
    fn new(key: Vec<u8>) -> Result<Teller, Error> {
        // no other client has this name, nor has had it
        let account = format!("{} {}", process::id(), Moment::now().0);
        let client = Client::open(&account)?;
        Ok(Teller { client, key, account, called: 0, ended: 0 })
    }

    /// Makes calls, up to as many as may be pending.
    fn call_more(&mut self) -> Result<(), Error> {
        while self.called < CALLS && self.called - self.ended < AT_ONCE {
            self.called += 1;
            let mut arguments = Writer::new(Order::NATIVE);
            arguments.string(&self.account)?;
            let (operation, types) = if self.called == CALLS {
                ("balance", &[Type::String][..])
            } else {
                let amount = if self.called % 5 == 0 { -1_000_000 } else { self.called };
                arguments.longlong(amount.into())?;
                ("deposit", &[Type::String, Type::LongLong][..])
            };
            let (now, key, arguments) = (Moment::now(), &self.key[..], &arguments);
            let expiration = now + PATIENCE;
            self.client.call(now, &Call { key, operation, types, arguments, expiration })?;
        }
        Ok(())
    }

    /// Prints what has ended.
    fn report(&mut self) -> Result<(), Error> {
        self.client.tick(Moment::now());
        while let Some(completion) = self.client.completed()? {
            self.ended += 1;
            print(&completion)?;
        }
        Ok(())
    }

    /// Calls over a connection until it ends, or all calls have.
    fn talk(&mut self, mut stream: TcpStream) -> Result<(), Failure> {
        stream.set_read_timeout(Some(PATIENCE))?;
        self.client.connected(Moment::now())?;
        let mut room = [0; 4096];
        while self.ended < CALLS && self.client.is_connected() {
            self.call_more()?;
            stream.write_all(&self.client.take_output())?;
            match stream.read(&mut room)? {
                0 => return Err("the other side closed it".into()),
                size => self.client.feed(&room[..size])?,
            }
            self.report()?;
        }
        Ok(())
    }
}

/// Prints how a call ended.
fn print(completion: &Completion) -> Result<(), Error> {
    let call = completion.call;
    if let Some((_, mut members)) = completion.raised()? {
        println!("call {call}: overdrawn, the balance is {}", members.longlong()?);
    } else if let Some(exception) = completion.system()? {
        println!("call {call}: {}", String::from_utf8_lossy(exception.id));
    } else if completion.ended == Ended::Returned {
        println!("call {call}: the balance is {}", completion.reader().longlong()?);
    } else {
        println!("call {call}: {:?}", completion.ended);
    }
    Ok(())
}

/// The host, the port and the object key that the words name.
fn target() -> Result<(String, u16, Vec<u8>), Failure> {
    match &env::args().skip(1).collect::<Vec<_>>()[..] {
        [host, port] => Ok((host.clone(), port.parse()?, b"bank".to_vec())),
        [reference] => {
            let address = reference.parse::<Ior>()?.address()?.ok_or("no profile of IIOP")?;
            Ok((String::from_utf8(address.host)?, address.port, address.key))
        }
        _ => Err("usage: retry HOST PORT | retry IOR:..".into()),
    }
}

fn main() -> Result<(), Failure> {
    let (host, port, key) = target()?;
    let mut teller = Teller::new(key)?;
    while teller.ended < CALLS {
        teller.call_more()?;
        let talked = match TcpStream::connect((host.as_str(), port)) {
            Ok(stream) => teller.talk(stream),
            Err(error) => Err(error.into()),
        };
        teller.client.lost();
        teller.report()?;
        if let Err(error) = talked {
            eprintln!("the connection is lost: {error}");
            thread::sleep(Duration::from_millis(20));
        }
    }
    Ok(())
}
