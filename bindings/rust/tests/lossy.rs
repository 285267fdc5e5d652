//! A bank and clients in memory, between which connections are lost at random: each call acts once.

mod bank;

use bank::{Bank, Random, BALANCE, DEPOSIT};
use lemonrudder::cdr::Writer;
use lemonrudder::{Call, Client, Ended, Error, Moment, Order, Server, Signature, Version};
use std::collections::{BTreeMap, VecDeque};

/// A client, its connection if it has one, the octets on their way, and how its calls ended.
struct Caller {
    name: String,
    client: Client,
    connection: Option<u64>,
    up: VecDeque<u8>,
    down: VecDeque<u8>,
    calls: i32,
    ended: BTreeMap<i32, Result<i64, i64>>,
}

/// The bank's server and the clients, at a moment.
struct World {
    server: Server,
    bank: Bank,
    callers: Vec<Caller>,
    connections: u64,
    now: Moment,
    lost: usize,
}

impl Caller {
    fn new(name: &str, version: Version) -> Result<Caller, Error> {
        let mut client = Client::open(name)?;
        client.set_version(version)?;
        Ok(Caller {
            name: name.into(),
            client,
            connection: None,
            up: VecDeque::new(),
            down: VecDeque::new(),
            calls: 0,
            ended: BTreeMap::new(),
        })
    }

    /// Calls `deposit` into an account that all share, or `balance`.
    fn call(&mut self, now: Moment, random: &mut Random) -> Result<(), Error> {
        let order = if random.below(2) == 0 { Order::Big } else { Order::Little };
        let mut arguments = Writer::new(order);
        arguments.string(["alice", "bob"][random.below(2)])?;
        let (operation, types): (_, &Signature) = match random.below(4) {
            0 => ("balance", &BALANCE),
            _ => {
                arguments.longlong(i64::try_from(random.below(200)).expect("it is small") - 90)?;
                ("deposit", &DEPOSIT)
            }
        };
        let call = Call {
            key: b"bank",
            operation,
            types: types.arguments,
            arguments: &arguments,
            expiration: Moment::LAST,
        };
        match self.client.call(now, &call) {
            Ok(number) => {
                self.calls += 1;
                assert_eq!(number, self.calls);
                Ok(())
            }
            // 64 are pending
            Err(Error::Calls) => Ok(()),
            Err(error) => Err(error),
        }
    }

    /// Notes which calls have ended, and how.
    fn note(&mut self) -> Result<(), Error> {
        while let Some(completion) = self.client.completed()? {
            let outcome = match completion.raised()? {
                Some((id, mut members)) => {
                    assert_eq!(id, bank::OVERDRAWN.as_bytes());
                    Err(members.longlong()?)
                }
                None => {
                    assert_eq!(completion.ended, Ended::Returned);
                    Ok(completion.reader().longlong()?)
                }
            };
            let before = self.ended.insert(completion.call, outcome);
            assert_eq!(before, None, "a call has ended twice");
        }
        Ok(())
    }
}

/// Takes octets from the front.
fn taken(octets: &mut VecDeque<u8>, size: usize) -> Vec<u8> {
    let size = size.min(octets.len());
    octets.drain(..size).collect()
}

impl World {
    fn new() -> Result<World, Error> {
        let versions = [("A", Version::V10), ("B", Version::V11), ("C", Version::V12)];
        let callers = versions.into_iter().map(|(name, version)| Caller::new(name, version));
        Ok(World {
            server: bank::server(20_000)?,
            bank: Bank::default(),
            callers: callers.collect::<Result<_, _>>()?,
            connections: 0,
            now: Moment(50),
            lost: 0,
        })
    }

    /// Loses the connection of a client, with what is on its way.
    fn lose(&mut self, which: usize) -> Result<(), Error> {
        let caller = &mut self.callers[which];
        if let Some(connection) = caller.connection.take() {
            self.server.lost(connection)?;
            self.lost += caller.up.len() + caller.down.len();
        }
        caller.client.lost();
        caller.up.clear();
        caller.down.clear();
        Ok(())
    }

    /// Connects a client anew.
    fn connect(&mut self, which: usize) -> Result<(), Error> {
        self.lose(which)?;
        self.connections += 1;
        self.server.connect(self.connections)?;
        let caller = &mut self.callers[which];
        caller.connection = Some(self.connections);
        caller.client.connected(self.now)
    }

    /// Brings octets of a client to the server.
    fn bring_up(&mut self, which: usize, size: usize) -> Result<(), Error> {
        let caller = &mut self.callers[which];
        caller.up.extend(caller.client.take_output());
        if let Some(connection) = caller.connection {
            let piece = taken(&mut caller.up, size);
            let bank = &mut self.bank;
            self.server.serve(connection, self.now, &piece, |request| bank.perform(request))?;
            caller.down.extend(self.server.take_output(connection));
        }
        Ok(())
    }

    /// Brings octets of the server to a client.
    fn bring_down(&mut self, which: usize, size: usize) -> Result<(), Error> {
        let caller = &mut self.callers[which];
        let piece = taken(&mut caller.down, size);
        if caller.connection.is_some() {
            caller.client.feed(&piece)?;
            assert!(caller.client.is_connected());
        }
        caller.note()
    }

    /// One thing happens to a client.
    fn step(&mut self, random: &mut Random) -> Result<(), Error> {
        let which = random.below(self.callers.len());
        self.now = Moment(self.now.0 + random.below(3) as u64);
        match random.below(40) {
            0 => self.lose(which),
            1..=3 if self.callers[which].connection.is_none() => self.connect(which),
            4..=15 => self.callers[which].call(self.now, random),
            16..=27 => self.bring_up(which, random.below(300)),
            _ => self.bring_down(which, random.below(120)),
        }
    }

    /// Everything comes through.
    fn finish(&mut self) -> Result<(), Error> {
        for which in 0..self.callers.len() {
            self.connect(which)?;
            self.bring_up(which, usize::MAX)?;
            self.bring_down(which, usize::MAX)?;
        }
        Ok(())
    }

    /// Each call has ended, was performed once, and got what it was answered then.
    fn check(&self) {
        let mut performed = BTreeMap::new();
        for (client, number, outcome) in &self.bank.performed {
            let before = performed.insert((client.clone(), *number), *outcome);
            assert_eq!(before, None, "a call acted twice");
        }
        let mut calls = 0;
        for caller in &self.callers {
            assert_eq!(i32::try_from(caller.ended.len()), Ok(caller.calls));
            for (number, outcome) in &caller.ended {
                let key = (caller.name.clone().into_bytes(), *number);
                assert_eq!(performed.get(&key), Some(outcome), "{key:?}");
            }
            calls += caller.ended.len();
        }
        assert_eq!(performed.len(), calls);
    }
}

#[test]
fn each_call_acts_once() -> Result<(), Error> {
    for seed in 1_u64..=20 {
        let mut random = Random(seed.wrapping_mul(0x9e37_79b9_7f4a_7c15));
        let mut world = World::new()?;
        for _ in 0..4000 {
            world.step(&mut random)?;
        }
        world.finish()?;
        world.check();
        // something was lost, and something was done
        assert!(world.lost > 1000, "{} octets were lost", world.lost);
        assert!(world.bank.performed.len() > 500, "{} were performed", world.bank.performed.len());
        assert!(world.bank.performed.iter().any(|(_, _, outcome)| outcome.is_err()));
    }
    Ok(())
}

#[test]
fn a_server_goes_from_thread_to_thread() -> Result<(), Error> {
    let mut taken = (World::new()?, Random(7));
    for _ in 0..20 {
        let (mut world, mut random) = taken;
        let thread = std::thread::spawn(move || {
            for _ in 0..100 {
                world.step(&mut random)?;
            }
            Ok((world, random))
        });
        taken = thread.join().expect("no thread panics")?;
    }
    taken.0.finish()?;
    taken.0.check();
    Ok(())
}
