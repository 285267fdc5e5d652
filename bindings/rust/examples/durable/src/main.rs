//! A bank whose accounts and outcomes are one SQLite file, over tokio: `durable-bank FILE ADDRESS
//! PORT [SECONDS]`, for `examples/bank.idl`, with the tables of the other durable banks. FILE may be
//! `memory:` and the path of a file by which a bank in memory hands over all that it has, at its
//! end, to the next one.
//!
//! It prints its reference, and serves until SIGTERM. A thread does what all requests that wait
//! ask for in one transaction, with their outcomes, before any of them is answered; every so many
//! seconds, or 60, it takes out outcomes that expired. Where the environment names a point in
//! BANK_DIES_AT, as stored, or stored:3, the process kills itself there, or when it comes there
//! the third time.

mod store;

use lemonrudder::{cdr::Writer, *};
use std::net::IpAddr;
use std::sync::mpsc::{channel, Receiver, RecvTimeoutError, Sender};
use std::time::{Duration, Instant};
use std::{env, mem, process, thread};
use store::{Failure, Key, Store};
use tokio::net::TcpListener;
use tokio_bank::{serve, share, tell_due, Servant, Shared};

const USAGE: &str = "usage: durable-bank FILE ADDRESS PORT [SECONDS]";
const TYPE: &str = "IDL:Bank:1.0";
const OBJECT: &str = "IDL:omg.org/CORBA/Object:1.0";
const BALANCE: Signature = Signature::new(&[Type::String], &[Type::LongLong]);
const DEPOSIT: Signature = Signature {
    arguments: &[Type::String, Type::LongLong],
    raises: &[(store::OVERDRAWN, &[Type::LongLong])],
    ..BALANCE
};
const TRANSIENT: &str = "IDL:omg.org/CORBA/TRANSIENT:1.0";
const BAD_CONTEXT: &str = "IDL:omg.org/CORBA/BAD_CONTEXT:1.0";
const MOST_GROUPED: usize = 256;
const MOST_NAME: usize = 31;
const MOST_TRIES: u32 = 4;
const PAUSE: Duration = Duration::from_millis(50);

/// What a request asks for, or why it asks for nothing.
enum Order {
    Deposit { account: String, amount: i64 },
    Balance { account: String },
    Is(bool),
    Refused(SystemName),
}

/// What came of it. `Unknown`: perhaps the store has an outcome, or will have it.
enum End {
    Known(Outcome),
    Refused(SystemName),
    Unknown,
}

/// A request that is parked.
struct Job {
    ticket: Ticket,
    key: Option<Key>,
    order: Order,
    /// It was looked for, and is not there.
    is_sure: bool,
    /// Perhaps it was committed: the store is asked until it says.
    is_in_doubt: bool,
}

/// The engine, and the way to the thread of the store.
struct Bank {
    server: Server,
    jobs: Sender<Job>,
}

/// The process kills itself where the environment names this point.
fn reach(point: &str) {
    use std::sync::atomic::{AtomicU32, Ordering};
    static COUNT: AtomicU32 = AtomicU32::new(0);
    let named = env::var("BANK_DIES_AT").unwrap_or_default();
    let (name, count) = named.split_once(':').unwrap_or((&named, "1"));
    if name == point && (COUNT.fetch_add(1, Ordering::Relaxed) + 1).to_string() == count {
        process::abort();
    }
}

impl Bank {
    fn open(jobs: Sender<Job>) -> Result<Bank, Error> {
        let mut catalogue = Catalogue::open()?;
        catalogue.object("bank")?;
        catalogue.repository_ids("bank", &[TYPE])?;
        catalogue.operation("bank", "deposit", &DEPOSIT)?;
        catalogue.operation("bank", "balance", &BALANCE)?;
        let settings = Settings::default().message(4096).parked(1024).ask_first(true);
        Ok(Bank { server: Server::open(catalogue, &settings)?, jobs })
    }

    /// Answers a request by what the store has, which is not kept here.
    fn answer(&mut self, ticket: Ticket, end: &End) -> Result<(), Error> {
        match end {
            End::Refused(name) => self.server.refuse(ticket, *name, 0),
            End::Known(outcome) => self.server.answer_unkept(ticket, outcome),
            End::Unknown => self.server.answer_unkept(ticket, &maybe(TRANSIENT)?),
        }
    }
}

impl Servant for Bank {
    fn server(&mut self) -> &mut Server {
        &mut self.server
    }

    fn feed(&mut self, _: &Shared<Bank>, connection: u64, came: &[u8]) -> Result<usize, Error> {
        let jobs = &self.jobs;
        self.server.serve(connection, Moment::now(), came, |request| {
            let key = request.ft_request().map(|it| Key::of(&it));
            let order = judge(request).unwrap_or(Order::Refused(SystemName::Marshal));
            match request.park() {
                Ok(ticket) => {
                    reach("asked");
                    let job = Job { ticket, key, order, is_sure: false, is_in_doubt: false };
                    // (the thread is there as long as the server)
                    _ = jobs.send(job);
                    Ok(())
                }
                Err(_) if key.is_some() => request.answer_unkept(&maybe(TRANSIENT)?),
                Err(_) => request.refuse(SystemName::Transient, 0),
            }
        })
    }
}

/// A system exception, COMPLETED_MAYBE: where nobody can know, TRANSIENT.
fn maybe(id: &str) -> Result<Outcome, Error> {
    let mut body = Writer::new(lemonrudder::Order::Big);
    body.string(id)?.ulong(0)?.ulong(Completed::Maybe as u32)?;
    Ok(Outcome { status: Status::SystemException, order: body.order(), body: body.into_octets() })
}

/// Reads what a request asks for, whose arguments are right by their types, or why it is refused.
/// One that would be refused is asked for too: what the store has of its key is answered first.
fn judge(request: &Request<'_>) -> Result<Order, Error> {
    if let Some(name) = request.refusal() {
        return Ok(Order::Refused(name));
    }
    let (operation, mut arguments) = (request.operation(), request.reader());
    if operation == b"_non_existent" {
        return Ok(Order::Is(false));
    }
    let text = arguments.string()?;
    if operation == b"_is_a" {
        return Ok(Order::Is(text == TYPE.as_bytes() || text == OBJECT.as_bytes()));
    }
    Ok(match name_in(text) {
        None => Order::Refused(SystemName::BadParam),
        Some(account) if operation == b"balance" => Order::Balance { account },
        Some(account) => Order::Deposit { account, amount: arguments.longlong()? },
    })
}

/// The name of an account: what can be printed, not too long.
fn name_in(text: &[u8]) -> Option<String> {
    let is_name =
        (1..=MOST_NAME).contains(&text.len()) && text.iter().all(|it| (b' '..=b'~').contains(it));
    String::from_utf8(text.to_vec()).ok().filter(|_| is_name)
}

/// Does in a transaction what a request asks for, after it was looked for there.
fn perform(store: &mut Store, job: &mut Job) -> Result<End, Failure> {
    if let Some(key) = &job.key {
        if let Some(outcome) = store.find(key)? {
            return Ok(End::Known(outcome));
        }
        job.is_sure = true;
        reach("looked");
        // (where it was perhaps committed before, perhaps it was performed)
        if store.is_forgotten(key) && job.is_in_doubt {
            return Ok(End::Known(maybe(BAD_CONTEXT)?));
        }
        if store.is_forgotten(key) {
            return Ok(End::Refused(SystemName::BadContext));
        }
    }
    let outcome = match &job.order {
        Order::Refused(name) => return Ok(End::Refused(*name)),
        Order::Is(is_so) => store::is(*is_so)?,
        Order::Balance { account } => store.change(account, 0)?,
        Order::Deposit { account, amount } => store.change(account, *amount)?,
    };
    if let Some(key) = &job.key {
        store.keep(key, &outcome)?;
    }
    reach("stored");
    Ok(End::Known(outcome))
}

/// Does all of them in one transaction. None where it was undone, or where that is not known.
fn perform_all(store: &mut Store, jobs: &mut [Job]) -> Option<Vec<End>> {
    let mut is_sent = false;
    let mut attempt = || -> Result<Vec<End>, Failure> {
        store.begin()?;
        reach("begun");
        let ends = jobs.iter_mut().map(|job| perform(store, job)).collect::<Result<_, _>>()?;
        is_sent = true;
        reach("committing");
        store.commit()?;
        reach("committed");
        Ok(ends)
    };
    let done = attempt();
    if let Err(failure) = &done {
        for job in jobs {
            job.is_in_doubt |= is_sent;
        }
        store.undo(failure);
    }
    done.ok()
}

/// In doubt the store is asked until it says; where it has nothing, it is done again, a few times.
/// Anything else is declined where the store fails.
fn perform_alone(store: &mut Store, job: &mut Job) -> End {
    let mut tries = 0;
    loop {
        job.is_sure = false;
        if let Some(end) = perform_all(store, std::slice::from_mut(job)).and_then(|mut it| it.pop())
        {
            return end;
        }
        tries += u32::from(job.is_sure);
        if !job.is_in_doubt || job.key.is_none() || tries == MOST_TRIES {
            let is_undone = !job.is_in_doubt && (job.is_sure || job.key.is_none());
            return if is_undone { End::Refused(SystemName::Transient) } else { End::Unknown };
        }
        thread::sleep(PAUSE);
    }
}

/// Answers requests once there is memory, and tells those to whom octets are due.
fn answer(bank: &Shared<Bank>, mut ready: Vec<(Ticket, End)>) {
    while !ready.is_empty() {
        let mut served = bank.lock().unwrap();
        ready.retain(|(ticket, end)| {
            let is_short = matches!(served.servant.answer(*ticket, end), Err(Error::Memory));
            reach("answered");
            is_short
        });
        tell_due(&mut served);
        drop(served);
        if !ready.is_empty() {
            thread::sleep(PAUSE);
        }
    }
}

/// What waits within a time, all that is there at once.
fn waiting(jobs: &Receiver<Job>, within: Duration) -> Result<Vec<Job>, RecvTimeoutError> {
    let first = jobs.recv_timeout(within)?;
    Ok([first].into_iter().chain(jobs.try_iter()).take(MOST_GROUPED).collect())
}

/// The thread of the store, until no one gives it jobs.
fn work(mut store: Store, jobs: Receiver<Job>, bank: Shared<Bank>, every: Duration) {
    let mut next = Instant::now() + every;
    loop {
        let mut group = match waiting(&jobs, next.saturating_duration_since(Instant::now())) {
            Ok(group) => group,
            Err(RecvTimeoutError::Timeout) => Vec::new(),
            Err(RecvTimeoutError::Disconnected) => return store.hand_over(),
        };
        let whole = if group.len() > 1 { perform_all(&mut store, &mut group) } else { None };
        let ends = whole.unwrap_or_else(|| {
            group.iter_mut().map(|job| perform_alone(&mut store, job)).collect()
        });
        answer(&bank, group.iter().map(|job| job.ticket).zip(ends).collect());
        if Instant::now() >= next {
            store.purge();
            next = Instant::now() + every;
        }
    }
}

#[tokio::main(flavor = "current_thread")]
async fn main() -> Result<(), Box<dyn std::error::Error>> {
    let mut words: Vec<String> = env::args().skip(1).collect();
    let every = match words.len() {
        3 => 60,
        4 => words.pop().unwrap_or_default().parse()?,
        _ => return Err(USAGE.into()),
    };
    let [file, address, port] = &mut words[..] else { return Err(USAGE.into()) };
    let listener = TcpListener::bind((address.parse::<IpAddr>()?, port.parse()?)).await?;
    let store = Store::open(mem::take(file));
    let (jobs, given) = channel();
    let bank = share(Bank::open(jobs)?);
    let shared = bank.clone();
    let worker = thread::spawn(move || work(store, given, shared, Duration::from_secs(every)));
    let port = listener.local_addr()?.port();
    println!("{}", Ior::iiop(TYPE, Version::V12, address, port, b"bank")?.to_text()?);
    serve(listener, &bank).await?;
    bank.lock().unwrap().servant.jobs = channel().0;
    worker.join().map_err(|_| "the thread of the store failed".into())
}
