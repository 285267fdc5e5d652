//! A bank for many clients at once, over tokio: `tokio-bank ADDRESS PORT [MILLISECONDS]`, for
//! `examples/bank.idl`.
//!
//! It prints its reference, and serves until SIGTERM; port 0 is any that is free. A deposit takes
//! so many milliseconds, or 5: it is parked, and others are served meanwhile. One with FT_REQUEST
//! that is sent again, on any connection, acts once.

use lemonrudder::{cdr::Writer, *};
use std::{collections::HashMap, env, net::IpAddr};
use tokio::time::{sleep, Duration};
use tokio::{net::TcpListener, spawn};
use tokio_bank::{serve, share, tell_due, Servant, Shared};

const USAGE: &str = "usage: tokio-bank ADDRESS PORT [MILLISECONDS]";
const TYPE: &str = "IDL:Bank:1.0";
const OVERDRAWN: (&str, &[Type]) = ("IDL:Bank/Overdrawn:1.0", &[Type::LongLong]);
const BALANCE: Signature = Signature::new(&[Type::String], &[Type::LongLong]);
const DEPOSIT: Signature =
    Signature { arguments: &[Type::String, Type::LongLong], raises: &[OVERDRAWN], ..BALANCE };

/// The engine, what a deposit takes, and the accounts.
struct Bank {
    server: Server,
    slow: Duration,
    accounts: HashMap<Vec<u8>, i64>,
}

/// A deposit that is parked.
struct Deposit {
    ticket: Ticket,
    account: Vec<u8>,
    amount: i64,
}

impl Bank {
    fn open(slow: Duration) -> Result<Bank, Error> {
        let mut catalogue = Catalogue::open()?;
        catalogue.object("bank")?;
        catalogue.repository_ids("bank", &[TYPE])?;
        catalogue.operation("bank", "deposit", &DEPOSIT)?;
        catalogue.operation("bank", "balance", &BALANCE)?;
        let settings = Settings::default().share(256).due(65536);
        Ok(Bank { server: Server::open(catalogue, &settings)?, slow, accounts: HashMap::new() })
    }

    fn balance(&self, account: &[u8]) -> i64 {
        self.accounts.get(account).copied().unwrap_or(0)
    }

    /// Performs a deposit, and answers it. Money moves only where the answer counts.
    fn perform(&mut self, deposit: &Deposit) -> Result<(), Error> {
        let Deposit { ticket, account, amount } = deposit;
        let balance = self.balance(account);
        let Some(after) = balance.checked_add(*amount) else {
            return self.server.system(*ticket, SystemName::BadParam, 0, Completed::No);
        };
        let mut body = Writer::new(Order::Big);
        if after < 0 {
            return self.server.raise(*ticket, OVERDRAWN.0, body.longlong(balance)?);
        }
        self.server.answer(*ticket, body.longlong(after)?)?;
        self.accounts.insert(account.clone(), after);
        Ok(())
    }
}

impl Servant for Bank {
    fn server(&mut self) -> &mut Server {
        &mut self.server
    }

    fn feed(&mut self, bank: &Shared<Bank>, connection: u64, came: &[u8]) -> Result<usize, Error> {
        let (accounts, mut deposits) = (&self.accounts, Vec::new());
        let taken = self.server.serve(connection, Moment::now(), came, |request| {
            deposits.extend(perform(accounts, request)?);
            Ok(())
        });
        for deposit in deposits {
            spawn(settle(bank.clone(), deposit, self.slow));
        }
        taken
    }
}

/// Answers a request, or parks it where it is a deposit, and gives that.
fn perform(
    accounts: &HashMap<Vec<u8>, i64>,
    request: &mut Request<'_>,
) -> Result<Option<Deposit>, Error> {
    let mut arguments = request.reader();
    let account = arguments.string()?.to_vec();
    if account.is_empty() {
        return request.system(SystemName::BadParam, 0, Completed::No).map(|()| None);
    }
    if request.operation() == b"deposit" {
        let amount = arguments.longlong()?;
        return match request.park() {
            Ok(ticket) => Ok(Some(Deposit { ticket, account, amount })),
            Err(_) => request.refuse(SystemName::Transient, 0).map(|()| None),
        };
    }
    let balance = accounts.get(&account).copied().unwrap_or(0);
    request.answer(Writer::new(Order::Big).longlong(balance)?).map(|()| None)
}

/// Performs a deposit after a while, once there is memory, and tells those to whom octets are due.
async fn settle(bank: Shared<Bank>, deposit: Deposit, slow: Duration) {
    loop {
        sleep(slow).await;
        let mut served = bank.lock().unwrap();
        let is_done = !matches!(served.servant.perform(&deposit), Err(Error::Memory));
        tell_due(&mut served);
        if is_done {
            return;
        }
    }
}

#[tokio::main(flavor = "current_thread")]
async fn main() -> Result<(), Box<dyn std::error::Error>> {
    let words: Vec<String> = env::args().skip(1).collect();
    let [address, port, slow @ ..] = &words[..] else { return Err(USAGE.into()) };
    let slow = match slow {
        [] => 5,
        [one] => one.parse()?,
        _ => return Err(USAGE.into()),
    };
    let listener = TcpListener::bind((address.parse::<IpAddr>()?, port.parse()?)).await?;
    let bank = share(Bank::open(Duration::from_millis(slow))?);
    let port = listener.local_addr()?.port();
    println!("{}", Ior::iiop(TYPE, Version::V12, address, port, b"bank")?.to_text()?);
    serve(listener, &bank).await
}
