//! The bank by what omniidl makes of bank.idl: a server over tokio, and a client of any server of
//! it. `build.rs` calls omniidl.
//!
//!     cargo run serve
//!     cargo run deposit IOR:.. alice 5

use bank_idl::bank::{self, ops, Overdrawn};
use bank_idl::{Bank, BankServant};
use lemonrudder::idl::{Asking, Failure, Object};
use lemonrudder::*;
use std::{collections::HashMap, env};
use tokio::net::TcpListener;
use tokio_bank::{serve, share, Servant, Shared};

mod bank_idl {
    include!(concat!(env!("OUT_DIR"), "/bank_idl.rs"));
}

const USAGE: &str = "usage: idl-bank serve | deposit IOR ACCOUNT AMOUNT";

/// Accounts, and their balances in cents.
#[derive(Default)]
struct Accounts(HashMap<String, i64>);

impl BankServant for Accounts {
    /// Money moves only where the answer counts.
    fn deposit(
        &mut self,
        call: Asking<'_, '_, ops::Deposit>,
        account: String,
        amount: i64,
    ) -> Result<(), Error> {
        let balance = self.0.get(&account).copied().unwrap_or(0);
        let Some(after) = balance.checked_add(amount) else {
            return call.system(SystemName::BadParam, Completed::No);
        };
        if after < 0 {
            return call.raise(Overdrawn { balance });
        }
        let answered = call.answer(&after);
        if matches!(answered, Ok(()) | Err(Error::Lost)) {
            self.0.insert(account, after);
        }
        answered
    }

    fn balance(
        &mut self,
        call: Asking<'_, '_, ops::Balance>,
        account: String,
    ) -> Result<(), Error> {
        call.answer(&self.0.get(&account).copied().unwrap_or(0))
    }
}

/// The engine, and the object that it serves.
struct Served {
    server: Server,
    accounts: Accounts,
}

impl Servant for Served {
    fn server(&mut self) -> &mut Server {
        &mut self.server
    }

    fn feed(&mut self, _: &Shared<Served>, connection: u64, came: &[u8]) -> Result<usize, Error> {
        let Served { server, accounts } = self;
        server.serve(connection, Moment::now(), came, |request| bank::perform(accounts, request))
    }
}

/// Prints the bank's reference, and serves until SIGTERM.
#[tokio::main(flavor = "current_thread")]
async fn run() -> Result<(), Box<dyn std::error::Error>> {
    let mut catalogue = Catalogue::open()?;
    bank::offer(&mut catalogue, "bank")?;
    let server = Server::open(catalogue, &Settings::default())?;
    let listener = TcpListener::bind("127.0.0.1:0").await?;
    let port = listener.local_addr()?.port();
    let [id] = bank::ids();
    println!("{}", Ior::iiop(id, Version::V12, "127.0.0.1", port, b"bank")?.to_text()?);
    serve(listener, &share(Served { server, accounts: Accounts::default() })).await
}

/// Makes a deposit at the bank of a reference, and prints the balance.
fn deposit(reference: &str, account: &str, amount: i64) -> Result<(), Failure<ops::Deposit>> {
    let mut bank = Bank::from(Object::of(reference)?);
    match bank.deposit(account, amount) {
        Err(Failure::Raised(ops::Deposit::Overdrawn(raised))) => {
            println!("overdrawn: {}", raised.balance);
        }
        balance => println!("{}", balance?),
    }
    Ok(())
}

fn main() -> Result<(), Box<dyn std::error::Error>> {
    let words: Vec<String> = env::args().skip(1).collect();
    match &words.iter().map(String::as_str).collect::<Vec<_>>()[..] {
        ["serve"] => run(),
        ["deposit", reference, account, amount] => {
            Ok(deposit(reference, account, amount.parse()?)?)
        }
        _ => Err(USAGE.into()),
    }
}
