//! A bank that the tests serve, and random numbers of a fixed seed.

#![allow(dead_code)]

use lemonrudder::cdr::Writer;
use lemonrudder::{Catalogue, Error, Order, Request, Server, Settings, Signature, Type};
use std::collections::BTreeMap;

pub const OVERDRAWN: &str = "IDL:Bank/Overdrawn:1.0";

/// `long long deposit(in string account, in long long amount) raises (Overdrawn)`
pub const DEPOSIT: Signature = Signature {
    arguments: &[Type::String, Type::LongLong],
    results: &[Type::LongLong],
    raises: &[(OVERDRAWN, &[Type::LongLong])],
};

/// `long long balance(in string account)`
pub const BALANCE: Signature = Signature::new(&[Type::String], &[Type::LongLong]);

/// The object of the key `bank`.
pub fn catalogue() -> Result<Catalogue, Error> {
    let mut catalogue = Catalogue::open()?;
    catalogue.object("bank")?;
    catalogue.operation("bank", "deposit", &DEPOSIT)?;
    catalogue.operation("bank", "balance", &BALANCE)?;
    Ok(catalogue)
}

/// A server of the bank, that keeps so many outcomes.
pub fn server(capacity: u32) -> Result<Server, Error> {
    let settings = Settings::new([1, 2]).capacity(capacity);
    Server::open(catalogue()?, &settings)
}

/// The accounts, and what was performed, in order: of each the client, its number, and the balance
/// that it was answered, or that stays where it was overdrawn.
#[derive(Default)]
pub struct Bank {
    pub accounts: BTreeMap<Vec<u8>, i64>,
    pub performed: Vec<(Vec<u8>, i32, Result<i64, i64>)>,
}

impl Bank {
    /// Answers a request, and performs it where the answer counts; else nothing was done, and it is
    /// given up.
    pub fn perform(&mut self, request: &mut Request<'_>) -> Result<(), Error> {
        let ft = request.ft_request().expect("each carries FT_REQUEST");
        let (client, number) = (ft.client_id.to_vec(), ft.retention_id);
        let mut arguments = request.reader();
        let account = arguments.string()?.to_vec();
        let amount = if request.operation() == b"deposit" { arguments.longlong()? } else { 0 };
        assert!(arguments.rest().is_empty());

        let balance = self.accounts.get(&account).copied().unwrap_or(0);
        let sum = balance.checked_add(amount).filter(|sum| *sum >= 0);
        let mut body = Writer::new(Order::NATIVE);
        let answered = match sum {
            Some(sum) => request.answer(body.longlong(sum)?),
            None => request.raise(OVERDRAWN, body.longlong(balance)?),
        };
        if matches!(answered, Ok(()) | Err(Error::Lost)) {
            self.accounts.insert(account, sum.unwrap_or(balance));
            self.performed.push((client, number, sum.ok_or(balance)));
        } else {
            request.give_up();
        }
        answered
    }
}

/// Random numbers (xorshift).
pub struct Random(pub u64);

impl Random {
    /// A number below a bound.
    pub fn below(&mut self, bound: usize) -> usize {
        self.0 ^= self.0 << 13;
        self.0 ^= self.0 >> 7;
        self.0 ^= self.0 << 17;
        (self.0 >> 11) as usize % bound
    }
}
