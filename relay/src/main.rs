//! `lemonrudder`: exactly once between ORBs that know nothing of it.
//!
//! `lemonrudder guard` stands before servers, and `lemonrudder retry` beside clients.

mod access;
mod alerts;
mod compose;
mod cuts;
mod descriptors;
mod forward;
mod frames;
mod front;
mod guard;
mod health;
mod heard;
mod joined;
mod line;
mod live;
mod mark;
mod memory;
mod metrics;
mod near;
mod peers;
mod performers;
mod points;
mod pool;
mod reasons;
mod reference;
mod reload;
mod retry;
mod sets;
mod settings;
mod shares;
mod store;
mod timer;
mod tls;
mod upstream;
mod wire;
mod workers;

use settings::{Deed, Lead, Log, Role, Words};
use std::env;
use std::future::Future;
use std::io::{stderr, IsTerminal};
use std::process::ExitCode;
use store::looked;
use tokio::runtime::Builder;
use tracing_subscriber::filter::LevelFilter;

/// The status of a program that was told what it can't do.
const MISUSED: u8 = 2;

/// Prints lines, and gives a status.
fn said(lines: &[String], status: u8) -> ExitCode {
    for line in lines {
        eprintln!("lemonrudder: {line}");
    }
    ExitCode::from(status)
}

/// Has lines of the log printed.
fn log(form: Log) {
    let lines = tracing_subscriber::fmt().with_writer(stderr).with_max_level(LevelFilter::INFO);
    let lines = lines.with_ansi(stderr().is_terminal());
    match form {
        Log::Text => lines.with_target(false).init(),
        Log::Json => lines.json().init(),
    }
}

/// Runs a role until it ends.
fn run(form: Log, role: impl Future<Output = Result<(), String>>) -> ExitCode {
    log(form);
    let runtime = Builder::new_current_thread().enable_all().build();
    match runtime.map_err(|error| error.to_string()).and_then(|it| it.block_on(role)) {
        Ok(()) => ExitCode::SUCCESS,
        Err(why) => said(&[why], 1),
    }
}

/// Prints a reference that leads to the same object by another address.
fn led(lead: &Lead) -> ExitCode {
    let at = wire::parts_of(&lead.at).ok_or("--at is no HOST:PORT".to_owned());
    match at.and_then(|(host, port)| reference::at(&lead.reference, &host, port, lead.tls)) {
        Ok(text) => {
            println!("{text}");
            ExitCode::SUCCESS
        }
        Err(why) => said(&[why], 1),
    }
}

/// Does something with a store.
fn looked_into(deed: &Deed) -> ExitCode {
    let shown = match deed {
        Deed::Show { store } => looked::show(store).map_err(|why| vec![why]),
        Deed::Copy { store, to } => {
            looked::copy(store, to).map(|()| vec![]).map_err(|why| vec![why])
        }
        Deed::Check { store } => match looked::check(store) {
            faults if faults.is_empty() => Ok(faults),
            faults => Err(faults),
        },
    };
    match shown {
        Ok(lines) => {
            lines.iter().for_each(|line| println!("{line}"));
            ExitCode::SUCCESS
        }
        Err(faults) => said(&faults, 1),
    }
}

fn main() -> ExitCode {
    let words = match Words::read(env::args_os()) {
        Ok(words) => words,
        Err(faults) => return said(&faults, MISUSED),
    };
    match words.role {
        Role::Guard(settings) => run(settings.common.log, guard::run(settings)),
        Role::Check(check) => {
            let faults = settings::check(&check.file);
            said(&faults, u8::from(!faults.is_empty()))
        }
        Role::Retry(settings) => run(settings.common.log, retry::run(settings)),
        Role::Ior(lead) => led(&lead),
        Role::Store(kept) => looked_into(&kept.deed),
    }
}
