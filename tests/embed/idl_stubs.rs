//! The same in Rust.
#![forbid(unsafe_code)]

mod log_idl;

use lemonrudder::idl::{Asking, Caller, Failure, Object};
use lemonrudder::{Catalogue, Error, Ior, Moment, Server, Settings, Version};
use log_idl::{log, Bigs, Log, LogServant};
use std::io::{Read, Write};
use std::net::TcpListener;
use std::time::Duration;

/// The error of a call that failed.
fn error_of<O>(failure: Failure<O>) -> Error {
    match failure {
        Failure::Error(error) => error,
        _ => Error::Outcome,
    }
}

fn notes(mut log: Log<Caller>, is_connected: bool) -> Result<(), Error> {
    if is_connected {
        log.total().map_err(error_of)?;
    }
    for note in 1..=3 {
        log.note(note).map_err(error_of)?;
    }
    Ok(())
}

fn later(mut log: Log<Caller>) -> Result<(), Error> {
    log.note(1).map_err(error_of)?;
    println!("noted");
    let _ = std::io::stdin().read(&mut [0]);
    log.note(2).map_err(error_of)
}

fn mute(mut log: Log<Caller>, is_twice: bool) -> Result<(), Error> {
    calls(&mut log).set_patience(Duration::from_secs(4));
    log.total().map_err(error_of)?;
    if is_twice {
        log.total().map_err(error_of)?;
    }
    Ok(())
}

fn soon(mut log: Log<Caller>) -> Result<(), Error> {
    calls(&mut log).set_answer_timeout(Duration::from_millis(200));
    log.total().map(drop).map_err(error_of)
}

/// The most KiB of memory that were taken.
fn peak() -> String {
    let status = std::fs::read_to_string("/proc/self/status").unwrap_or_default();
    let line = status.lines().find_map(|line| line.strip_prefix("VmHWM:"));
    line.unwrap_or_default().trim().trim_end_matches(" kB").into()
}

fn kept(mut log: Log<Caller>, limit: usize) -> Result<(), Error> {
    if limit > 0 {
        calls(&mut log).set_values_limit(limit);
    }
    let kept = log.kept().map_err(error_of);
    print!("{} ", peak());
    kept.map(drop)
}

struct Servant;

impl LogServant for Servant {
    fn note(&mut self, call: Asking<'_, '_, log::ops::Note>, _: i32) -> Result<(), Error> {
        call.answer(&())
    }

    fn total(&mut self, call: Asking<'_, '_, log::ops::Total>) -> Result<(), Error> {
        call.answer(&0)
    }

    fn keep(&mut self, call: Asking<'_, '_, log::ops::Keep>, some: Bigs) -> Result<(), Error> {
        call.answer(&i32::try_from(some.len()).unwrap_or(0))
    }

    fn kept(&mut self, call: Asking<'_, '_, log::ops::Kept>) -> Result<(), Error> {
        call.answer(&Bigs::new())
    }
}

/// Serves those who come, one after another.
fn serve(limit: Option<usize>) -> Result<(), Box<dyn std::error::Error>> {
    let mut catalogue = Catalogue::open()?;
    log::offer(&mut catalogue, "log")?;
    let mut server = Server::open(catalogue, &Settings::default())?;
    if let Some(limit) = limit {
        server.set_values_limit(limit);
    }
    let listener = TcpListener::bind("127.0.0.1:0")?;
    let port = listener.local_addr()?.port();
    println!("{}", Ior::iiop(log::ids()[0], Version::V12, "127.0.0.1", port, b"log")?.to_text()?);
    let mut room = [0; 4096];
    for connection in 1.. {
        let (mut stream, _) = listener.accept()?;
        server.connect(connection)?;
        while let Ok(size @ 1..) = stream.read(&mut room) {
            server.serve(connection, Moment::now(), &room[..size], |request| {
                log::perform(&mut Servant, request)
            })?;
            stream.write_all(&server.take_output(connection))?;
        }
        server.lost(connection)?;
    }
    Ok(())
}

fn calls(log: &mut Log<Caller>) -> &mut Caller {
    AsMut::<Object<Caller>>::as_mut(log).calls()
}

fn asked(words: &[String]) -> Result<(), Error> {
    let log = Object::of(&words[2])?.into();
    match words[1].as_str() {
        "notes" => notes(log, words.len() > 3),
        "later" => later(log),
        "kept" => kept(log, words[3].parse().unwrap_or(0)),
        "mute" => mute(log, words.len() > 3),
        "soon" => soon(log),
        _ => Err(Error::Range),
    }
}

fn main() {
    let words: Vec<String> = std::env::args().collect();
    if words[1] == "serve" {
        serve(words.get(2).and_then(|limit| limit.parse().ok())).unwrap();
    }
    println!("{}", asked(&words).map_or_else(|error| error.name(), |()| "LR_OK"));
}
