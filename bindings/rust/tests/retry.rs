//! The example `retry`, over TCP, with a bank that cuts connections at random.

mod bank;

use bank::{Bank, Random};
use lemonrudder::{Error, Ior, Moment, Version};
use std::io::{Read, Write};
use std::net::{TcpListener, TcpStream};
use std::path::PathBuf;
use std::process::{Command, Output, Stdio};
use std::sync::mpsc::{channel, Receiver};
use std::time::{Duration, Instant};
use std::{env, thread};

/// What the bank has done when it is closed: the connections that were cut, and the bank.
type Served = (usize, Bank);

/// Serves a connection, and cuts it, or says goodbye: whether the client was the one that left.
fn serve(
    server: &mut lemonrudder::Server,
    bank: &mut Bank,
    number: u64,
    mut stream: TcpStream,
    random: &mut Random,
) -> Result<bool, Box<dyn std::error::Error>> {
    server.connect(number)?;
    let mut room = [0; 100];
    loop {
        // small pieces, so that messages are cut anywhere
        let most = 1 + random.below(room.len());
        let size = stream.read(&mut room[..most])?;
        if size == 0 {
            return Ok(true);
        }
        server.serve(number, Moment::now(), &room[..size], |request| bank.perform(request))?;
        let due = server.take_output(number);
        match random.below(16) {
            0 => return Ok(false),
            1 => {
                stream.write_all(&due[..random.below(due.len() + 1)])?;
                return Ok(false);
            }
            2 => {
                server.farewell(number)?;
                stream.write_all(&[due, server.take_output(number)].concat())?;
                return Ok(false);
            }
            _ => stream.write_all(&due)?,
        }
    }
}

/// Serves a bank until a client leaves by itself.
fn serve_bank(listener: TcpListener, random: &mut Random) -> Result<Served, Error> {
    let (mut server, mut bank, mut cut) = (bank::server(1000)?, Bank::default(), 0);
    for number in 1.. {
        let (stream, _) = listener.accept().expect("a connection comes");
        let served = serve(&mut server, &mut bank, number, stream, random);
        server.lost(number)?;
        if matches!(served, Ok(true)) {
            break;
        }
        cut += 1;
    }
    Ok((cut, bank))
}

/// A bank on a free port.
fn bank_on_a_port(seed: u64) -> (u16, Receiver<Result<Served, Error>>) {
    let listener = TcpListener::bind("127.0.0.1:0").expect("there is a free port");
    let port = listener.local_addr().expect("it has an address").port();
    let (sender, served) = channel();
    thread::spawn(move || sender.send(serve_bank(listener, &mut Random(seed))));
    (port, served)
}

/// The example, which cargo builds beside the tests.
fn example() -> PathBuf {
    let here = env::current_exe().expect("a test has a path");
    let folder = here.ancestors().nth(2).expect("it stands in deps");
    let example = folder.join("examples").join(format!("retry{}", env::consts::EXE_SUFFIX));
    assert!(example.is_file(), "run cargo build --examples first: no {}", example.display());
    example
}

/// What the example prints of calls that each act once.
fn expected() -> String {
    let (mut lines, mut balance) = (String::new(), 0);
    for call in 1..31 {
        if call % 5 == 0 {
            lines += &format!("call {call}: overdrawn, the balance is {balance}\n");
        } else {
            balance += call;
            lines += &format!("call {call}: the balance is {balance}\n");
        }
    }
    lines + &format!("call 31: the balance is {balance}\n")
}

/// What the example prints, which has to end in time.
fn output_of(words: Vec<String>) -> Output {
    let mut command = Command::new(example());
    command.args(words).stdout(Stdio::piped()).stderr(Stdio::piped());
    let mut child = command.spawn().expect("it runs");
    let begun = Instant::now();
    while child.try_wait().expect("it is a child").is_none() {
        if begun.elapsed() > Duration::from_secs(60) {
            child.kill().expect("it is killed");
            panic!("the example does not end");
        }
        thread::sleep(Duration::from_millis(5));
    }
    child.wait_with_output().expect("it has ended")
}

/// Runs the example on a bank.
fn run(seed: u64, words: impl FnOnce(u16) -> Vec<String>) {
    let (port, served) = bank_on_a_port(seed);
    let output = output_of(words(port));
    assert!(output.status.success(), "{}", String::from_utf8_lossy(&output.stderr));
    let printed = String::from_utf8(output.stdout).expect("it prints text");
    let mut lines: Vec<&str> = printed.lines().collect();
    // a call that ends in the same piece as others may be printed in another order
    lines.sort_by_key(|line| line[5..].split(':').next().and_then(|call| call.parse::<i32>().ok()));
    assert_eq!(lines.join("\n") + "\n", expected());

    // where the last connection was cut, the bank waits for another one
    drop(TcpStream::connect(("127.0.0.1", port)));
    let (cut, bank) = served.recv().expect("the bank ends").expect("no call fails");
    assert!(cut > 0);
    assert_eq!(bank.performed.len(), 31);
    let balances: Vec<i64> = bank.accounts.values().copied().collect();
    assert_eq!(balances, [(1..31).filter(|call| call % 5 != 0).sum::<i64>()]);
}

#[test]
fn each_call_acts_once_over_tcp() {
    for seed in 1..=5 {
        run(seed * 0x9e37_79b9, |port| vec!["127.0.0.1".into(), port.to_string()]);
    }
}

#[test]
fn a_reference_leads_to_the_bank() {
    run(77, |port| {
        let mut ior = Ior::iiop("IDL:Bank:1.0", Version::V12, "127.0.0.1", port, b"bank").unwrap();
        vec![ior.to_text().unwrap()]
    });
}

#[test]
fn words_that_name_no_bank_are_refused() {
    for words in [&[][..], &["IOR:00"], &["host", "port"], &["a", "b", "c"]] {
        let output = Command::new(example()).args(words).output().expect("it runs");
        assert!(!output.status.success());
        assert!(output.stdout.is_empty() && !output.stderr.is_empty());
    }
}
