//! The other end of a connection, to time a server: a client that sends requests, and a server that sends back what
//! it gets.
//!
//!     load ask PORT COUNT WINDOW giop|echo     sends COUNT requests, at most WINDOW of them unanswered, looks at each
//!                                          answer, and prints how many were answered, and how many in a second
//!     load echo PORT                       sends back what comes on one connection
use std::env::args;
use std::io::{Error, ErrorKind, Read, Result, Write};
use std::net::{TcpListener, TcpStream};
use std::thread::sleep;
use std::time::{Duration, Instant};

/// A Request of 1.2 without contexts: `add` with 7 at the key `c`.
const ADD: [u8; 52] = [
    0x47, 0x49, 0x4f, 0x50, 1, 2, 0, 0, 0, 0, 0, 0x28, 0, 0, 0, 5, 3, 0, 0, 0, 0, 0, 0, 0, 0, 0, 0,
    1, 0x63, 0, 0, 0, 0, 0, 0, 4, 0x61, 0x64, 0x64, 0, 0, 0, 0, 0, 0, 0, 0, 0, 0, 0, 0, 7,
];

/// A connection to a server that listens soon after it was started.
fn connect(port: u16) -> Result<TcpStream> {
    for _ in 0..1000 {
        if let Ok(stream) = TcpStream::connect(("127.0.0.1", port)) {
            stream.set_nodelay(true)?;
            return Ok(stream);
        }
        sleep(Duration::from_millis(5));
    }
    Err(Error::from(ErrorKind::NotConnected))
}

/// The answers that are due.
struct Answers {
    is_giop: bool,
    /// What the last request was answered with: by a counter that began at 0 with the total, by an echo with itself.
    last: Vec<u8>,
    count: usize,
}

impl Answers {
    fn new(is_giop: bool) -> Answers {
        let reply = b"GIOP\x01\x02\x00\x01\x00\x00\x00\x14\x00\x00\x00\x05\x00\x00\x00\x00\x00\x00\x00\x00\x00\x00\x00\x00\x00\x00\x00\x00";
        Answers { is_giop, last: if is_giop { reply.to_vec() } else { ADD.to_vec() }, count: 0 }
    }

    /// Takes the whole answers off what came; an error at the first that is another than is due.
    fn take(&mut self, came: &mut Vec<u8>) -> Result<()> {
        let size = self.last.len();
        for reply in came.chunks_exact(size) {
            self.count += 1;
            if self.is_giop {
                self.last[size - 8..].copy_from_slice(&(7 * self.count as i64).to_be_bytes());
            }
            if reply != self.last {
                return Err(Error::new(ErrorKind::InvalidData, format!("answer {} is {reply:?}", self.count)));
            }
        }
        came.drain(..came.len() / size * size);
        Ok(())
    }
}

fn ask(port: u16, count: usize, window: usize, is_giop: bool) -> Result<()> {
    let mut stream = connect(port)?;
    let requests = ADD.repeat(window);
    let mut buffer = vec![0; 1 << 16];
    let (mut came, mut answers) = (Vec::new(), Answers::new(is_giop));
    let start = Instant::now();
    let mut sent = 0;
    while answers.count < count {
        let free = (window - (sent - answers.count)).min(count - sent);
        if free > 0 {
            stream.write_all(&requests[..free * ADD.len()])?;
            sent += free;
        }
        match stream.read(&mut buffer)? {
            0 => return Err(Error::from(ErrorKind::UnexpectedEof)),
            n => came.extend_from_slice(&buffer[..n]),
        }
        answers.take(&mut came)?;
    }
    println!("{} {:.0}", answers.count, answers.count as f64 / start.elapsed().as_secs_f64());
    Ok(())
}

fn echo(port: u16) -> Result<()> {
    let listener = TcpListener::bind(("127.0.0.1", port))?;
    let (mut stream, _) = listener.accept()?;
    stream.set_nodelay(true)?;
    let mut buffer = [0; 4096];
    loop {
        match stream.read(&mut buffer)? {
            0 => return Ok(()),
            n => stream.write_all(&buffer[..n])?,
        }
    }
}

fn main() -> Result<()> {
    let words: Vec<String> = args().collect();
    let number = |at: usize| words[at].parse::<usize>().expect("a number");
    match words[1].as_str() {
        "ask" => ask(number(2) as u16, number(3), number(4), words[5] == "giop"),
        _ => echo(number(2) as u16),
    }
}
