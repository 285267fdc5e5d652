//! Each allocation of the library is refused once: errors come, and each call acts once all the same.

mod bank;

use bank::{Bank, DEPOSIT};
use lemonrudder::cdr::Writer;
use lemonrudder::{Call, Client, Error, Moment, Order, Server};
use std::ffi::c_void;
use std::ptr;
use std::sync::atomic::{AtomicI64, Ordering};

/// How many allocations are left up to the one that is refused.
static LEFT: AtomicI64 = AtomicI64::new(0);

extern "C" {
    fn malloc(size: usize) -> *mut c_void;
    fn realloc(at: *mut c_void, size: usize) -> *mut c_void;
    fn free(at: *mut c_void);
}

/// Whether this allocation is the one.
fn is_refused() -> bool {
    LEFT.fetch_sub(1, Ordering::Relaxed) == 1
}

unsafe extern "C" fn allocate(size: usize) -> *mut c_void {
    if is_refused() {
        return ptr::null_mut();
    }
    // SAFETY: as the caller says.
    unsafe { malloc(size) }
}

unsafe extern "C" fn reallocate(at: *mut c_void, size: usize) -> *mut c_void {
    if is_refused() {
        return ptr::null_mut();
    }
    // SAFETY: as the caller says.
    unsafe { realloc(at, size) }
}

unsafe extern "C" fn release(at: *mut c_void) {
    // SAFETY: as the caller says.
    unsafe { free(at) }
}

const NOW: Moment = Moment(50);

/// What a call gives, which is made again where its allocation was refused.
fn again<T>(mut call: impl FnMut() -> Result<T, Error>) -> Result<T, Error> {
    match call() {
        Err(Error::Memory) => call(),
        answer => answer,
    }
}

/// A client of the bank that has called.
fn caller() -> Result<Client, Error> {
    let mut client = again(|| Client::open("A"))?;
    let mut arguments = Writer::new(Order::Big);
    arguments.string("alice")?.longlong(5)?;
    let call = Call {
        key: b"bank",
        operation: "deposit",
        types: DEPOSIT.arguments,
        arguments: &arguments,
        expiration: Moment::LAST,
    };
    for number in 1..=2 {
        assert_eq!(again(|| client.call(NOW, &call))?, number);
    }
    Ok(client)
}

/// One connection, on which an allocation may be refused.
fn connection(
    server: &mut Server,
    client: &mut Client,
    bank: &mut Bank,
    number: u64,
) -> Result<(), Error> {
    again(|| server.connect(number))?;
    client.connected(NOW)?;
    let octets = client.take_output();
    let served = server.serve(number, NOW, &octets, |request| bank.perform(request));
    let due = server.take_output(number);
    if number > 1 {
        // (the first replies are lost)
        client.feed(&due)?;
    }
    served.map(drop)
}

/// Two calls, over as many connections as it takes: whether an allocation was refused.
fn run(refused: i64) -> Result<bool, Error> {
    LEFT.store(refused, Ordering::Relaxed);
    let mut server = again(|| bank::server(10))?;
    let mut client = caller()?;
    let mut bank = Bank::default();
    let mut ended = 0;
    for number in 1..=4 {
        match connection(&mut server, &mut client, &mut bank, number) {
            Ok(()) | Err(Error::Lost | Error::Memory) => {}
            Err(error) => return Err(error),
        }
        client.lost();
        server.lost(number)?;
        while let Some(completion) = client.completed()? {
            ended += 1;
            assert_eq!(
                (completion.call, completion.reader().longlong()?),
                (ended, 5 * i64::from(ended))
            );
        }
    }
    assert_eq!((ended, bank.performed.len()), (2, 2), "allocation {refused}");
    Ok(LEFT.load(Ordering::Relaxed) <= 0)
}

#[test]
fn each_allocation_is_refused_once() -> Result<(), Error> {
    // SAFETY: the functions do what those of C do, and nothing was called before: this is the only test here.
    unsafe { lemonrudder::set_heap(allocate, reallocate, release) }?;
    let refused = (1..).take_while(|refused| run(*refused).expect("it ends"));
    assert!(refused.count() > 20);
    // SAFETY: as before; it is refused, since memory was taken.
    let again = unsafe { lemonrudder::set_heap(allocate, reallocate, release) };
    assert_eq!(again, Err(Error::Open));
    Ok(())
}
