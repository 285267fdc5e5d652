//! Without `std`: a client calls a counter, loses the connection with the reply, and calls again.
//! The status is 0 where that has acted once.

#![no_std]
#![no_main]

use core::alloc::{GlobalAlloc, Layout};
use core::ffi::{c_int, c_void};
use core::time::Duration;
use lemonrudder::{cdr::Writer, *};

#[link(name = "c")]
extern "C" {
    fn malloc(size: usize) -> *mut c_void;
    fn free(at: *mut c_void);
    fn abort() -> !;
}

/// The heap of the C library, whose memory is aligned to 16.
struct Heap;

// SAFETY: `malloc` and `free` do what is asked for up to that alignment.
unsafe impl GlobalAlloc for Heap {
    unsafe fn alloc(&self, layout: Layout) -> *mut u8 {
        if layout.align() > 16 {
            return core::ptr::null_mut();
        }
        // SAFETY: any size may be asked for.
        unsafe { malloc(layout.size()) }.cast()
    }

    unsafe fn dealloc(&self, at: *mut u8, _: Layout) {
        // SAFETY: it came from `malloc`.
        unsafe { free(at.cast()) }
    }
}

#[global_allocator]
static HEAP: Heap = Heap;

#[panic_handler]
fn panic(_: &core::panic::PanicInfo<'_>) -> ! {
    // SAFETY: it may be called at any time.
    unsafe { abort() }
}

/// What the `alloc` of a target with `std` names, and nothing calls where a panic ends the program.
#[no_mangle]
extern "C" fn rust_eh_personality() {}

/// long long add(in long n);
const ADD: Signature = Signature::new(&[Type::Long], &[Type::LongLong]);

/// What `add` returned, and the total.
fn run() -> Result<(i64, i64), Error> {
    let mut catalogue = Catalogue::open()?;
    catalogue.object("counter")?;
    catalogue.operation("counter", "add", &ADD)?;
    // (a program that serves others has random numbers here, and a clock)
    let mut server = Server::open(catalogue, &Settings::new([1, 2]))?;
    let now = Moment::after_1970(Duration::from_secs(1_000_000_000));

    let mut client = Client::open("client 1")?;
    let mut arguments = Writer::new(Order::Big);
    let call = Call {
        key: b"counter",
        operation: "add",
        types: ADD.arguments,
        arguments: arguments.long(7)?,
        expiration: now + Duration::from_secs(60),
    };
    client.call(now, &call)?;
    let mut total = 0;
    for connection in [1, 2] {
        server.connect(connection)?;
        client.connected(now)?;
        server.serve(connection, now, &client.take_output(), |request| {
            let after = total + i64::from(request.reader().long()?);
            request.answer(Writer::new(Order::Big).longlong(after)?)?;
            total = after;
            Ok(())
        })?;
        let reply = server.take_output(connection);
        if connection == 1 {
            client.lost();
            server.lost(connection)?;
        } else {
            client.feed(&reply)?;
        }
    }
    let completion = client.completed()?.ok_or(Error::NoPart)?;
    Ok((completion.reader().longlong()?, total))
}

#[no_mangle]
extern "C" fn main() -> c_int {
    c_int::from(run() != Ok((7, 7)))
}
