//! Random numbers of the system.

use std::fs::File;
use std::io::{self, Read};

/// Fills a room by `getrandom`.
#[cfg(target_os = "linux")]
fn ask(room: &mut [u8]) -> io::Result<()> {
    use core::ffi::{c_uint, c_void};

    // SAFETY: it is declared so by the C library.
    unsafe extern "C" {
        fn getrandom(room: *mut c_void, size: usize, flags: c_uint) -> isize;
    }

    // SAFETY: the room is lent. (So few octets are given whole, or none.)
    let given = unsafe { getrandom(room.as_mut_ptr().cast(), room.len(), 0) };
    match usize::try_from(given) {
        Ok(given) if given == room.len() => Ok(()),
        _ => Err(io::Error::last_os_error()),
    }
}

/// There is no `getrandom`.
#[cfg(not(target_os = "linux"))]
fn ask(_room: &mut [u8]) -> io::Result<()> {
    Err(io::ErrorKind::Unsupported.into())
}

/// Fills a room from a file.
fn read(path: &str, room: &mut [u8]) -> io::Result<()> {
    File::open(path)?.read_exact(room)
}

/// Two random numbers.
pub(crate) fn random() -> [u64; 2] {
    let mut octets = [[0; 8]; 2];
    let room = octets.as_flattened_mut();
    if let Err(error) = ask(room).or_else(|_| read("/dev/urandom", room)) {
        panic!("the system has no random numbers: {error}");
    }
    octets.map(u64::from_ne_bytes)
}

#[cfg(test)]
mod tests {
    use super::*;

    #[test]
    fn numbers_are_random() {
        let many: [_; 8] = std::array::from_fn(|_| random());
        for (at, numbers) in many.iter().enumerate() {
            assert!(!many[..at].contains(numbers) && numbers[0] != numbers[1]);
        }
    }

    #[test]
    fn a_file_fills_a_room() {
        let mut room = [0; 16];
        read("/dev/urandom", &mut room).unwrap();
        assert_ne!(room, [0; 16]);
        assert!(read("/dev/null", &mut room).is_err());
    }
}
