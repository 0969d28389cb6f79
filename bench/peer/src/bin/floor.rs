//! What a line costs at least: it is read, by reads of 4,096 bytes as `gate` makes them, and the same reply is written
//! whatever it says, by one write. With a path so too at a Unix socket, from one client after another, by the calls of the
//! system that `gate serve` makes: a wait for what is new, which the system reports once, then a read and a write, of which
//! neither waits.

use std::convert::Infallible;
use std::env;
use std::fs;
use std::io::{self, Read, Write};
use std::os::fd::{AsRawFd, RawFd};
use std::os::unix::net::{UnixListener, UnixStream};

#[path = "../lines.rs"]
mod lines;

const READ: usize = 4096;
const REPLY: &str = "{\"id\":0,\"rev\":0}\n";

/// Linux's `struct epoll_event`.
#[repr(C)]
#[cfg_attr(target_arch = "x86_64", repr(packed))]
struct Ready {
    what: u32,
    token: u64,
}

/// What may be read, what ended, and each once.
const INPUT: u32 = 0x1 | 0x2000 | 1 << 31;
const ADD: i32 = 1;

extern "C" {
    fn epoll_create1(flags: i32) -> RawFd;
    fn epoll_ctl(waiting: RawFd, what: i32, of: RawFd, ready: *mut Ready) -> i32;
    fn epoll_wait(waiting: RawFd, ready: *mut Ready, most: i32, milliseconds: i32) -> i32;
}

fn main() -> io::Result<()> {
    if let Some(path) = env::args().nth(1) {
        let _ = fs::remove_file(&path);
        for client in UnixListener::bind(path)?.incoming() {
            // (one that has ended makes place for the next)
            let _ = serve(client?);
        }
    }
    let input = io::BufReader::with_capacity(READ, io::stdin().lock());
    lines::answer_lines(input, io::stdout().lock(), |_| REPLY)
}

/// Serves one client until it ends.
fn serve(mut client: UnixStream) -> io::Result<Infallible> {
    client.set_nonblocking(true)?;
    // SAFETY: the calls are Linux's, and each place that they write to is there.
    let waiting = unsafe { epoll_create1(0) };
    let mut ready = Ready { what: INPUT, token: 0 };
    unsafe { epoll_ctl(waiting, ADD, client.as_raw_fd(), &mut ready) };
    let mut buffer = [0; READ];
    loop {
        unsafe { epoll_wait(waiting, &mut ready, 1, -1) };
        // (less than there was room for is all that there was)
        while answer(&mut client, &mut buffer)? == READ {}
    }
}

/// Reads once, and answers each line that ends there. Returns how many bytes came; none where none were there.
fn answer(client: &mut UnixStream, buffer: &mut [u8]) -> io::Result<usize> {
    let count = match client.read(buffer) {
        Ok(0) => return Err(io::ErrorKind::UnexpectedEof.into()),
        Ok(count) => count,
        Err(error) if error.kind() == io::ErrorKind::WouldBlock => 0,
        Err(error) => return Err(error),
    };
    for _ in buffer[..count].iter().filter(|byte| **byte == b'\n') {
        client.write_all(REPLY.as_bytes())?;
    }
    Ok(count)
}
