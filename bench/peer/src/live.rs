//! Live clients in the usual way: a thread for each, and one lock over all documents.

use crate::desk::Desk;
use crate::lines::answer_lines;
use std::io::{self, BufReader};
use std::os::unix::net::{UnixListener, UnixStream};
use std::sync::{Arc, Mutex};
use std::thread;

/// Serves clients of a Unix socket, which must not be there yet, until the process is ended.
pub fn serve(path: &str) -> io::Result<()> {
    let desk = Arc::new(Mutex::new(Desk::default()));
    for client in UnixListener::bind(path)?.incoming() {
        let (client, desk) = (client?, Arc::clone(&desk));
        thread::spawn(move || talk(&client, &desk));
    }
    Ok(())
}

/// Answers a client until it leaves; each line has the documents for itself.
fn talk(client: &UnixStream, desk: &Mutex<Desk>) -> io::Result<()> {
    answer_lines(BufReader::with_capacity(1 << 16, client), client, |line| {
        let mut desk = desk.lock().expect("no thread panics that has the lock");
        desk.answer_typed(line)
    })
}
