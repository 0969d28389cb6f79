//! A peer of `gate` to measure it against: it answers the same JSON lines the way they are
//! usually answered. A document is its bytes; after an edit it is decoded anew, as a whole, and
//! positions are answered from tables made then. With the word `typed` it reads lines into a type
//! of their own, and not into a tree of JSON; with `live` and a path so too, from many clients of
//! a Unix socket.

mod change;
mod desk;
mod document;
mod encode;
mod fields;
mod lines;
mod live;
mod positions;
mod reply;

use desk::Desk;
use lines::answer_lines;
use std::env;
use std::io;

fn main() -> io::Result<()> {
    let words: Vec<String> = env::args().skip(1).collect();
    let words: Vec<&str> = words.iter().map(String::as_str).collect();
    let (input, output) = (io::stdin(), io::stdout());
    let input = io::BufReader::with_capacity(1 << 16, input.lock());
    let mut desk = Desk::default();
    match words[..] {
        ["live", path] => live::serve(path),
        ["typed"] => answer_lines(input, output.lock(), |line| desk.answer_typed(line)),
        _ => answer_lines(input, output.lock(), |line| desk.answer(line)),
    }
}
