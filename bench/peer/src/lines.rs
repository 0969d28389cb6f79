//! JSON lines: each has its reply before the next is read.

use memchr::memchr;
use std::io::{self, BufRead, Write};

/// Answers lines until the input ends; what follows the last line end is dropped.
pub fn answer_lines<Reply: AsRef<[u8]>>(
    mut input: impl BufRead,
    mut output: impl Write,
    mut answer: impl FnMut(&[u8]) -> Reply,
) -> io::Result<()> {
    let mut line = Vec::new();
    loop {
        let part = input.fill_buf()?;
        if part.is_empty() {
            return Ok(());
        }
        let end = memchr(b'\n', part);
        line.extend_from_slice(&part[..end.unwrap_or(part.len())]);
        let taken = end.map_or(part.len(), |end| end + 1);
        input.consume(taken);
        if end.is_some() {
            // As `gate` does: a reply goes out before the next line is read.
            output.write_all(answer(&line).as_ref())?;
            output.flush()?;
            line.clear();
        }
    }
}
