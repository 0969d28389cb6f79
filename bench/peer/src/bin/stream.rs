//! Converts standard input from one encoding to another by encoding_rs, by the reads that `gate convert` makes.
//!
//!     stream FROM TO

use encoding_rs::Encoding;
use std::io::{Read, Write};

const READ: usize = 4096;

fn main() -> std::io::Result<()> {
    let words: Vec<String> = std::env::args().collect();
    let encoding = |at: usize| Encoding::for_label(words[at].as_bytes()).expect("a label");
    let mut decoder = encoding(1).new_decoder();
    let mut encoder = encoding(2).new_encoder();
    let mut buffer = [0; READ];
    let (mut text, mut bytes) = (String::with_capacity(4 * READ), Vec::with_capacity(16 * READ));
    let (mut input, mut output) = (std::io::stdin().lock(), std::io::stdout().lock());
    loop {
        let count = input.read(&mut buffer)?;
        let is_last = count == 0;
        text.clear();
        bytes.clear();
        let _ = decoder.decode_to_string(&buffer[..count], &mut text, is_last);
        let _ = encoder.encode_from_utf8_to_vec(&text, &mut bytes, is_last);
        output.write_all(&bytes)?;
        if is_last {
            return Ok(());
        }
    }
}
