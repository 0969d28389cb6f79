//! A text in an encoding: the Standard's encoders, and UTF-16.

use crate::reply::Fault;
use encoding_rs::{EncoderResult, Encoding, ISO_2022_JP, REPLACEMENT, UTF_16BE, UTF_16LE};

/// The bytes of a text. `html` writes what can't be encoded as a character reference.
pub fn encode(encoding: &'static Encoding, text: &str, html: bool) -> Result<Vec<u8>, Fault> {
    if encoding == REPLACEMENT {
        return Err("NoEncoder".into());
    }
    if encoding == UTF_16LE {
        return Ok(text.encode_utf16().flat_map(u16::to_le_bytes).collect());
    }
    if encoding == UTF_16BE {
        return Ok(text.encode_utf16().flat_map(u16::to_be_bytes).collect());
    }
    if html {
        return Ok(encoding.encode(text).0.into_owned());
    }
    let mut encoder = encoding.new_encoder();
    let mut bytes = Vec::new();
    let mut read = 0;
    loop {
        let room = encoder
            .max_buffer_length_from_utf8_without_replacement(text.len() - read)
            .unwrap_or(text.len());
        bytes.reserve(room);
        let (result, taken) =
            encoder.encode_from_utf8_to_vec_without_replacement(&text[read..], &mut bytes, true);
        read += taken;
        match result {
            EncoderResult::InputEmpty => return Ok(bytes),
            EncoderResult::OutputFull => {}
            EncoderResult::Unmappable(c) => {
                let index = text[..read].chars().count() - 1;
                let fields = vec![("code_point", u32::from(c).into()), ("index", index.into())];
                return Err(Fault::with("Unencodable", fields));
            }
        }
    }
}

/// The escapes of ISO-2022-JP, with the one that names the same state when it is written.
const ESCAPES: [([u8; 3], State); 5] = [
    (*b"\x1B(B", State::Ascii),
    (*b"\x1B(J", State::Roman),
    (*b"\x1B(I", State::Katakana),
    (*b"\x1B$@", State::Jis0208),
    (*b"\x1B$B", State::Jis0208),
];

#[derive(Clone, Copy, PartialEq, Eq)]
pub enum State {
    Ascii,
    Roman,
    Katakana,
    Jis0208,
}

impl State {
    fn escape(self) -> [u8; 3] {
        match self {
            State::Ascii => *b"\x1B(B",
            State::Roman => *b"\x1B(J",
            State::Katakana => *b"\x1B(I",
            State::Jis0208 => *b"\x1B$B",
        }
    }

    /// The output state behind some bytes of ISO-2022-JP.
    pub fn behind(bytes: &[u8]) -> State {
        memchr::memrchr_iter(0x1B, bytes)
            .find_map(|at| escape_at(&bytes[at..]))
            .unwrap_or(State::Ascii)
    }
}

fn escape_at(bytes: &[u8]) -> Option<State> {
    ESCAPES
        .iter()
        .find(|(escape, _)| bytes.starts_with(escape))
        .map(|&(_, state)| state)
}

/// The bytes of a text that are put between two places of a document in ISO-2022-JP.
pub fn encode_between(
    text: &str,
    before: State,
    at_right: State,
    behind: &[u8],
) -> Result<Vec<u8>, Fault> {
    let mut state = before;
    let mut bytes = Vec::new();
    if !text.is_empty() {
        bytes = encode(ISO_2022_JP, text, false)?;
        state = State::behind(&bytes[..bytes.len() - closing(&bytes)]);
        bytes.truncate(bytes.len() - closing(&bytes));
        // The encoder began in ASCII and not in the state before.
        if before != State::Ascii {
            bytes = opened(&bytes, before);
        }
    }
    if state != at_right && escape_at(behind).is_none() {
        bytes.extend_from_slice(&at_right.escape());
    }
    Ok(bytes)
}

/// How long the last return to ASCII is.
fn closing(bytes: &[u8]) -> usize {
    if bytes.ends_with(b"\x1B(B") {
        3
    } else {
        0
    }
}

/// The same bytes where the encoder begins in another state: without an escape to it in front, or
/// with one to ASCII.
fn opened(bytes: &[u8], before: State) -> Vec<u8> {
    match escape_at(bytes) {
        Some(State::Jis0208) if before == State::Jis0208 => bytes[3..].to_vec(),
        Some(State::Roman) if before == State::Roman => bytes[3..].to_vec(),
        Some(_) => bytes.to_vec(),
        None => [b"\x1B(B", bytes].concat(),
    }
}
