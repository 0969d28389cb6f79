//! A document: its bytes, and what was decoded of them since the last edit.

use crate::positions::Tables;
use encoding_rs::{DecoderResult, Encoding};

/// What the bytes decode to.
#[derive(Default)]
pub struct Decoded {
    pub text: String,
    /// The places of the errors, in bytes of the document.
    pub errors: Vec<(u64, u64)>,
    pub tables: Tables,
}

pub struct Document {
    given: &'static Encoding,
    bytes: Vec<u8>,
    pub revision: u64,
    decoded: Decoded,
    is_decoded: bool,
}

impl Document {
    pub fn new(given: &'static Encoding, bytes: Vec<u8>) -> Document {
        Document {
            given,
            bytes,
            revision: 0,
            decoded: Decoded::default(),
            is_decoded: false,
        }
    }

    pub fn given(&self) -> &'static Encoding {
        self.given
    }

    pub fn bytes(&self) -> &[u8] {
        &self.bytes
    }

    /// The encoding in force and the length of the byte order mark.
    pub fn mark(&self) -> (&'static Encoding, usize) {
        Encoding::for_bom(&self.bytes).unwrap_or((self.given, 0))
    }

    /// Replaces `del` bytes from `at` on, which are there.
    pub fn splice(&mut self, at: usize, del: usize, bytes: &[u8]) {
        self.bytes.splice(at..at + del, bytes.iter().copied());
        self.is_decoded = false;
    }

    /// Other bytes, and what they decode to.
    pub fn replace(&mut self, bytes: Vec<u8>, decoded: Decoded) {
        self.bytes = bytes;
        self.decoded = decoded;
        self.is_decoded = true;
    }

    /// The bytes as they were, where a later part of an edit is refused.
    pub fn restore(&mut self, bytes: Vec<u8>) {
        self.bytes = bytes;
        self.is_decoded = false;
    }

    /// The document decoded, which is done once after an edit.
    pub fn decoded(&mut self) -> &mut Decoded {
        if !self.is_decoded {
            let (encoding, mark) = self.mark();
            decode(encoding, &self.bytes, mark, &mut self.decoded);
            self.is_decoded = true;
        }
        &mut self.decoded
    }
}

/// Decodes bytes behind their mark into buffers that are there already.
pub fn decode(encoding: &'static Encoding, bytes: &[u8], mark: usize, decoded: &mut Decoded) {
    let mut decoder = encoding.new_decoder_without_bom_handling();
    let rest = &bytes[mark..];
    decoded.text.clear();
    decoded.errors.clear();
    decoded.tables.clear();
    if let Some(room) = decoder.max_utf8_buffer_length_without_replacement(rest.len()) {
        decoded.text.reserve(room);
    }
    let mut read = 0;
    loop {
        let (result, taken) =
            decoder.decode_to_string_without_replacement(&rest[read..], &mut decoded.text, true);
        read += taken;
        match result {
            DecoderResult::InputEmpty => break,
            DecoderResult::OutputFull => decoded.text.reserve(rest.len() - read + 64),
            DecoderResult::Malformed(length, behind) => {
                let to = mark + read - usize::from(behind);
                let from = to - usize::from(length);
                decoded.errors.push((from as u64, to as u64));
                if decoded.text.capacity() - decoded.text.len() < 3 {
                    decoded.text.reserve(rest.len() - read + 64);
                }
                decoded.text.push('\u{FFFD}');
            }
        }
    }
}
