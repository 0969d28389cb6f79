//! How fast encoding_rs decodes and encodes the texts that `speed codecs` measures, as it prints it.

use encoding_rs::Encoding;
use std::hint::black_box;
use std::time::{Duration, Instant};

#[path = "../../../../crates/oracle/src/texts.rt"]
mod texts;

const MEGABYTE: usize = 1_048_576;
const ROUNDS: usize = 20;

fn main() {
    for sample in &texts::TEXTS {
        let encoding = Encoding::for_label(sample.name.as_bytes()).unwrap();
        for (kind, text) in sample.texts() {
            let document = text.repeat(MEGABYTE / text.len());
            let decoded = decode(encoding, &document);
            let decoding = fastest(|| decode(encoding, black_box(&document)).len());
            let encoding_time = fastest(|| encode(encoding, black_box(&decoded)));
            let rates = [(document.len(), decoding), (decoded.len(), encoding_time)]
                .map(|(bytes, time)| bytes as u128 * 1000 / time.as_nanos().max(1));
            let name = encoding.name();
            println!("{name:<13} {kind:<8} {:>6} {:>6} MB/s decoded, encoded", rates[0], rates[1]);
        }
    }
}

/// The text of a document, into new memory, as a byte order mark found first has it decoded.
fn decode(encoding: &'static Encoding, document: &[u8]) -> String {
    let mut decoder = encoding.new_decoder();
    let mut text = String::with_capacity(decoder.max_utf8_buffer_length(document.len()).unwrap());
    let _ = decoder.decode_to_string(document, &mut text, true);
    text
}

/// The length of a text's bytes: encoding_rs puts UTF-8 in the place of UTF-16.
fn encode(encoding: &'static Encoding, text: &str) -> usize {
    let mut encoder = encoding.new_encoder();
    let room = encoder.max_buffer_length_from_utf8_if_no_unmappables(text.len()).unwrap();
    let mut bytes = Vec::with_capacity(room);
    let _ = encoder.encode_from_utf8_to_vec(text, &mut bytes, true);
    bytes.len()
}

fn fastest(run: impl Fn() -> usize) -> Duration {
    let once = || {
        let begun = Instant::now();
        black_box(run());
        begun.elapsed()
    };
    (0..ROUNDS).map(|_| once()).min().unwrap()
}
