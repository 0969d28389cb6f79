//! Writes to standard output what `decode_sums` hashes of one encoding, decoded by encoding_rs: `decode_sums NAME`.
use encoding_rs::Encoding;
use std::io::{BufWriter, Write};

fn main() {
    let name = std::env::args().nth(1).expect("the name of an encoding");
    let encoding = Encoding::for_label(name.as_bytes()).expect("an encoding");
    let mut out = BufWriter::new(std::io::stdout().lock());
    let mut put = |document: &[u8]| {
        let (text, _, _) = encoding.decode(document);
        out.write_all(text.as_bytes()).unwrap();
        out.write_all(&[0xFF]).unwrap();
    };
    for a in 0..=255u8 {
        put(&[a]);
    }
    let fronts: [&[u8]; 7] = [b"", b"\x8F", b"\x1B(B", b"\x1B(J", b"\x1B(I", b"\x1B$@", b"\x1B$B"];
    for front in fronts {
        for pair in 0..=0xFFFFu16 {
            put(&[front, &pair.to_be_bytes()].concat());
        }
    }
    for a in 0x81..=0xFEu8 {
        for b in 0x30..=0x39u8 {
            for c in 0x81..=0xFEu8 {
                for d in 0x30..=0x39u8 {
                    put(&[a, b, c, d]);
                }
            }
        }
    }
}
