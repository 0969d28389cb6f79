//! A change of a range of the text: the bytes that it puts in, and whether the text is kept.

use crate::document::{decode, Decoded, Document};
use crate::encode::{encode, encode_between, State};
use crate::reply::Fault;
use encoding_rs::{CoderResult, Encoding, ISO_2022_JP, REPLACEMENT};

/// How many bytes are decoded at a time on the way to a code point.
const BLOCK: usize = 1024;

/// The bytes that a change takes out and puts in.
pub struct Plan {
    pub at: usize,
    pub del: usize,
    pub bytes: Vec<u8>,
}

/// The place behind code point number `n - 1`, in bytes; none inside an item of two code points.
fn place_behind(document: &Document, n: usize) -> Option<usize> {
    let (encoding, mark) = document.mark();
    if n == 0 {
        return Some(mark);
    }
    let rest = &document.bytes()[mark..];
    // A decoder can't be copied: once in blocks to find the block, and once more up to it.
    let mut counting = Ends::new(encoding);
    let mut blocks = 0;
    while blocks * BLOCK < rest.len() && counting.block(rest, blocks) < n {
        blocks += 1;
    }
    let mut ends = Ends::new(encoding);
    for block in 0..blocks {
        ends.block(rest, block);
    }
    let mut at = blocks * BLOCK;
    while at < rest.len() {
        at += 1;
        let count = ends.part(&rest[at - 1..at], at == rest.len());
        if count >= n {
            return (count == n).then_some(mark + at);
        }
    }
    Some(mark + rest.len())
}

/// The place of code point `n`, which is there: its item's, also where the item has two.
pub fn place_of(document: &Document, n: usize) -> (usize, usize) {
    let from = place_behind(document, n).or_else(|| place_behind(document, n - 1));
    let to = place_behind(document, n + 1).or_else(|| place_behind(document, n + 2));
    (from.unwrap_or(0), to.unwrap_or(document.bytes().len()))
}

/// How many code points end at or before a byte of a document without errors.
pub fn code_points_before(document: &Document, at: usize) -> usize {
    let (encoding, mark) = document.mark();
    let rest = &document.bytes()[mark..];
    let taken = at.saturating_sub(mark);
    let mut ends = Ends::new(encoding);
    let whole = taken / BLOCK;
    for block in 0..whole {
        ends.block(rest, block);
    }
    ends.part(&rest[whole * BLOCK..taken], taken == rest.len())
}

/// A decoder that counts code points.
struct Ends {
    decoder: encoding_rs::Decoder,
    out: String,
    count: usize,
}

impl Ends {
    fn new(encoding: &'static Encoding) -> Ends {
        Ends {
            decoder: encoding.new_decoder_without_bom_handling(),
            out: String::with_capacity(8 * BLOCK),
            count: 0,
        }
    }

    /// The number of code points behind a block.
    fn block(&mut self, rest: &[u8], block: usize) -> usize {
        let end = ((block + 1) * BLOCK).min(rest.len());
        self.part(&rest[block * BLOCK..end], end == rest.len())
    }

    /// The number of code points behind some bytes more.
    fn part(&mut self, bytes: &[u8], last: bool) -> usize {
        self.out.clear();
        let (result, _, _) = self.decoder.decode_to_string(bytes, &mut self.out, last);
        assert!(result == CoderResult::InputEmpty);
        self.count += self.out.chars().count();
        self.count
    }
}

/// What a change of code points `i` to `j` into a text does to the bytes.
pub fn plan(document: &mut Document, i: usize, j: usize, text: &str) -> Result<Plan, Fault> {
    let left = place_behind(document, i).ok_or("SplitsItem")?;
    let right = if j > i {
        place_behind(document, j).ok_or("SplitsItem")?
    } else {
        left
    };
    let (encoding, _) = document.mark();
    if encoding == REPLACEMENT {
        return Err("NoEncoder".into());
    }
    let bytes = if encoding == ISO_2022_JP {
        let all = document.bytes();
        encode_between(
            text,
            State::behind(&all[..left]),
            State::behind(&all[..right]),
            &all[right..],
        )?
    } else {
        encode(encoding, text, false)?
    };
    Ok(Plan {
        at: left,
        del: right - left,
        bytes,
    })
}

/// The bytes with the change and what they decode to, if that is the text with the change.
pub fn kept(
    document: &mut Document,
    plan: &Plan,
    from: usize,
    to: usize,
    text: &str,
) -> Option<(Vec<u8>, Decoded)> {
    let old = document.bytes();
    let mut bytes = Vec::with_capacity(old.len() + plan.bytes.len());
    bytes.extend_from_slice(&old[..plan.at]);
    bytes.extend_from_slice(&plan.bytes);
    bytes.extend_from_slice(&old[plan.at + plan.del..]);
    let (encoding, mark) = Encoding::for_bom(&bytes).unwrap_or((document.given(), 0));
    let mut new = Decoded::default();
    decode(encoding, &bytes, mark, &mut new);
    let old = &document.decoded().text;
    let is_kept = new.text.len() == old.len() - (to - from) + text.len()
        && new.text.starts_with(&old[..from])
        && new.text[from..].starts_with(text)
        && new.text.ends_with(&old[to..]);
    is_kept.then_some((bytes, new))
}
