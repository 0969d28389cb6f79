//! Lines and positions of a text in three units, by tables made once for it.

use memchr::memchr2_iter;

/// How many bytes of the text lie between two marks: few enough for counts of a byte.
const STEP: usize = 128;

#[derive(Clone, Copy, PartialEq, Eq)]
pub enum Unit {
    Utf8,
    Utf16,
    Utf32,
}

impl Unit {
    pub fn named(name: &str) -> Option<Unit> {
        match name {
            "utf-8" => Some(Unit::Utf8),
            "utf-16" => Some(Unit::Utf16),
            "utf-32" => Some(Unit::Utf32),
            _ => None,
        }
    }
}

/// A place in the text, counted in each unit from its start.
#[derive(Clone, Copy, Default)]
pub struct Counts {
    pub utf8: usize,
    pub utf16: usize,
    pub utf32: usize,
}

impl Counts {
    pub fn of(self, unit: Unit) -> usize {
        match unit {
            Unit::Utf8 => self.utf8,
            Unit::Utf16 => self.utf16,
            Unit::Utf32 => self.utf32,
        }
    }

    /// Behind a part of the text of at most `STEP` bytes. A code point counts where it begins.
    fn behind(self, part: &[u8]) -> Counts {
        let begun = part.iter().map(|&byte| u8::from(begins(byte))).sum::<u8>();
        let pairs = part.iter().map(|&byte| u8::from(begins_pair(byte))).sum::<u8>();
        Counts {
            utf8: self.utf8 + part.len(),
            utf16: self.utf16 + usize::from(begun) + usize::from(pairs),
            utf32: self.utf32 + usize::from(begun),
        }
    }
}

/// Whether a byte of UTF-8 begins a code point.
fn begins(byte: u8) -> bool {
    !(0x80..0xC0).contains(&byte)
}

/// Whether it begins one that is a pair of surrogates in UTF-16.
fn begins_pair(byte: u8) -> bool {
    byte >= 0xF0
}

/// Why a value names no place.
pub enum Missed {
    OutOfRange,
    SplitsCharacter,
}

/// Tables of a text, which every call is given anew. They are made as far as somebody asks.
#[derive(Default)]
pub struct Tables {
    /// The places at each `STEP`th byte, from the first on.
    marks: Vec<Counts>,
    /// Where the marks end.
    counted: Counts,
    /// The byte at which each line starts; none where nobody has asked yet.
    starts: Vec<usize>,
}

impl Tables {
    /// Forgets the text.
    pub fn clear(&mut self) {
        self.marks.clear();
        self.counted = Counts::default();
        self.starts.clear();
    }

    /// Goes on with the marks until they end behind a place so far from the start, or the text ends.
    fn count_to(&mut self, text: &str, value: usize, unit: Unit) {
        for part in text.as_bytes()[self.counted.utf8..].chunks(STEP) {
            if self.counted.of(unit) > value {
                break;
            }
            self.marks.push(self.counted);
            self.counted = self.counted.behind(part);
        }
    }

    /// The text's end.
    pub fn whole(&mut self, text: &str) -> Counts {
        self.count_to(text, text.len(), Unit::Utf8);
        self.counted
    }

    /// The bytes at which lines start.
    pub fn starts(&mut self, text: &str) -> &[usize] {
        if self.starts.is_empty() {
            let bytes = text.as_bytes();
            let ends = memchr2_iter(b'\r', b'\n', bytes);
            let ends = ends.filter(|&at| !bytes[at..].starts_with(b"\r\n"));
            self.starts.push(0);
            self.starts.extend(ends.map(|at| at + 1));
        }
        &self.starts
    }

    /// Start and end of a line, without its line end.
    pub fn line(&mut self, text: &str, line: usize) -> Option<(Counts, Counts)> {
        let starts = self.starts(text);
        let (start, next) = (*starts.get(line)?, starts.get(line + 1).copied());
        let end = next.map_or(text.len(), |next| next - line_end(&text[..next]));
        Some((self.at_byte(text, start), self.at_byte(text, end)))
    }

    /// The place of a byte of the text, or of its end.
    fn at_byte(&mut self, text: &str, at: usize) -> Counts {
        self.count_to(text, at, Unit::Utf8);
        match self.marks.get(at / STEP) {
            Some(mark) => mark.behind(&text.as_bytes()[mark.utf8..at]),
            None => self.counted,
        }
    }

    /// The byte at which the code point begins that has the unit of this number, or the text's end.
    fn byte_of(&mut self, text: &str, value: usize, unit: Unit) -> usize {
        self.count_to(text, value, unit);
        let after = self.marks.partition_point(|mark| mark.of(unit) <= value);
        let mark = self.marks[..after].last().copied().unwrap_or_default();
        let mut missing = value - mark.of(unit);
        for (at, &byte) in text.as_bytes().iter().enumerate().skip(mark.utf8) {
            let is_two = unit == Unit::Utf16 && begins_pair(byte);
            let units = usize::from(begins(byte)) + usize::from(is_two);
            if units > missing {
                return at;
            }
            missing -= units;
        }
        text.len()
    }

    /// The place that lies so far from the start in a unit.
    pub fn at(&mut self, text: &str, value: usize, unit: Unit) -> Result<Counts, Missed> {
        let byte = match unit {
            Unit::Utf8 => value.min(text.len()),
            _ => self.byte_of(text, value, unit),
        };
        let here = self.at_byte(text, byte);
        if here.of(unit) == value && text.is_char_boundary(byte) {
            Ok(here)
        } else if byte == text.len() {
            Err(Missed::OutOfRange)
        } else {
            Err(Missed::SplitsCharacter)
        }
    }

    /// The place of a position: a line past the last is the text's end, a character past the
    /// line's end is that end.
    pub fn of_position(
        &mut self,
        text: &str,
        line: usize,
        character: usize,
        unit: Unit,
    ) -> Result<Counts, Missed> {
        match self.line(text, line) {
            None => Ok(self.whole(text)),
            Some((start, end)) if character >= end.of(unit) - start.of(unit) => Ok(end),
            Some((start, _)) => self.at(text, start.of(unit) + character, unit),
        }
    }

    /// Line and character of a place: between CR and LF it is the line's end.
    pub fn position(&mut self, text: &str, place: Counts, unit: Unit) -> (usize, usize) {
        let line = self.starts(text).partition_point(|&start| start <= place.utf8) - 1;
        let (start, end) = self.line(text, line).expect("the first line starts at 0");
        let to = if place.utf8 < end.utf8 { place } else { end };
        (line, to.of(unit) - start.of(unit))
    }
}

/// How long the line end is that a text ends with.
fn line_end(text: &str) -> usize {
    if text.ends_with("\r\n") {
        2
    } else {
        1
    }
}
