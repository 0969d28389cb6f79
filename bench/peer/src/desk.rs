//! Commands and replies: names, documents, the order of refusals.

use crate::change::{code_points_before, kept, place_of, plan, Plan};
use crate::document::Document;
use crate::encode::encode;
use crate::fields::{Fields, Line, Range, GREATEST};
use crate::positions::{Counts, Missed, Unit};
use crate::reply::{line, Answer, Content, Fault, Fielded};
use encoding_rs::Encoding;
use serde_json::Value;
use std::collections::HashMap;
use std::str;

const LINE: usize = 4_194_304;
const DOCUMENT: usize = 16_777_216;
const DOCUMENTS: usize = 64;

#[derive(Default)]
pub struct Desk {
    documents: HashMap<String, Document>,
}

fn wrong(field: &'static str) -> Fault {
    Fault::with("BadRequest", vec![("field", field.into())])
}

fn number(line: &impl Fields, field: &'static str) -> Result<u64, Fault> {
    let number = line.number(field).filter(|&n| n <= GREATEST);
    number.ok_or_else(|| wrong(field))
}

fn page(line: &impl Fields) -> Result<usize, Fault> {
    match number(line, "max") {
        Ok(max) if max <= 10_000 => Ok(max as usize),
        _ => Err(wrong("max")),
    }
}

fn text<'a>(line: &'a impl Fields, field: &'static str) -> Result<&'a str, Fault> {
    line.text(field).ok_or_else(|| wrong(field))
}

fn name(line: &impl Fields) -> Result<&str, Fault> {
    let name = text(line, "doc")?;
    if (1..=64).contains(&name.len()) {
        Ok(name)
    } else {
        Err(wrong("doc"))
    }
}

fn choice(line: &impl Fields, field: &'static str, words: [&str; 2]) -> Result<bool, Fault> {
    if !line.has(field) {
        return Ok(false);
    }
    let named = text(line, field)?;
    match words.iter().position(|word| named == *word) {
        Some(place) => Ok(place == 1),
        None => Err(wrong(field)),
    }
}

fn unit(line: &impl Fields) -> Result<Unit, Fault> {
    if !line.has("unit") {
        return Ok(Unit::Utf16);
    }
    Unit::named(text(line, "unit")?).ok_or_else(|| wrong("unit"))
}

fn range(line: &impl Fields) -> Result<Range, Fault> {
    line.range().ok_or_else(|| wrong("range"))
}

fn bytes(text: &str) -> Result<Vec<u8>, Fault> {
    base64::decode_config(text, base64::STANDARD).map_err(|_| "BadBase64".into())
}

fn labelled(label: &str) -> Result<&'static Encoding, Fault> {
    Encoding::for_label(label.as_bytes()).ok_or_else(|| "UnknownLabel".into())
}

fn missed(missed: Missed) -> Fault {
    match missed {
        Missed::OutOfRange => "OutOfRange".into(),
        Missed::SplitsCharacter => "SplitsCharacter".into(),
    }
}

impl Desk {
    /// Answers a line, which is read into a tree of JSON.
    pub fn answer(&mut self, bytes: &[u8]) -> String {
        if bytes.len() > LINE {
            return line(None, Err("LineTooLong".into()));
        }
        let object = match serde_json::from_slice(bytes) {
            Ok(Value::Object(object)) => object,
            Ok(_) => return line(None, Err(wrong(""))),
            Err(_) => return line(None, Err("BadJson".into())),
        };
        match number(&object, "id") {
            Ok(id) => line(Some(id), self.command(&object)),
            Err(fault) => line(None, Err(fault)),
        }
    }

    /// The same, of a line that is read without a tree where it has the type of any line.
    pub fn answer_typed(&mut self, bytes: &[u8]) -> String {
        let text = str::from_utf8(bytes).ok();
        match text.and_then(|text| serde_json::from_str::<Line>(text).ok()) {
            Some(read) if bytes.len() <= LINE && read.id <= GREATEST => {
                line(Some(read.id), self.command(&read))
            }
            _ => self.answer(bytes),
        }
    }

    fn command(&mut self, object: &impl Fields) -> Answer {
        match text(object, "op")? {
            "open" => self.open(object),
            "close" => self.close(object),
            "splice" => self.splice(object),
            "change" => self.change(object),
            "changes" => self.changes(object),
            "text" => self.text(object),
            "source" => self.source(object),
            "encode" => self.encode(object),
            "errors" => self.errors(object),
            "lines" => self.lines(object),
            "position" => self.position(object),
            "offset" => self.offset(object),
            "place" => self.place(object),
            "stat" => self.stat(object),
            _ => Err("UnknownOp".into()),
        }
    }

    fn get(&mut self, name: &str) -> Result<&mut Document, Fault> {
        self.documents
            .get_mut(name)
            .ok_or_else(|| "NoDocument".into())
    }

    fn open(&mut self, object: &impl Fields) -> Answer {
        let (name, label) = (name(object)?, text(object, "label")?);
        let bytes = bytes(text(object, "bytes")?)?;
        if self.documents.contains_key(name) {
            return Err("NameTaken".into());
        }
        let encoding = labelled(label)?;
        if self.documents.len() == DOCUMENTS {
            return Err("TooManyDocuments".into());
        }
        if bytes.len() > DOCUMENT {
            return Err("TooLarge".into());
        }
        let document = Document::new(encoding, bytes);
        let answer = headed(&document, vec![]);
        self.documents.insert(name.to_owned(), document);
        Ok(answer)
    }

    fn close(&mut self, object: &impl Fields) -> Answer {
        match self.documents.remove(name(object)?) {
            Some(document) => Ok(vec![("rev", document.revision.into())]),
            None => Err("NoDocument".into()),
        }
    }

    fn splice(&mut self, object: &impl Fields) -> Answer {
        let (name, rev) = (name(object)?, number(object, "rev")?);
        let (at, del) = (
            number(object, "at")? as usize,
            number(object, "del")? as usize,
        );
        let bytes = bytes(text(object, "bytes")?)?;
        let document = self.get(name)?;
        edited(document, rev)?;
        let length = document.bytes().len();
        if at + del > length {
            return Err("OutOfRange".into());
        }
        if length - del + bytes.len() > DOCUMENT {
            return Err("TooLarge".into());
        }
        document.splice(at, del, &bytes);
        document.revision += 1;
        Ok(headed(document, vec![]))
    }

    fn change(&mut self, object: &impl Fields) -> Answer {
        let (name, rev) = (name(object)?, number(object, "rev")?);
        let (unit, range) = (unit(object)?, range(object)?);
        let put = text(object, "text")?;
        let document = self.get(name)?;
        edited(document, rev)?;
        let plan = changed(document, unit, range, put)?;
        document.revision += 1;
        let more = vec![
            ("at", plan.at.into()),
            ("del", plan.del.into()),
            ("ins", plan.bytes.len().into()),
        ];
        Ok(headed(document, more))
    }

    fn changes(&mut self, object: &impl Fields) -> Answer {
        let (name, rev, unit) = (name(object)?, number(object, "rev")?, unit(object)?);
        let changes = object.changes().filter(|list| list.len() <= 1000);
        let changes = changes.ok_or_else(|| wrong("changes"))?;
        let document = self.get(name)?;
        edited(document, rev)?;
        let before = document.bytes().to_vec();
        for (number, (range, put)) in changes.iter().enumerate() {
            if let Err(mut fault) = changed(document, unit, *range, put) {
                document.restore(before);
                fault.fields.push(("change", number.into()));
                return Err(fault);
            }
        }
        document.revision += 1;
        Ok(headed(document, vec![("applied", changes.len().into())]))
    }

    fn text(&mut self, object: &impl Fields) -> Answer {
        let (name, from, to) = (
            name(object)?,
            number(object, "from")?,
            number(object, "to")?,
        );
        let fatal = choice(object, "mode", ["replacement", "fatal"])?;
        let document = self.get(name)?;
        let rev = document.revision;
        let part = part(document, from, to)?;
        if let (true, Some(&(from, to))) = (fatal, document.decoded().errors.first()) {
            return Err(Fault::with("Malformed", vec![("place", Content::Place(Some([from, to])))]));
        }
        Ok(vec![("rev", rev.into()), ("text", part.into())])
    }

    fn source(&mut self, object: &impl Fields) -> Answer {
        let (name, at, length) = (name(object)?, number(object, "at")?, number(object, "len")?);
        let document = self.get(name)?;
        let end = at + length;
        let bytes = document
            .bytes()
            .get(at as usize..end as usize)
            .ok_or("OutOfRange")?;
        Ok(vec![
            ("bytes", base64::encode(bytes).into()),
            ("rev", document.revision.into()),
        ])
    }

    fn encode(&mut self, object: &impl Fields) -> Answer {
        let (name, from, to) = (
            name(object)?,
            number(object, "from")?,
            number(object, "to")?,
        );
        let label = text(object, "label")?;
        let html = choice(object, "mode", ["fatal", "html"])?;
        let document = self.get(name)?;
        let encoding = labelled(label)?;
        let rev = document.revision;
        let bytes = encode(encoding, &part(document, from, to)?, html)?;
        Ok(vec![
            ("bytes", base64::encode(bytes).into()),
            ("rev", rev.into()),
        ])
    }

    fn errors(&mut self, object: &impl Fields) -> Answer {
        let (name, from) = (name(object)?, number(object, "from")? as usize);
        let max = page(object)?;
        let document = self.get(name)?;
        let rev = document.revision;
        let errors = &document.decoded().errors;
        let rest = errors.get(from..).ok_or("OutOfRange")?;
        let page = rest.iter().take(max).map(|&(from, to)| [from, to]);
        Ok(vec![
            ("errors", Content::Pairs(page.collect())),
            ("rev", rev.into()),
            ("total", errors.len().into()),
        ])
    }

    fn lines(&mut self, object: &impl Fields) -> Answer {
        let (name, from) = (name(object)?, number(object, "from")? as usize);
        let max = page(object)?;
        let document = self.get(name)?;
        let rev = document.revision;
        let decoded = document.decoded();
        let count = decoded.tables.starts(&decoded.text).len();
        if from > count {
            return Err("OutOfRange".into());
        }
        let page = (from..count).take(max);
        let page = page.filter_map(|line| decoded.tables.line(&decoded.text, line));
        let page = page.map(|(start, end)| [start.utf32 as u64, end.utf32 as u64]);
        Ok(vec![
            ("count", count.into()),
            ("lines", Content::Pairs(page.collect())),
            ("rev", rev.into()),
        ])
    }

    fn position(&mut self, object: &impl Fields) -> Answer {
        let (name, offset) = (name(object)?, number(object, "offset")? as usize);
        let unit = unit(object)?;
        let document = self.get(name)?;
        let rev = document.revision;
        let decoded = document.decoded();
        let place = decoded
            .tables
            .at(&decoded.text, offset, Unit::Utf32)
            .map_err(missed)?;
        let (line, character) = decoded.tables.position(&decoded.text, place, unit);
        Ok(vec![
            ("character", character.into()),
            ("line", line.into()),
            ("rev", rev.into()),
        ])
    }

    fn offset(&mut self, object: &impl Fields) -> Answer {
        let (name, line) = (name(object)?, number(object, "line")? as usize);
        let (character, unit) = (number(object, "character")? as usize, unit(object)?);
        let document = self.get(name)?;
        let rev = document.revision;
        let decoded = document.decoded();
        let place = decoded
            .tables
            .of_position(&decoded.text, line, character, unit)
            .map_err(missed)?;
        Ok(vec![("offset", place.utf32.into()), ("rev", rev.into())])
    }

    fn place(&mut self, object: &impl Fields) -> Answer {
        let name = name(object)?;
        let unit = match text(object, "unit")? {
            "byte" => None,
            word => Some(Unit::named(word).ok_or_else(|| wrong("unit"))?),
        };
        let value = number(object, "value")? as usize;
        let document = self.get(name)?;
        let rev = document.revision;
        if unit.is_none() && value > document.bytes().len() {
            return Err("OutOfRange".into());
        }
        let (value, unit) = match unit {
            None => (code_points_before(document, value), Unit::Utf32),
            Some(unit) => (value, unit),
        };
        let decoded = document.decoded();
        let counts = decoded.tables.at(&decoded.text, value, unit).map_err(missed)?;
        let is_end = counts.utf8 == decoded.text.len();
        let place = (!is_end).then(|| place_of(document, counts.utf32));
        Ok(vec![
            ("place", Content::Place(place.map(|(from, to)| [from as u64, to as u64]))),
            ("rev", rev.into()),
            ("utf16", counts.utf16.into()),
            ("utf32", counts.utf32.into()),
            ("utf8", counts.utf8.into()),
        ])
    }

    fn stat(&mut self, object: &impl Fields) -> Answer {
        let document = self.get(name(object)?)?;
        let (given, length) = (document.given().name(), document.bytes().len());
        let mut answer = headed(
            document,
            vec![("bytes", length.into()), ("given", given.into())],
        );
        let decoded = document.decoded();
        let whole = decoded.tables.whole(&decoded.text);
        answer.extend([
            ("errors", decoded.errors.len().into()),
            ("lines", decoded.tables.starts(&decoded.text).len().into()),
            ("utf16", whole.utf16.into()),
            ("utf32", whole.utf32.into()),
            ("utf8", whole.utf8.into()),
        ]);
        Ok(answer)
    }
}

/// Replaces a range of the text, and returns how.
fn changed(document: &mut Document, unit: Unit, range: Range, put: &str) -> Result<Plan, Fault> {
    let decoded = document.decoded();
    let (from, to) = match range {
        None => (Counts::default(), decoded.tables.whole(&decoded.text)),
        Some((start, end)) => {
            if start > end {
                return Err("OutOfRange".into());
            }
            let mut place = |(line, character)| {
                decoded
                    .tables
                    .of_position(&decoded.text, line, character, unit)
                    .map_err(missed)
            };
            (place(start)?, place(end)?)
        }
    };
    let plan = plan(document, from.utf32, to.utf32, put)?;
    if document.bytes().len() - plan.del + plan.bytes.len() > DOCUMENT {
        return Err("TooLarge".into());
    }
    let (bytes, decoded) = kept(document, &plan, from.utf8, to.utf8, put).ok_or("NotKept")?;
    document.replace(bytes, decoded);
    Ok(plan)
}

/// Whether an edit names the revision now and another may follow.
fn edited(document: &Document, rev: u64) -> Result<(), Fault> {
    if rev != document.revision {
        return Err(Fault::with(
            "Stale",
            vec![("rev", document.revision.into())],
        ));
    }
    Ok(())
}

/// The fields of a document's head, and more.
fn headed(document: &Document, mut more: Fielded) -> Fielded {
    let (encoding, mark) = document.mark();
    more.extend([
        ("bom", mark.into()),
        ("encoding", encoding.name().into()),
        ("rev", document.revision.into()),
    ]);
    more
}

/// A range of the text, in code points.
fn part(document: &mut Document, from: u64, to: u64) -> Result<String, Fault> {
    let decoded = document.decoded();
    if from > to {
        return Err("OutOfRange".into());
    }
    let mut place = |value| {
        decoded
            .tables
            .at(&decoded.text, value as usize, Unit::Utf32)
            .map_err(missed)
    };
    let (end, start) = (place(to)?, place(from)?);
    Ok(decoded.text[start.utf8..end.utf8].to_owned())
}
