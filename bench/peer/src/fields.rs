//! The fields of a command, as a tree of JSON has them, or as one type of line has them all.

use serde::Deserialize;
use serde_json::{Map, Value};
use std::borrow::Cow;

/// The greatest number of a field.
pub const GREATEST: u64 = (1 << 53) - 1;

/// A line and a character on it.
pub type Position = (usize, usize);

/// A range by two positions, or the whole text.
pub type Range = Option<(Position, Position)>;

/// What a command says of a field; `None` where it isn't there or is something else.
pub trait Fields {
    fn number(&self, field: &'static str) -> Option<u64>;
    fn text(&self, field: &'static str) -> Option<&str>;
    /// Whether it is there, whatever it is.
    fn has(&self, field: &'static str) -> bool;
    fn range(&self) -> Option<Range>;
    fn changes(&self) -> Option<Vec<(Range, &str)>>;
}

impl Fields for Map<String, Value> {
    fn number(&self, field: &'static str) -> Option<u64> {
        self.get(field)?.as_u64()
    }

    fn text(&self, field: &'static str) -> Option<&str> {
        self.get(field)?.as_str()
    }

    fn has(&self, field: &'static str) -> bool {
        self.contains_key(field)
    }

    fn range(&self) -> Option<Range> {
        match self.get("range") {
            None | Some(Value::Null) => Some(None),
            Some(value) => {
                let start = position(value.get("start")?)?;
                Some(Some((start, position(value.get("end")?)?)))
            }
        }
    }

    fn changes(&self) -> Option<Vec<(Range, &str)>> {
        let listed = self.get("changes")?.as_array()?;
        listed
            .iter()
            .map(|change| {
                let object = change.as_object()?;
                Some((object.range()?, object.text("text")?))
            })
            .collect()
    }
}

fn position(value: &Value) -> Option<Position> {
    let part = |field| {
        let number = value.get(field)?.as_u64()?;
        (number <= GREATEST).then_some(number as usize)
    };
    Some((part("line")?, part("character")?))
}

/// A text that is borrowed from the line where nothing in it is escaped. Serde borrows one that may
/// be absent only by a type of its own.
#[derive(Deserialize)]
struct Text<'a>(#[serde(borrow)] Cow<'a, str>);

/// Any line, read without a tree.
#[derive(Deserialize)]
pub struct Line<'a> {
    pub id: u64,
    #[serde(borrow)]
    op: Text<'a>,
    doc: Option<Text<'a>>,
    label: Option<Text<'a>>,
    bytes: Option<Text<'a>>,
    mode: Option<Text<'a>>,
    unit: Option<Text<'a>>,
    text: Option<Text<'a>>,
    rev: Option<u64>,
    at: Option<u64>,
    del: Option<u64>,
    len: Option<u64>,
    from: Option<u64>,
    to: Option<u64>,
    max: Option<u64>,
    offset: Option<u64>,
    line: Option<u64>,
    character: Option<u64>,
    value: Option<u64>,
    range: Option<Ends>,
    changes: Option<Vec<Change<'a>>>,
}

#[derive(Deserialize)]
struct Change<'a> {
    range: Option<Ends>,
    #[serde(borrow)]
    text: Text<'a>,
}

#[derive(Clone, Copy, Deserialize)]
struct Ends {
    start: Place,
    end: Place,
}

#[derive(Clone, Copy, Deserialize)]
struct Place {
    line: usize,
    character: usize,
}

impl Ends {
    fn range(self) -> (Position, Position) {
        let Ends { start, end } = self;
        ((start.line, start.character), (end.line, end.character))
    }
}

impl Fields for Line<'_> {
    #[inline(always)]
    fn number(&self, field: &'static str) -> Option<u64> {
        match field {
            "id" => Some(self.id),
            "rev" => self.rev,
            "at" => self.at,
            "del" => self.del,
            "len" => self.len,
            "from" => self.from,
            "to" => self.to,
            "max" => self.max,
            "offset" => self.offset,
            "line" => self.line,
            "character" => self.character,
            "value" => self.value,
            _ => None,
        }
    }

    #[inline(always)]
    fn text(&self, field: &'static str) -> Option<&str> {
        let text = match field {
            "op" => Some(&self.op),
            "doc" => self.doc.as_ref(),
            "label" => self.label.as_ref(),
            "bytes" => self.bytes.as_ref(),
            "mode" => self.mode.as_ref(),
            "unit" => self.unit.as_ref(),
            "text" => self.text.as_ref(),
            _ => None,
        };
        text.map(|Text(text)| &**text)
    }

    #[inline(always)]
    fn has(&self, field: &'static str) -> bool {
        self.text(field).is_some()
    }

    fn range(&self) -> Option<Range> {
        Some(self.range.map(Ends::range))
    }

    fn changes(&self) -> Option<Vec<(Range, &str)>> {
        let listed = self.changes.as_ref()?;
        Some(
            listed
                .iter()
                .map(|change| (change.range.map(Ends::range), &*change.text.0))
                .collect(),
        )
    }
}
