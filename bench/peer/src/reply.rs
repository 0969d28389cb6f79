//! Reply lines: compact JSON, keys in ascending order, as serde_json writes them.

use serde::{Serialize, Serializer};

/// What a field of a reply holds.
#[derive(Serialize)]
#[serde(untagged)]
pub enum Content {
    Number(u64),
    Text(String),
    Name(&'static str),
    Place(Option<[u64; 2]>),
    Pairs(Vec<[u64; 2]>),
}

impl From<usize> for Content {
    fn from(number: usize) -> Content {
        Content::Number(number as u64)
    }
}

impl From<u64> for Content {
    fn from(number: u64) -> Content {
        Content::Number(number)
    }
}

impl From<u32> for Content {
    fn from(number: u32) -> Content {
        Content::Number(number.into())
    }
}

impl From<String> for Content {
    fn from(text: String) -> Content {
        Content::Text(text)
    }
}

impl From<&'static str> for Content {
    fn from(name: &'static str) -> Content {
        Content::Name(name)
    }
}

/// A refusal: its name and its further fields.
pub struct Fault {
    pub name: &'static str,
    pub fields: Fielded,
}

impl From<&'static str> for Fault {
    fn from(name: &'static str) -> Fault {
        Fault {
            name,
            fields: Vec::new(),
        }
    }
}

impl Fault {
    pub fn with(name: &'static str, fields: Fielded) -> Fault {
        Fault { name, fields }
    }
}

/// Fields with their names.
pub type Fielded = Vec<(&'static str, Content)>;

/// The fields of a reply beside `id`.
pub type Answer = Result<Fielded, Fault>;

struct Reply(Fielded);

impl Serialize for Reply {
    fn serialize<S: Serializer>(&self, serializer: S) -> Result<S::Ok, S::Error> {
        serializer.collect_map(self.0.iter().map(|(name, content)| (name, content)))
    }
}

/// The line of a reply.
pub fn line(id: Option<u64>, answer: Answer) -> String {
    let mut fields = answer.unwrap_or_else(|fault| {
        let mut fields = fault.fields;
        fields.push(("fault", fault.name.into()));
        fields
    });
    fields.extend(id.map(|id| ("id", id.into())));
    fields.sort_unstable_by_key(|&(name, _)| name);
    let mut line = serde_json::to_string(&Reply(fields)).expect("a reply is JSON");
    line.push('\n');
    line
}
