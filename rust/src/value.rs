//! Values as Rust has them, and their two cells.

use crate::records::{kind, Pair};

/// A value of a call or a default. Two are equal when their kinds are and their bits or bytes are: a real that is no number equals itself.
#[derive(Clone, Debug)]
pub enum Value {
    Nothing,
    Flag(bool),
    Whole(i64),
    /// Goes in and comes out with the same 64 bits, whatever they are.
    Real(f64),
    /// Any bytes, at most 64 of them.
    Text(Vec<u8>),
    Handle(u32),
}

impl Value {
    /// A text, of a `&str` or of bytes.
    pub fn text(bytes: impl AsRef<[u8]>) -> Value {
        Value::Text(bytes.as_ref().to_vec())
    }

    // Kind and payload; a text goes to the end of the area, under the kind that texts have there.
    pub(crate) fn pair(&self, text_kind: u64, area: &mut Vec<u8>) -> Pair {
        let (kind, payload) = match self {
            Value::Nothing => (kind::NOTHING, 0),
            Value::Flag(yes) => (kind::FLAG, u64::from(*yes)),
            Value::Whole(number) => (kind::WHOLE, *number as u64),
            Value::Real(number) => (kind::REAL, number.to_bits()),
            Value::Text(bytes) => (text_kind, add_text(area, bytes)),
            Value::Handle(number) => (kind::HANDLE, u64::from(*number)),
        };
        Pair { kind, payload }
    }
}

impl PartialEq for Value {
    fn eq(&self, other: &Value) -> bool {
        match (self, other) {
            (Value::Nothing, Value::Nothing) => true,
            (Value::Flag(a), Value::Flag(b)) => a == b,
            (Value::Whole(a), Value::Whole(b)) => a == b,
            (Value::Real(a), Value::Real(b)) => a.to_bits() == b.to_bits(),
            (Value::Text(a), Value::Text(b)) => a == b,
            (Value::Handle(a), Value::Handle(b)) => a == b,
            _ => false,
        }
    }
}

impl Eq for Value {}

impl From<()> for Value {
    fn from((): ()) -> Value {
        Value::Nothing
    }
}

impl From<bool> for Value {
    fn from(yes: bool) -> Value {
        Value::Flag(yes)
    }
}

impl From<i64> for Value {
    fn from(number: i64) -> Value {
        Value::Whole(number)
    }
}

impl From<f64> for Value {
    fn from(number: f64) -> Value {
        Value::Real(number)
    }
}

impl From<&str> for Value {
    fn from(text: &str) -> Value {
        Value::text(text)
    }
}

impl From<&[u8]> for Value {
    fn from(bytes: &[u8]) -> Value {
        Value::text(bytes)
    }
}

/// The most bytes that a text may have.
pub const TEXT: usize = 64;

// A text at the end of an area, as its payload. A longer one than any that is accepted goes in as its first 65 bytes, which the library refuses
// as it would the whole (3, 4 or 11): so a length always fits its byte, and starts stay below 65,536 unless 1 or 9 refuses the record anyway.
pub(crate) fn add_text(area: &mut Vec<u8>, bytes: &[u8]) -> u64 {
    let kept = &bytes[..bytes.len().min(TEXT + 1)];
    let start = area.len();
    area.extend_from_slice(kept);
    (start * 256 + kept.len()) as u64
}

/// The two areas that texts on a board stand in.
#[derive(Clone, Copy, Debug)]
pub struct Areas<'a> {
    pub spec: &'a [u8],
    pub call: &'a [u8],
}

impl<'a> Areas<'a> {
    /// What a kind and a payload mean; nothing where they mean no value.
    pub fn value(self, pair: Pair) -> Option<Value> {
        let payload = pair.payload;
        Some(match pair.kind {
            kind::NOTHING => Value::Nothing,
            kind::FLAG => Value::Flag(payload != 0),
            kind::WHOLE => Value::Whole(payload as i64),
            kind::REAL => Value::Real(f64::from_bits(payload)),
            kind::SPEC_TEXT => Value::text(text_at(self.spec, payload)?),
            kind::CALL_TEXT => Value::text(text_at(self.call, payload)?),
            kind::HANDLE => Value::Handle(u32::try_from(payload).ok()?),
            _ => return None,
        })
    }
}

pub(crate) fn text_at(area: &[u8], payload: u64) -> Option<&[u8]> {
    let start = usize::try_from(payload / 256).ok()?;
    let length = (payload % 256) as usize;
    area.get(start..start + length)
}
