//! Calls, and the accessors that look at a call alone.

use crate::records::{self, kind, Pair, RawRefusal, Record, BOARD, HEAD, PAIR, VALUE};
use crate::refusal::Refusal;
use crate::value::{add_text, text_at, Areas, Value};

/// What stands behind `*`.
#[derive(Clone, Debug, Default, PartialEq, Eq)]
pub enum Star {
    #[default]
    Absent,
    /// A list's values, or a dictionary's keys.
    Items(Vec<Value>),
    /// A text, a number: refused by 15.
    NotIterable,
}

/// A key of a dictionary: a text or a whole number. A sheet may hold others, and has them refused.
#[derive(Clone, Debug, PartialEq, Eq)]
pub enum Key {
    Text(Vec<u8>),
    /// No name: refused by 18.
    Whole(i64),
    /// No key: refused by 11.
    Other(Value),
}

impl Key {
    /// A text, of a `&str` or of bytes.
    pub fn text(bytes: impl AsRef<[u8]>) -> Key {
        Key::Text(bytes.as_ref().to_vec())
    }

    // `Other` of a text or a whole number is that key after all.
    fn pair(&self, area: &mut Vec<u8>) -> Pair {
        let (kind, payload) = match self {
            Key::Text(bytes) => (kind::CALL_TEXT, add_text(area, bytes)),
            Key::Whole(number) => (kind::WHOLE, *number as u64),
            Key::Other(value) => return value.pair(kind::CALL_TEXT, area),
        };
        Pair { kind, payload }
    }

    fn of(value: Value) -> Key {
        match value {
            Value::Text(bytes) => Key::Text(bytes),
            Value::Whole(number) => Key::Whole(number),
            other => Key::Other(other),
        }
    }
}

/// What stands behind `**`.
#[derive(Clone, Debug, Default, PartialEq, Eq)]
pub enum Double {
    #[default]
    Absent,
    Entries(Vec<(Key, Value)>),
    /// Anything else: refused by 17.
    NotDictionary,
}

/// A call: written positionals, written names, and what stands behind `*` and `**`.
///
/// ```
/// use liuwdom::{Call, Value};
///
/// // water("B3", *[400, 430], **{"crop": "vine"})
/// let call = Call::new().positional("B3").items([400, 430]).entries([("crop", "vine")]);
/// assert_eq!(call.len(), Ok(4));
/// assert_eq!(call.positions(), Ok(vec!["B3".into(), 400.into(), 430.into()]));
/// assert_eq!(call.names_map(), Ok(vec![(b"crop".to_vec(), Value::text("vine"))]));
/// ```
///
/// Anything can be put together; the library judges it when it is used. A text of more than 64 bytes is refused, by 11, and more than 64
/// arguments of a sort by 9.
#[derive(Clone, Debug, Default, PartialEq, Eq)]
pub struct Call {
    pub positionals: Vec<Value>,
    pub named: Vec<(Vec<u8>, Value)>,
    pub star: Star,
    pub double: Double,
}

impl Call {
    pub fn new() -> Call {
        Call::default()
    }

    /// With one more value by position.
    pub fn positional(mut self, value: impl Into<Value>) -> Call {
        self.positionals.push(value.into());
        self
    }

    /// With one more value by name.
    pub fn named(mut self, name: impl AsRef<[u8]>, value: impl Into<Value>) -> Call {
        self.named.push((name.as_ref().to_vec(), value.into()));
        self
    }

    /// With this behind `*`.
    pub fn star(mut self, star: Star) -> Call {
        self.star = star;
        self
    }

    /// With a list behind `*`.
    pub fn items<V: Into<Value>>(self, items: impl IntoIterator<Item = V>) -> Call {
        self.star(Star::Items(items.into_iter().map(Into::into).collect()))
    }

    /// With this behind `**`.
    pub fn double(mut self, double: Double) -> Call {
        self.double = double;
        self
    }

    /// With a dictionary behind `**` whose keys are texts.
    pub fn entries<K, V>(self, entries: impl IntoIterator<Item = (K, V)>) -> Call
    where
        K: AsRef<[u8]>,
        V: Into<Value>,
    {
        let entries = entries
            .into_iter()
            .map(|(key, value)| (Key::text(key), value.into()))
            .collect();
        self.double(Double::Entries(entries))
    }

    /// As cells and the area of its texts.
    pub fn record(&self) -> Record {
        let (star_kind, items): (u64, &[Value]) = match &self.star {
            Star::Absent => (0, &[]),
            Star::Items(items) => (1, items),
            Star::NotIterable => (2, &[]),
        };
        let (double_kind, entries): (u64, &[(Key, Value)]) = match &self.double {
            Double::Absent => (0, &[]),
            Double::Entries(entries) => (1, entries),
            Double::NotDictionary => (2, &[]),
        };
        let lengths = [
            self.positionals.len() as u64,
            self.named.len() as u64,
            star_kind,
            items.len() as u64,
            double_kind,
            entries.len() as u64,
        ];
        let mut record = Record::default();
        record.cells.extend(lengths);
        record.push_values(&self.positionals);
        record.push_named(&self.named);
        record.push_values(items);
        record.push_entries(entries);
        record
    }

    /// What cells and an area say; nothing where they are no call record (9, 10), or a value or a name is none (11).
    ///
    /// ```
    /// # use liuwdom::Call;
    /// let call = Call::new().positional("B3").named("start", 400).items([430]).entries([("crop", "vine")]);
    /// assert_eq!(Call::from_record(&call.record()), Some(call));
    /// ```
    pub fn from_record(record: &Record) -> Option<Call> {
        let mut runs = Runs::of(record)?;
        let [p, n, star_kind, s, double_kind, d] = runs.head;
        let call = Call {
            positionals: runs.values(p)?,
            named: runs.named(n)?,
            star: match (star_kind, runs.values(s)?) {
                (0, items) if items.is_empty() => Star::Absent,
                (1, items) => Star::Items(items),
                (2, items) if items.is_empty() => Star::NotIterable,
                _ => return None,
            },
            double: match (double_kind, runs.entries(d)?) {
                (0, entries) if entries.is_empty() => Double::Absent,
                (1, entries) => Double::Entries(entries),
                (2, entries) if entries.is_empty() => Double::NotDictionary,
                _ => return None,
            },
        };
        runs.left.is_empty().then_some(call)
    }

    /// The written names and then the entries (9 to 14, 17 to 19).
    pub fn names_map(&self) -> Result<Vec<(Vec<u8>, Value)>, Refusal> {
        self.access(|call, out| {
            let count = records::names_map_cells(&call.cells, &call.area, out)?;
            Ok(named_in(&out[..PAIR * count], call.areas()))
        })
    }

    /// The written positionals and then the star's items (9 to 15).
    pub fn positions(&self) -> Result<Vec<Value>, Refusal> {
        self.access(|call, out| {
            let count = records::positions_cells(&call.cells, &call.area, out)?;
            Ok(values_in(&out[..VALUE * count], call.areas()))
        })
    }

    /// How many arguments there are (9 to 13, 15, 17).
    // The Rust's own name; an `is_empty` beside it would be refused for the same reasons, and the Rust has none.
    #[allow(clippy::len_without_is_empty)]
    pub fn len(&self) -> Result<usize, Refusal> {
        self.access(|call, _| records::len_cells(&call.cells, &call.area))
    }

    /// Refuses names (9 to 13, 17, 18, 24).
    pub fn no_named_args(&self) -> Result<(), Refusal> {
        self.access(|call, _| records::no_named_args_cells(&call.cells, &call.area))
    }

    /// From `required` to `required + optional` positionals; `None` for those not given (25, 9 to 15, 26).
    ///
    /// ```
    /// # use liuwdom::{Call, Refusal};
    /// let call = Call::new().positional(7);
    /// assert_eq!(call.optional(1, 1), Ok(vec![Some(7.into()), None]));
    /// assert_eq!(call.optional(2, 1), Err(Refusal::WrongNumberOfArgs { min: 2, max: 3, got: 1 }));
    /// ```
    pub fn optional(
        &self,
        required: usize,
        optional: usize,
    ) -> Result<Vec<Option<Value>>, Refusal> {
        self.access(|call, out| {
            records::optional_cells(&call.cells, &call.area, required, optional, out)?;
            let slots = out[..VALUE * (required + optional)].chunks_exact(VALUE);
            Ok(slots.map(|cells| call.areas().value(pair(cells))).collect())
        })
    }

    /// Just `required` positionals (25, 9 to 15, 26).
    pub fn positional_args(&self, required: usize) -> Result<Vec<Value>, Refusal> {
        self.access(|call, out| {
            records::positional_cells(&call.cells, &call.area, required, out)?;
            Ok(values_in(&out[..VALUE * required], call.areas()))
        })
    }

    // The call as a record and cells to write to, for one accessor.
    fn access<T>(
        &self,
        ask: impl FnOnce(&Record, &mut [u64]) -> Result<T, RawRefusal>,
    ) -> Result<T, Refusal> {
        let call = self.record();
        ask(&call, &mut [0; BOARD]).map_err(|refused| Refusal::of(refused, b"", &call.area))
    }
}

// A call's record while it is written, and its texts.
impl Record {
    fn push(&mut self, pair: Pair) {
        self.cells.extend([pair.kind, pair.payload]);
    }

    fn push_value(&mut self, value: &Value) {
        let pair = value.pair(kind::CALL_TEXT, &mut self.area);
        self.push(pair);
    }

    fn push_values(&mut self, values: &[Value]) {
        for value in values {
            self.push_value(value);
        }
    }

    fn push_named(&mut self, named: &[(Vec<u8>, Value)]) {
        for (name, value) in named {
            let payload = add_text(&mut self.area, name);
            self.push(Pair {
                kind: kind::CALL_TEXT,
                payload,
            });
            self.push_value(value);
        }
    }

    fn push_entries(&mut self, entries: &[(Key, Value)]) {
        for (key, value) in entries {
            let pair = key.pair(&mut self.area);
            self.push(pair);
            self.push_value(value);
        }
    }

    // For values of a call that no list goes with.
    fn areas(&self) -> Areas<'_> {
        Areas {
            spec: b"",
            call: &self.area,
        }
    }
}

// A call's record while it is read: its head, and the cells that are left.
struct Runs<'a> {
    head: [u64; HEAD],
    left: &'a [u64],
    areas: Areas<'a>,
}

impl<'a> Runs<'a> {
    fn of(record: &'a Record) -> Option<Runs<'a>> {
        let (head, left) = record.cells.split_at_checked(HEAD)?;
        Some(Runs {
            head: head.try_into().ok()?,
            left,
            areas: record.areas(),
        })
    }

    // The next `count` things of so many cells, each as `read` takes it.
    fn each<T>(
        &mut self,
        width: usize,
        count: u64,
        read: impl Fn(&[u64], Areas<'a>) -> Option<T>,
    ) -> Option<Vec<T>> {
        let cells = usize::try_from(count).ok()?.checked_mul(width)?;
        let (run, left) = self.left.split_at_checked(cells)?;
        self.left = left;
        let things = run.chunks_exact(width);
        things.map(|cells| read(cells, self.areas)).collect()
    }

    fn values(&mut self, count: u64) -> Option<Vec<Value>> {
        self.each(VALUE, count, |cells, areas| areas.value(pair(cells)))
    }

    fn named(&mut self, count: u64) -> Option<Vec<(Vec<u8>, Value)>> {
        self.each(PAIR, count, |cells, areas| named(cells, areas))
    }

    fn entries(&mut self, count: u64) -> Option<Vec<(Key, Value)>> {
        self.each(PAIR, count, |cells, areas| {
            let key = Key::of(areas.value(pair(cells))?);
            Some((key, areas.value(pair(&cells[VALUE..]))?))
        })
    }
}

// A name, which is a text of the call area, and a value.
fn named(cells: &[u64], areas: Areas) -> Option<(Vec<u8>, Value)> {
    let name = pair(cells);
    if name.kind != kind::CALL_TEXT {
        return None;
    }
    let bytes = text_at(areas.call, name.payload)?.to_vec();
    Some((bytes, areas.value(pair(&cells[VALUE..]))?))
}

pub(crate) fn pair(cells: &[u64]) -> Pair {
    Pair {
        kind: cells[0],
        payload: cells[1],
    }
}

// Cells that the library wrote hold values, so none is dropped here.
pub(crate) fn values_in(cells: &[u64], areas: Areas) -> Vec<Value> {
    let values = cells.chunks_exact(VALUE);
    values
        .filter_map(|cells| areas.value(pair(cells)))
        .collect()
}

pub(crate) fn named_in(cells: &[u64], areas: Areas) -> Vec<(Vec<u8>, Value)> {
    let pairs = cells.chunks_exact(PAIR);
    pairs.filter_map(|cells| named(cells, areas)).collect()
}
