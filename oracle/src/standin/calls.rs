// Ours: 01's records made into what the published bodies take, and their answers made into cells. The records are of 01's domain (they pass 1
// to 4 and 9 to 12, texts are UTF-8); a list that the builder's asserts don't take makes `build` panic, as the original does.
use crate::collections::symbol::symbol::Symbol;
use crate::eval::runtime::arguments::ArgNames;
use crate::eval::runtime::arguments::ArgumentsFull;
use crate::eval::Arguments;
use crate::eval::ParametersParser;
use crate::eval::ParametersSpec;
use crate::standin::dict::Dict;
use crate::standin::small_map::SmallMap;
use crate::standin::value::Object;
use crate::values::Heap;
use crate::values::StringValue;
use crate::values::Value;

const SPEC_TEXT: u64 = 5;
const CALL_TEXT: u64 = 6;
const HEAD: usize = 6;

pub fn text_at(area: &[u8], payload: u64) -> &str {
    let start = (payload >> 8) as usize;
    let len = (payload & 255) as usize;
    std::str::from_utf8(&area[start..start + len]).expect("a text in UTF-8")
}

// A value from its two cells. What is no value of 01's stays a pair.
pub fn value<'v>(heap: Heap<'v>, area: &[u8], kind: u64, payload: u64) -> Value<'v> {
    heap.alloc_object(match kind {
        1 => Object::Nothing,
        2 => Object::Flag(payload == 1),
        3 => Object::Whole(payload as i64),
        4 => Object::Real(payload),
        SPEC_TEXT | CALL_TEXT => {
            let text = heap.alloc_text(text_at(area, payload), (kind, payload));
            return text.to_value();
        }
        7 => Object::Handle(payload),
        _ => Object::Pair(kind, payload),
    })
}

// Two cells as they are, whatever they hold.
pub fn pair<'v>(heap: Heap<'v>, kind: u64, payload: u64) -> Value<'v> {
    heap.alloc_object(Object::Pair(kind, payload))
}

// The two cells of a value: those of a remainder are 8 or 9 and its length.
pub fn cells_of(value: Value) -> (u64, u64) {
    match value.object() {
        Object::Nothing => (1, 0),
        Object::Flag(b) => (2, *b as u64),
        Object::Whole(n) => (3, *n as u64),
        Object::Real(bits) => (4, *bits),
        Object::Text(t) => t.cells,
        Object::Handle(h) => (7, *h),
        Object::Tuple(xs) | Object::List(xs) => (8, xs.len() as u64),
        Object::Dict(d) => (9, d.borrow().len() as u64),
        Object::Pair(kind, payload) => (*kind, *payload),
    }
}

// The values of a tuple and the pairs of a dictionary, each put behind the others.
pub fn push_content(value: Value, out: &mut Vec<u64>) {
    match value.object() {
        Object::Tuple(xs) => xs.iter().for_each(|x| push_cells(*x, out)),
        Object::Dict(d) => d.borrow().iter().for_each(|(k, v)| {
            push_cells(k, out);
            push_cells(v, out);
        }),
        _ => {}
    }
}

pub fn push_cells(value: Value, out: &mut Vec<u64>) {
    let (kind, payload) = cells_of(value);
    out.extend([kind, payload]);
}

// A parameter of a list: the code of its step, its name's payload, its default.
pub struct Parameter<'v> {
    pub code: u64,
    pub name: u64,
    pub default: Option<Value<'v>>,
}

pub struct List<'v> {
    pub spec: ParametersSpec<Value<'v>>,
    pub parameters: Vec<Parameter<'v>>,
}

// The list of a parameter record, step by step through the published builder.
pub fn build<'v>(heap: Heap<'v>, cells: &[u64], area: &[u8]) -> List<'v> {
    let steps = cells[1..].chunks_exact(4);
    let function = text_at(area, cells[0]).to_owned();
    let mut builder = ParametersSpec::with_capacity(function, steps.len());
    let mut parameters = Vec::with_capacity(steps.len());
    for step in steps {
        let (code, name) = (step[0], step[1]);
        let default = (code == 3).then(|| value(heap, area, step[2], step[3]));
        match (code, default) {
            (1, _) => builder.required(text_at(area, name)),
            (2, _) => builder.optional(text_at(area, name)),
            (3, Some(value)) => builder.defaulted(text_at(area, name), value),
            (4, _) => builder.no_more_positional_only_args(),
            (5, _) => builder.no_more_positional_args(),
            (6, _) => builder.args(),
            _ => builder.kwargs(),
        }
        if code != 4 && code != 5 {
            parameters.push(Parameter {
                code,
                name,
                default,
            });
        }
    }
    List {
        spec: builder.finish(),
        parameters,
    }
}

// How a star value of 01's kinds is given to the Rust.
#[derive(Debug, Clone, Copy, PartialEq, Eq)]
pub enum Iterable {
    List,
    Tuple,
    // Where the items can be keys and differ; a list otherwise.
    Keys,
}

#[derive(Debug, Clone, Copy, PartialEq, Eq)]
pub enum Other {
    Text,
    Number,
}

#[derive(Debug, Clone, Copy)]
pub struct Forms {
    pub star: Iterable,
    pub no_star: Other,
    pub no_double: NoDouble,
}

#[derive(Debug, Clone, Copy, PartialEq, Eq)]
pub enum NoDouble {
    List,
    Text,
    Number,
}

pub const PLAIN: Forms = Forms {
    star: Iterable::List,
    no_star: Other::Number,
    no_double: NoDouble::List,
};

// A call as the evaluator would hold it: values, names with their symbols, the two starred values.
pub struct Given<'v> {
    pub pos: Vec<Value<'v>>,
    pub named: Vec<Value<'v>>,
    pub names: Vec<(Symbol, StringValue<'v>)>,
    pub args: Option<Value<'v>>,
    pub kwargs: Option<Value<'v>>,
}

pub fn read_call<'v>(heap: Heap<'v>, cells: &[u64], area: &[u8], forms: Forms) -> Given<'v> {
    let (p, n) = (cells[0] as usize, cells[1] as usize);
    let (s, d) = (cells[3] as usize, cells[5] as usize);
    let (values, rest) = cells[HEAD..].split_at(2 * p);
    let (pairs, rest) = rest.split_at(4 * n);
    let (items, entries) = rest.split_at(2 * s);
    debug_assert_eq!(entries.len(), 4 * d);
    let read = |c: &[u64]| value(heap, area, c[0], c[1]);
    let name = |c: &[u64]| {
        let text = heap.alloc_text(text_at(area, c[1]), (c[0], c[1]));
        (Symbol::new(text.as_str()), text)
    };
    Given {
        pos: values.chunks_exact(2).map(read).collect(),
        named: pairs.chunks_exact(4).map(|c| read(&c[2..])).collect(),
        names: pairs.chunks_exact(4).map(name).collect(),
        args: match cells[2] {
            0 => None,
            1 => Some(iterable(heap, items.chunks_exact(2).map(read), forms.star)),
            _ => Some(no_iterable(heap, forms.no_star)),
        },
        kwargs: match cells[4] {
            0 => None,
            1 => Some(dictionary(heap, entries, area)),
            _ => Some(no_dictionary(heap, forms.no_double)),
        },
    }
}

fn iterable<'v>(
    heap: Heap<'v>,
    items: impl Iterator<Item = Value<'v>>,
    form: Iterable,
) -> Value<'v> {
    let items: Vec<_> = items.collect();
    match form {
        Iterable::List => heap.alloc_list(&items),
        Iterable::Tuple => heap.alloc_tuple(&items),
        Iterable::Keys => {
            let mut map = SmallMap::with_capacity(items.len());
            let keys = items.iter().all(|x| {
                let key = x.get_hashed();
                map.insert_hashed(key, Value::new_empty_tuple()).is_none()
            });
            match keys {
                true => heap.alloc(Dict::new(map)),
                false => heap.alloc_list(&items),
            }
        }
    }
}

// The text has as many characters as bytes, and two, so that a count of it can't pass for an empty one.
fn no_iterable(heap: Heap, form: Other) -> Value {
    match form {
        Other::Text => heap.alloc_text("no", (0, 0)).to_value(),
        Other::Number => heap.alloc_object(Object::Whole(7)),
    }
}

fn no_dictionary(heap: Heap, form: NoDouble) -> Value {
    match form {
        NoDouble::List => heap.alloc_list(&[]),
        NoDouble::Text => heap.alloc_text("no", (0, 0)).to_value(),
        NoDouble::Number => heap.alloc_object(Object::Whole(7)),
    }
}

fn dictionary<'v>(heap: Heap<'v>, entries: &[u64], area: &[u8]) -> Value<'v> {
    let entries = entries.chunks_exact(4);
    let mut map = SmallMap::with_capacity(entries.len());
    for e in entries {
        let key = value(heap, area, e[0], e[1]).get_hashed();
        let old = map.insert_hashed(key, value(heap, area, e[2], e[3]));
        assert!(old.is_none(), "keys differ in 01's domain");
    }
    heap.alloc(Dict::new(map))
}

impl<'v> Given<'v> {
    // As written names are checked where a call is made: the error is 01's 13.
    pub fn arguments(&self) -> crate::Result<Arguments<'v, '_>> {
        Ok(Arguments(ArgumentsFull {
            pos: &self.pos,
            named: &self.named,
            names: ArgNames::new_check_unique(&self.names)?,
            args: self.args,
            kwargs: self.kwargs,
        }))
    }

    // The same call without its `**` value.
    pub fn without_double(&self) -> Self {
        Given {
            pos: self.pos.clone(),
            named: self.named.clone(),
            names: self.names.clone(),
            args: self.args,
            kwargs: None,
        }
    }

    // The names that `can_fill_with_args` takes.
    pub fn written(&self) -> Vec<&'v str> {
        self.names.iter().map(|(_, s)| s.as_str()).collect()
    }
}

pub fn lookup(spec: &ParametersSpec<Value>, name: &str) -> Option<u32> {
    spec.names.get_str(name).copied()
}

pub type Slots<'v> = Vec<Option<Value<'v>>>;

macro_rules! optional_by_number {
    ($args:ident, $heap:ident, $required:ident, $more:ident: $($r:literal)*) => {
        match $required {
            $($r => optional_by_number!(@more $args, $heap, $more, $r: 0 1 2 3 5 64),)*
            _ => None,
        }
    };
    (@more $args:ident, $heap:ident, $more:ident, $r:literal: $($o:literal)*) => {
        match $more {
            $($o => Some($args.optional::<$r, $o>($heap).map(|(a, b)| {
                a.into_iter().map(Some).chain(b).collect()
            })),)*
            _ => None,
        }
    };
}

// `optional` for the numbers that it was compiled for: none for others.
pub fn optional<'v>(
    args: &Arguments<'v, '_>,
    heap: Heap<'v>,
    required: usize,
    more: usize,
) -> Option<crate::Result<Slots<'v>>> {
    optional_by_number!(args, heap, required, more: 0 1 2 3 5 64)
}

// One read of the parser, or the question whether it is at the end.
#[derive(Debug, Clone, Copy, PartialEq, Eq)]
pub enum Read {
    IsEof,
    Next,
    NextOpt,
}

#[derive(Debug)]
pub enum Got<'v> {
    Eof(bool),
    Slot(Option<Value<'v>>),
}

// A read of the slots from `at` on: what it got, and how many slots are left after it, counted by reading on.
pub fn read_slot<'v>(
    slots: &[Option<Value<'v>>],
    names: &[String],
    read: Read,
) -> (crate::Result<Got<'v>>, usize) {
    let mut parser = ParametersParser::new(slots, names);
    let got = match read {
        Read::IsEof => Ok(Got::Eof(parser.is_eof())),
        Read::Next => parser.next::<Value>().map(|v| Got::Slot(Some(v))),
        Read::NextOpt => parser.next_opt::<Value>().map(Got::Slot),
    };
    let mut left = 0;
    while !parser.is_eof() {
        let _ = parser.next_opt::<Value>();
        left += 1;
    }
    (got, left)
}
