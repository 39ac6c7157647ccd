// Stand-in, ours, for starlark's `Value` and `StringValue`: one word, a reference to an object on a heap. The objects are 01's kinds, what
// a heap makes of remainders and stars, and `Pair`, two cells as they are, for slots that hold no value of 01's.
use crate::standin::dict::Dict;
use crate::standin::errors::unsupported;
use crate::standin::hashing::hash_of;
use crate::standin::hashing::Hashed;
use crate::standin::hashing::StarlarkHashValue;
use crate::standin::heap::Heap;
use crate::standin::iter::StarlarkIterator;
use crate::standin::marks::Coerce;
use crate::standin::symbol::AlignedPaddedStr;
use std::cell::Cell;
use std::cell::RefCell;
use std::fmt;
use std::fmt::Debug;

pub enum Object<'v> {
    Nothing,
    Flag(bool),
    Whole(i64),
    Real(u64),
    Handle(u64),
    Text(StarlarkStr<'v>),
    Tuple(&'v [Value<'v>]),
    List(&'v [Value<'v>]),
    Dict(RefCell<Dict<'v>>),
    Pair(u64, u64),
}

// A text, its hash (0 until it is asked for) and the two cells that it was read from: these follow the value wherever it is put.
pub struct StarlarkStr<'v> {
    hash: Cell<u32>,
    words: AlignedPaddedStr<'v>,
    pub cells: (u64, u64),
}

impl<'v> StarlarkStr<'v> {
    pub fn new(words: AlignedPaddedStr<'v>, cells: (u64, u64)) -> Self {
        StarlarkStr {
            hash: Cell::new(0),
            words,
            cells,
        }
    }

    #[inline]
    pub fn get_hash(&self) -> StarlarkHashValue {
        if self.hash.get() == 0 {
            self.hash.set(hash_of(self.words.as_str()).get());
        }
        StarlarkHashValue::new_unchecked(self.hash.get())
    }
}

#[derive(Clone, Copy)]
#[repr(transparent)]
pub struct Value<'v>(&'v Object<'v>);

impl<'v> Value<'v> {
    #[inline]
    pub fn new(object: &'v Object<'v>) -> Self {
        Value(object)
    }

    #[inline]
    pub fn new_empty_tuple() -> Self {
        Value(&Object::Tuple(&[]))
    }

    #[inline]
    pub fn object(self) -> &'v Object<'v> {
        self.0
    }

    #[inline]
    pub fn ptr_eq(self, other: Value) -> bool {
        std::ptr::eq(
            self.0 as *const Object as *const u8,
            other.0 as *const Object as *const u8,
        )
    }

    pub fn is_str(self) -> bool {
        matches!(self.0, Object::Text(_))
    }

    // Texts and other scalars are no lists: as the original has it, a text has a length (its characters) and can't be iterated.
    pub fn iterate(self, heap: Heap<'v>) -> crate::Result<StarlarkIterator<'v>> {
        match self.0 {
            Object::Tuple(_) | Object::List(_) | Object::Dict(_) => {
                Ok(StarlarkIterator::new(self, heap))
            }
            _ => Err(unsupported("(iter)")),
        }
    }

    pub fn length(self) -> crate::Result<i32> {
        match self.0 {
            Object::Tuple(xs) | Object::List(xs) => Ok(xs.len() as i32),
            Object::Dict(d) => Ok(d.borrow().len() as i32),
            Object::Text(t) => Ok(t.words.as_str().chars().count() as i32),
            _ => Err(unsupported("len()")),
        }
    }

    pub fn get_hashed(self) -> Hashed<Self> {
        let hash = match self.0 {
            Object::Text(t) => t.get_hash(),
            Object::Whole(n) => hash_of(n),
            Object::Flag(b) => hash_of(b),
            Object::Real(r) => hash_of(r),
            Object::Handle(h) => hash_of(h),
            _ => hash_of(&0),
        };
        Hashed::new_unchecked(hash, self)
    }
}

// Keys of a dictionary.
impl PartialEq for Value<'_> {
    #[inline]
    fn eq(&self, other: &Self) -> bool {
        match (self.0, other.0) {
            (Object::Text(a), Object::Text(b)) => a.words == b.words,
            (Object::Whole(a), Object::Whole(b)) => a == b,
            (Object::Flag(a), Object::Flag(b)) => a == b,
            (Object::Real(a), Object::Real(b)) => a == b,
            (Object::Handle(a), Object::Handle(b)) => a == b,
            (Object::Nothing, Object::Nothing) => true,
            _ => false,
        }
    }
}

impl Debug for Value<'_> {
    fn fmt(&self, f: &mut fmt::Formatter<'_>) -> fmt::Result {
        match self.0 {
            Object::Nothing => f.write_str("None"),
            Object::Flag(b) => write!(f, "{b}"),
            Object::Whole(n) => write!(f, "{n}"),
            Object::Real(r) => write!(f, "real {r:016x}"),
            Object::Handle(h) => write!(f, "handle {h}"),
            Object::Text(t) => write!(f, "{:?}", t.words.as_str()),
            Object::Tuple(xs) | Object::List(xs) => f.debug_list().entries(*xs).finish(),
            Object::Dict(d) => f.debug_map().entries(d.borrow().iter()).finish(),
            Object::Pair(kind, payload) => write!(f, "({kind}, {payload})"),
        }
    }
}

pub trait ValueLike<'v>: Copy + Debug {
    fn to_value(self) -> Value<'v>;
}

impl<'v> ValueLike<'v> for Value<'v> {
    #[inline]
    fn to_value(self) -> Value<'v> {
        self
    }
}

pub trait UnpackValue<'v>: Sized {
    fn unpack_named_param(value: Value<'v>, name: &str) -> crate::Result<Self>;
}

impl<'v> UnpackValue<'v> for Value<'v> {
    #[inline]
    fn unpack_named_param(value: Value<'v>, _name: &str) -> crate::Result<Self> {
        Ok(value)
    }
}

// A value that is a text.
#[derive(Clone, Copy, Debug, PartialEq)]
#[repr(transparent)]
pub struct StringValue<'v>(Value<'v>);

unsafe impl<'v> Coerce<Value<'v>> for StringValue<'v> {}

impl<'v> StringValue<'v> {
    #[inline]
    pub fn new(value: Value<'v>) -> Option<Self> {
        value.is_str().then_some(StringValue(value))
    }

    #[inline]
    pub fn to_value(self) -> Value<'v> {
        self.0
    }

    #[inline]
    fn text(&self) -> &'v StarlarkStr<'v> {
        match self.0.object() {
            Object::Text(t) => t,
            _ => unreachable!("a StringValue is made of a text"),
        }
    }

    #[inline]
    pub fn as_str(&self) -> &'v str {
        self.text().words.as_str()
    }

    #[inline]
    pub fn as_aligned_padded_str(&self) -> AlignedPaddedStr<'v> {
        self.text().words
    }

    pub fn cells(&self) -> (u64, u64) {
        self.text().cells
    }
}
