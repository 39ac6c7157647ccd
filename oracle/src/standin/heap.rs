// Stand-in, ours, for starlark's heap: objects one behind the other in large pieces, given back all at once. What owns memory of its own (a
// dictionary) is noted, so that it is freed then.
use crate::standin::dict::Dict;
use crate::standin::symbol::fill_words;
use crate::standin::symbol::words_for;
use crate::standin::symbol::AlignedPaddedStr;
use crate::standin::value::Object;
use crate::standin::value::StarlarkStr;
use crate::standin::value::StringValue;
use crate::standin::value::Value;
use std::cell::Cell;
use std::cell::RefCell;
use std::mem::MaybeUninit;

const WORD: usize = 8;
const PIECE: usize = 1 << 13;

type Piece = Box<[MaybeUninit<u64>]>;

pub struct HeapStore {
    next: Cell<*mut u64>,
    left: Cell<usize>,
    pieces: RefCell<Vec<Piece>>,
    owners: RefCell<Vec<*mut Object<'static>>>,
}

impl Default for HeapStore {
    fn default() -> Self {
        Self::new()
    }
}

impl HeapStore {
    pub fn new() -> Self {
        HeapStore {
            next: Cell::new(std::ptr::null_mut()),
            left: Cell::new(0),
            pieces: RefCell::new(Vec::new()),
            owners: RefCell::new(Vec::new()),
        }
    }

    #[inline]
    pub fn heap(&self) -> Heap<'_> {
        Heap(self)
    }

    // Everything on the heap is given back; the first piece is kept for the next round.
    pub fn clear(&mut self) {
        self.drop_owners();
        let pieces = self.pieces.get_mut();
        pieces.truncate(1);
        if let Some(first) = pieces.first_mut() {
            self.next.set(first.as_mut_ptr() as *mut u64);
            self.left.set(first.len());
        }
    }

    fn drop_owners(&mut self) {
        for object in self.owners.get_mut().drain(..) {
            // Put there once, by `alloc_object`, and not reached again: `&mut self` outlives no value.
            unsafe { std::ptr::drop_in_place(object) }
        }
    }

    #[inline]
    fn words(&self, n: usize) -> *mut u64 {
        if self.left.get() < n {
            self.more(n);
        }
        let at = self.next.get();
        // Within the piece, since it has so many left.
        self.next.set(unsafe { at.add(n) });
        self.left.set(self.left.get() - n);
        at
    }

    #[cold]
    fn more(&self, n: usize) {
        let mut piece: Piece = Box::new_uninit_slice(n.max(PIECE));
        self.next.set(piece.as_mut_ptr() as *mut u64);
        self.left.set(piece.len());
        self.pieces.borrow_mut().push(piece);
    }
}

impl Drop for HeapStore {
    fn drop(&mut self) {
        self.drop_owners();
    }
}

#[derive(Clone, Copy)]
pub struct Heap<'v>(&'v HeapStore);

impl<'v> Heap<'v> {
    #[inline]
    pub fn alloc_object(self, object: Object<'v>) -> Value<'v> {
        let at = self.0.words(size_of::<Object>().div_ceil(WORD)) as *mut Object<'v>;
        let owns = matches!(object, Object::Dict(_));
        // Fresh words, aligned like a u64, as an object is.
        unsafe { at.write(object) };
        if owns {
            self.0.owners.borrow_mut().push(at.cast());
        }
        Value::new(unsafe { &*at })
    }

    fn alloc_values(self, xs: &[Value<'v>]) -> &'v [Value<'v>] {
        if xs.is_empty() {
            return &[];
        }
        let at = self.0.words(xs.len()) as *mut Value<'v>;
        unsafe {
            std::ptr::copy_nonoverlapping(xs.as_ptr(), at, xs.len());
            std::slice::from_raw_parts(at, xs.len())
        }
    }

    pub fn alloc_tuple(self, xs: &[Value<'v>]) -> Value<'v> {
        if xs.is_empty() {
            return Value::new_empty_tuple();
        }
        let xs = self.alloc_values(xs);
        self.alloc_object(Object::Tuple(xs))
    }

    pub fn alloc_list(self, xs: &[Value<'v>]) -> Value<'v> {
        let xs = self.alloc_values(xs);
        self.alloc_object(Object::List(xs))
    }

    // The original's `alloc` takes whatever has a place on the heap; here it is a dictionary.
    pub fn alloc(self, dict: Dict<'v>) -> Value<'v> {
        self.alloc_object(Object::Dict(RefCell::new(dict)))
    }

    fn alloc_words(self, text: &str) -> &'v [usize] {
        let n = words_for(text.len());
        if n == 0 {
            return &[];
        }
        let at = self.0.words(n) as *mut usize;
        let words = unsafe {
            at.write_bytes(0, n);
            std::slice::from_raw_parts_mut(at, n)
        };
        fill_words(text, words);
        words
    }

    // A text, and the two cells that it was read from.
    pub fn alloc_text(self, text: &str, cells: (u64, u64)) -> StringValue<'v> {
        let padded = AlignedPaddedStr::new(text.len(), self.alloc_words(text));
        let value = self.alloc_object(Object::Text(StarlarkStr::new(padded, cells)));
        StringValue::new(value).expect("a text")
    }
}
