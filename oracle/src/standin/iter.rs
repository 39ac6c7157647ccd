// Stand-in, ours, for starlark's iterators over values: an index into a tuple, a list or a dictionary's keys.
use crate::standin::heap::Heap;
use crate::standin::value::Object;
use crate::standin::value::Value;

pub struct StarlarkIterator<'v> {
    value: Value<'v>,
    index: usize,
}

impl<'v> StarlarkIterator<'v> {
    #[inline]
    pub fn new(value: Value<'v>, _heap: Heap<'v>) -> Self {
        StarlarkIterator { value, index: 0 }
    }

    #[inline]
    pub fn empty(heap: Heap<'v>) -> Self {
        Self::new(Value::new_empty_tuple(), heap)
    }
}

impl<'v> Iterator for StarlarkIterator<'v> {
    type Item = Value<'v>;

    #[inline]
    fn next(&mut self) -> Option<Value<'v>> {
        let next = match self.value.object() {
            Object::Tuple(xs) | Object::List(xs) => xs.get(self.index).copied(),
            Object::Dict(d) => d.borrow().key_at(self.index),
            _ => None,
        };
        self.index += next.is_some() as usize;
        next
    }
}
