// Stand-in, ours, for starlark's dictionaries: a `SmallMap` of values on the heap, borrowed while it is read.
use crate::standin::hashing::Hashed;
use crate::standin::marks::transmute;
use crate::standin::small_map::SmallMap;
use crate::standin::value::Object;
use crate::standin::value::StringValue;
use crate::standin::value::Value;
use std::cell::Ref;
use std::ops::Deref;

#[derive(Default)]
pub struct Dict<'v> {
    content: SmallMap<Value<'v>, Value<'v>>,
}

impl<'v> Dict<'v> {
    pub fn new(content: SmallMap<Value<'v>, Value<'v>>) -> Self {
        Dict { content }
    }

    pub fn len(&self) -> usize {
        self.content.len()
    }

    pub fn is_empty(&self) -> bool {
        self.content.is_empty()
    }

    pub fn iter(&self) -> impl ExactSizeIterator<Item = (Value<'v>, Value<'v>)> + '_ {
        self.content.iter().map(|(k, v)| (*k, *v))
    }

    pub fn iter_hashed(&self) -> impl Iterator<Item = (Hashed<Value<'v>>, Value<'v>)> + '_ {
        self.content.iter_hashed().map(|(k, v)| (k.copied(), *v))
    }

    pub fn keys(&self) -> impl Iterator<Item = Value<'v>> + '_ {
        self.content.keys().copied()
    }

    #[inline]
    pub fn key_at(&self, i: usize) -> Option<Value<'v>> {
        self.content.key_at(i).copied()
    }

    // The content, if all keys are texts.
    pub fn downcast_ref_key_string(&self) -> Option<&SmallMap<StringValue<'v>, Value<'v>>> {
        if !self.content.keys().all(|k| k.is_str()) {
            return None;
        }
        // A text's `StringValue` has the layout of its `Value`.
        Some(unsafe {
            transmute!(&SmallMap<Value, Value>, &SmallMap<StringValue, Value>, &self.content)
        })
    }
}

pub struct DictRef<'v>(Ref<'v, Dict<'v>>);

impl<'v> DictRef<'v> {
    #[inline]
    pub fn from_value(value: Value<'v>) -> Option<Self> {
        match value.object() {
            Object::Dict(d) => Some(DictRef(d.borrow())),
            _ => None,
        }
    }
}

impl<'v> Deref for DictRef<'v> {
    type Target = Dict<'v>;

    fn deref(&self) -> &Dict<'v> {
        &self.0
    }
}
