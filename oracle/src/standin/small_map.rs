// Stand-in, ours, for starlark_map's `SmallMap` and `SmallSet`: entries in the order of insertion, each beside its hash, in one allocation;
// a hash table over them from the 17th entry on, and a plain search before, as the original has it.
use crate::standin::hash_table::HashTable;
use crate::standin::hashing::Hashed;
use crate::standin::hashing::StarlarkHashValue;
use crate::standin::marks::Coerce;

const NO_INDEX_THRESHOLD: usize = 16;

#[derive(Clone)]
#[repr(C)]
struct Bucket<K, V> {
    key: K,
    value: V,
    hash: StarlarkHashValue,
}

#[derive(Clone)]
#[repr(C)]
pub struct SmallMap<K, V> {
    entries: Vec<Bucket<K, V>>,
    index: Option<Box<HashTable<usize>>>,
}

// Keys and values of one layout make maps of one layout.
unsafe impl<K: Coerce<K1>, K1, V> Coerce<SmallMap<K1, V>> for SmallMap<K, V> {}

impl<K, V> Default for SmallMap<K, V> {
    fn default() -> Self {
        SmallMap {
            entries: Vec::new(),
            index: None,
        }
    }
}

impl<K, V> SmallMap<K, V> {
    #[inline]
    pub fn with_capacity(capacity: usize) -> Self {
        SmallMap {
            entries: Vec::with_capacity(capacity),
            index: (NO_INDEX_THRESHOLD < capacity)
                .then(|| Box::new(HashTable::with_capacity(capacity))),
        }
    }

    pub fn len(&self) -> usize {
        self.entries.len()
    }

    pub fn is_empty(&self) -> bool {
        self.entries.is_empty()
    }

    pub fn iter(&self) -> impl ExactSizeIterator<Item = (&K, &V)> {
        self.entries.iter().map(|e| (&e.key, &e.value))
    }

    pub fn iter_hashed(&self) -> impl ExactSizeIterator<Item = (Hashed<&K>, &V)> {
        self.entries
            .iter()
            .map(|e| (Hashed::new_unchecked(e.hash, &e.key), &e.value))
    }

    pub fn keys(&self) -> impl ExactSizeIterator<Item = &K> {
        self.entries.iter().map(|e| &e.key)
    }

    pub fn key_at(&self, i: usize) -> Option<&K> {
        self.entries.get(i).map(|e| &e.key)
    }

    #[inline]
    pub fn insert_hashed_unique_unchecked(&mut self, key: Hashed<K>, value: V) {
        let hash = key.hash();
        let at = self.entries.len();
        self.entries.push(Bucket {
            key: key.into_key(),
            value,
            hash,
        });
        if let Some(index) = &mut self.index {
            let entries = &self.entries;
            index.insert_unique(hash.promote(), at, |&i| entries[i].hash.promote());
        } else if NO_INDEX_THRESHOLD < self.entries.len() {
            self.make_index();
        }
    }

    #[cold]
    fn make_index(&mut self) {
        let mut index = HashTable::with_capacity(self.entries.len());
        for (i, e) in self.entries.iter().enumerate() {
            index.insert_unique(e.hash.promote(), i, |&i| self.entries[i].hash.promote());
        }
        self.index = Some(Box::new(index));
    }
}

impl<K: PartialEq, V> SmallMap<K, V> {
    #[inline]
    fn position(&self, hash: StarlarkHashValue, key: &K) -> Option<usize> {
        match &self.index {
            None => self
                .entries
                .iter()
                .position(|e| e.hash == hash && e.key == *key),
            Some(index) => index
                .find(hash.promote(), |&i| self.entries[i].key == *key)
                .copied(),
        }
    }

    pub fn get_hashed(&self, key: Hashed<&K>) -> Option<&V> {
        let i = self.position(key.hash(), key.key())?;
        Some(&self.entries[i].value)
    }

    // The value that stood under the key.
    #[inline]
    pub fn insert_hashed(&mut self, key: Hashed<K>, value: V) -> Option<V> {
        match self.position(key.hash(), key.key()) {
            Some(i) => Some(std::mem::replace(&mut self.entries[i].value, value)),
            None => {
                self.insert_hashed_unique_unchecked(key, value);
                None
            }
        }
    }
}

pub struct SmallSet<K>(SmallMap<K, ()>);

impl<K: PartialEq> SmallSet<K> {
    pub fn with_capacity(capacity: usize) -> Self {
        SmallSet(SmallMap::with_capacity(capacity))
    }

    // Was the key new?
    #[inline]
    pub fn insert_hashed(&mut self, key: Hashed<K>) -> bool {
        self.0.insert_hashed(key, ()).is_none()
    }
}
