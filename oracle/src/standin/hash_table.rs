// Stand-in, ours, for hashbrown's `HashTable`: open addressing over a power of two of places, a byte of the hash beside each place, so that
// most places that hold another key are passed without a look at it. Nothing is ever removed, and no order can be seen in an answer.

#[derive(Clone)]
pub struct HashTable<T> {
    // 0 where a place is free, else 128 and seven bits of the hash.
    tags: Vec<u8>,
    places: Vec<Option<T>>,
    len: usize,
}

#[inline]
fn tag_of(hash: u64) -> u8 {
    (hash >> 57) as u8 | 128
}

// Places for so many elements, at most seven eighths of them taken.
fn places_for(capacity: usize) -> usize {
    match capacity {
        0 => 0,
        1..=3 => 4,
        4..=7 => 8,
        n => (n * 8 / 7 + 1).next_power_of_two(),
    }
}

impl<T> HashTable<T> {
    pub fn with_capacity(capacity: usize) -> Self {
        Self::with_places(places_for(capacity))
    }

    fn with_places(n: usize) -> Self {
        HashTable {
            tags: vec![0; n],
            places: (0..n).map(|_| None).collect(),
            len: 0,
        }
    }

    #[inline]
    fn position(&self, hash: u64, mut eq: impl FnMut(&T) -> bool) -> Option<usize> {
        if self.tags.is_empty() {
            return None;
        }
        let mask = self.tags.len() - 1;
        let tag = tag_of(hash);
        let mut at = hash as usize & mask;
        loop {
            let here = self.tags[at];
            if here == 0 {
                return None;
            }
            if here == tag && self.places[at].as_ref().is_some_and(&mut eq) {
                return Some(at);
            }
            at = (at + 1) & mask;
        }
    }

    #[inline]
    pub fn find(&self, hash: u64, eq: impl FnMut(&T) -> bool) -> Option<&T> {
        let at = self.position(hash, eq)?;
        self.places[at].as_ref()
    }

    pub fn find_mut(&mut self, hash: u64, eq: impl FnMut(&T) -> bool) -> Option<&mut T> {
        let at = self.position(hash, eq)?;
        self.places[at].as_mut()
    }

    pub fn insert_unique(&mut self, hash: u64, value: T, hasher: impl Fn(&T) -> u64) {
        if self.tags.len() * 7 < (self.len + 1) * 8 {
            self.grow(hasher);
        }
        self.put(hash, value);
    }

    fn grow(&mut self, hasher: impl Fn(&T) -> u64) {
        let mut larger = Self::with_places((self.tags.len() * 2).max(4));
        for value in self.places.drain(..).flatten() {
            larger.put(hasher(&value), value);
        }
        *self = larger;
    }

    fn put(&mut self, hash: u64, value: T) {
        let mask = self.tags.len() - 1;
        let mut at = hash as usize & mask;
        while self.tags[at] != 0 {
            at = (at + 1) & mask;
        }
        self.tags[at] = tag_of(hash);
        self.places[at] = Some(value);
        self.len += 1;
    }

    pub fn len(&self) -> usize {
        self.len
    }

    pub fn is_empty(&self) -> bool {
        self.len == 0
    }

    pub fn iter(&self) -> Iter<'_, T> {
        Iter {
            places: self.places.iter(),
            left: self.len,
        }
    }
}

pub struct Iter<'a, T> {
    places: std::slice::Iter<'a, Option<T>>,
    left: usize,
}

impl<'a, T> Iterator for Iter<'a, T> {
    type Item = &'a T;

    fn next(&mut self) -> Option<&'a T> {
        let next = self.places.by_ref().flatten().next();
        self.left -= next.is_some() as usize;
        next
    }

    fn size_hint(&self) -> (usize, Option<usize>) {
        (self.left, Some(self.left))
    }
}

impl<T> ExactSizeIterator for Iter<'_, T> {}
