// Stand-in, ours, for starlark_map's hashes: 32 bits, computed once for each text and kept beside it. Which number a text gets is not the
// original's and can't be seen in an answer.
use std::hash::Hash;
use std::hash::Hasher;

#[derive(Debug, Clone, Copy, PartialEq, Eq)]
pub struct StarlarkHashValue(u32);

impl StarlarkHashValue {
    #[inline]
    pub const fn new_unchecked(hash: u32) -> Self {
        StarlarkHashValue(hash)
    }

    #[inline]
    pub const fn get(self) -> u32 {
        self.0
    }

    // 64 bits whose high and low ends both differ, for the hash table.
    #[inline]
    pub const fn promote(self) -> u64 {
        (self.0 as u64).wrapping_mul(0x9e37_79b9_7f4a_7c15)
    }
}

// The hash that rustc uses for its own tables: a rotation, a sum without carry and a product for each word.
#[derive(Default)]
pub struct StarlarkHasher(u64);

impl StarlarkHasher {
    #[inline]
    fn word(&mut self, w: u64) {
        self.0 = (self.0.rotate_left(5) ^ w).wrapping_mul(0x517c_c1b7_2722_0a95);
    }

    #[inline]
    pub fn finish_small(&self) -> StarlarkHashValue {
        StarlarkHashValue((self.0 >> 32) as u32 ^ self.0 as u32)
    }
}

impl Hasher for StarlarkHasher {
    #[inline]
    fn write(&mut self, bytes: &[u8]) {
        let mut words = bytes.chunks_exact(8);
        for w in &mut words {
            self.word(u64::from_le_bytes(w.try_into().unwrap()));
        }
        for &b in words.remainder() {
            self.word(b as u64);
        }
    }

    #[inline]
    fn write_u8(&mut self, b: u8) {
        self.word(b as u64);
    }

    #[inline]
    fn write_u64(&mut self, w: u64) {
        self.word(w);
    }

    #[inline]
    fn finish(&self) -> u64 {
        self.0
    }
}

pub fn hash_of<K: Hash + ?Sized>(key: &K) -> StarlarkHashValue {
    let mut hasher = StarlarkHasher::default();
    key.hash(&mut hasher);
    hasher.finish_small()
}

// A key beside its hash.
#[derive(Debug, Clone, Copy)]
pub struct Hashed<K> {
    hash: StarlarkHashValue,
    key: K,
}

impl<K> Hashed<K> {
    #[inline]
    pub fn new(key: K) -> Self
    where
        K: Hash,
    {
        Hashed {
            hash: hash_of(&key),
            key,
        }
    }

    #[inline]
    pub const fn new_unchecked(hash: StarlarkHashValue, key: K) -> Self {
        Hashed { hash, key }
    }

    #[inline]
    pub fn key(&self) -> &K {
        &self.key
    }

    #[inline]
    pub fn into_key(self) -> K {
        self.key
    }

    #[inline]
    pub fn hash(&self) -> StarlarkHashValue {
        self.hash
    }
}

impl<K: Copy> Hashed<&K> {
    #[inline]
    pub fn copied(self) -> Hashed<K> {
        Hashed {
            hash: self.hash,
            key: *self.key,
        }
    }
}
