// Stand-in, ours, for starlark's `Symbol` and `AlignedPaddedStr`: a text in whole words, the last one filled up with zeros, beside its hash.
// Two of them are compared length first, then word by word.
use crate::standin::hashing::hash_of;
use crate::standin::hashing::StarlarkHashValue;
use crate::standin::marks::Coerce;
use std::fmt;
use std::fmt::Debug;

const WORD: usize = size_of::<usize>();

#[inline]
pub fn words_for(len: usize) -> usize {
    len.div_ceil(WORD)
}

// The bytes of a text put into words.
pub fn fill_words(text: &str, words: &mut [usize]) {
    for (word, bytes) in words.iter_mut().zip(text.as_bytes().chunks(WORD)) {
        let mut padded = [0; WORD];
        padded[..bytes.len()].copy_from_slice(bytes);
        *word = usize::from_ne_bytes(padded);
    }
}

#[derive(Clone, Copy, PartialEq, Eq)]
pub struct AlignedPaddedStr<'a> {
    len: usize,
    words: &'a [usize],
}

impl<'a> AlignedPaddedStr<'a> {
    #[inline]
    pub fn new(len: usize, words: &'a [usize]) -> Self {
        AlignedPaddedStr { len, words }
    }

    #[inline]
    pub fn as_str(self) -> &'a str {
        // The words were filled from a `str` of this length.
        unsafe {
            let bytes = std::slice::from_raw_parts(self.words.as_ptr() as *const u8, self.len);
            std::str::from_utf8_unchecked(bytes)
        }
    }
}

#[derive(Clone)]
pub struct Symbol {
    hash: u64,
    len: u32,
    small_hash: StarlarkHashValue,
    words: Box<[usize]>,
}

impl Symbol {
    pub fn new(text: &str) -> Self {
        Self::new_hashed(text, hash_of(text))
    }

    fn new_hashed(text: &str, small_hash: StarlarkHashValue) -> Self {
        let mut words = vec![0; words_for(text.len())].into_boxed_slice();
        fill_words(text, &mut words);
        Symbol {
            hash: small_hash.promote(),
            len: text.len() as u32,
            small_hash,
            words,
        }
    }

    #[inline]
    pub fn hash(&self) -> u64 {
        self.hash
    }

    #[inline]
    pub fn small_hash(&self) -> StarlarkHashValue {
        self.small_hash
    }

    #[inline]
    pub fn as_aligned_padded_str(&self) -> AlignedPaddedStr<'_> {
        AlignedPaddedStr::new(self.len as usize, &self.words)
    }

    #[inline]
    pub fn as_str(&self) -> &str {
        self.as_aligned_padded_str().as_str()
    }
}

impl PartialEq for Symbol {
    #[inline]
    fn eq(&self, other: &Self) -> bool {
        self.hash == other.hash && self.as_aligned_padded_str() == other.as_aligned_padded_str()
    }
}

impl Eq for Symbol {}

impl Debug for Symbol {
    fn fmt(&self, f: &mut fmt::Formatter<'_>) -> fmt::Result {
        f.write_str(self.as_str())
    }
}

unsafe impl Coerce<Symbol> for Symbol {}
