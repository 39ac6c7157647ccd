// Stand-in, ours: the small things that the published bodies name from elsewhere: casts between types of one layout, a hint for the
// compiler, and `Either`.

/// A type that has the layout of another, as starlark's `Coerce` says it.
///
/// # Safety
/// The two types have the same layout, and a value of one is a value of the other.
pub unsafe trait Coerce<To: ?Sized> {}

#[inline]
pub fn coerce<From: Coerce<To>, To>(x: From) -> To {
    assert_eq!(size_of::<From>(), size_of::<To>());
    let x = std::mem::ManuallyDrop::new(x);
    // By the promise of `Coerce`.
    unsafe { std::mem::transmute_copy::<std::mem::ManuallyDrop<From>, To>(&x) }
}

macro_rules! transmute {
    ($from:ty, $to:ty, $e:expr) => {
        std::mem::transmute::<$from, $to>($e)
    };
}
pub(crate) use transmute;

#[cold]
fn cold() {}

#[inline(always)]
pub fn unlikely(b: bool) -> bool {
    if b {
        cold();
    }
    b
}

pub enum Either<L, R> {
    Left(L),
    Right(R),
}

impl<T, L: Iterator<Item = T>, R: Iterator<Item = T>> Iterator for Either<L, R> {
    type Item = T;

    #[inline]
    fn next(&mut self) -> Option<T> {
        match self {
            Either::Left(l) => l.next(),
            Either::Right(r) => r.next(),
        }
    }
}
