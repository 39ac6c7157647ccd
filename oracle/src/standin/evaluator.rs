// Stand-in, ours, for the evaluator: the heap, and room for slots that is kept from call to call, as the original's alloca does.
use crate::standin::heap::Heap;
use std::marker::PhantomData;

const ROOM: usize = 4096;

pub struct Evaluator<'v, 'a, 'e> {
    heap: Heap<'v>,
    room: Box<[u64; ROOM]>,
    taken: usize,
    lives: PhantomData<(&'a (), &'e ())>,
}

// What is taken of the room is given back, however the callback ends.
struct Given<'s, 'v, 'a, 'e> {
    eval: &'s mut Evaluator<'v, 'a, 'e>,
    taken: usize,
}

impl Drop for Given<'_, '_, '_, '_> {
    fn drop(&mut self) {
        self.eval.taken = self.taken;
    }
}

impl<'v> Evaluator<'v, '_, '_> {
    pub fn new(heap: Heap<'v>) -> Self {
        Evaluator {
            heap,
            room: Box::new([0; ROOM]),
            taken: 0,
            lives: PhantomData,
        }
    }

    #[inline]
    pub fn heap(&self) -> Heap<'v> {
        self.heap
    }

    #[inline(always)]
    pub fn alloca_init<T, R, F>(&mut self, len: usize, init: impl Fn() -> T, k: F) -> R
    where
        F: FnOnce(&mut [T], &mut Self) -> R,
    {
        let words = (len * size_of::<T>()).div_ceil(8);
        if ROOM - self.taken < words || 8 < align_of::<T>() || std::mem::needs_drop::<T>() {
            let mut xs: Vec<T> = (0..len).map(|_| init()).collect();
            return k(&mut xs, self);
        }
        let taken = self.taken;
        let at = self.room[taken..].as_mut_ptr() as *mut T;
        // So many words are left, aligned well enough, and nothing else uses them until they are given back.
        let xs = unsafe {
            (0..len).for_each(|i| at.add(i).write(init()));
            std::slice::from_raw_parts_mut(at, len)
        };
        self.taken = taken + words;
        let given = Given { eval: self, taken };
        k(xs, given.eval)
    }
}
