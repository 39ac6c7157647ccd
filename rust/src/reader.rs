//! The slot reader: one parameter at a time.

use crate::records::{self, Pair, Read};
use crate::refusal::Refusal;

/// Walks slot cells, as the Rust's `ParametersParser` does. Two cells are a slot; an odd last cell is none.
///
/// ```
/// use liuwdom::records::Pair;
/// use liuwdom::{Refusal, Slots};
///
/// let mut slots = Slots::new(&[3, 400, 0, 0, 0, 0]);
/// assert_eq!(slots.next(), Ok(Pair { kind: 3, payload: 400 }));
/// assert_eq!(slots.next_opt(), Ok(None));
/// assert_eq!(slots.next(), Err(Refusal::EmptySlot)); // and past it
/// assert!(slots.is_eof());
/// assert_eq!(slots.next_opt(), Err(Refusal::NoSlotLeft));
/// ```
#[derive(Clone, Copy, Debug)]
pub struct Slots<'a> {
    cells: &'a [u64],
    at: usize,
}

impl<'a> Slots<'a> {
    pub fn new(cells: &'a [u64]) -> Slots<'a> {
        Slots { cells, at: 0 }
    }

    /// A value that must be there (27, 28).
    // The Rust's own name; no iterator, for a read can be refused and the next one not.
    #[allow(clippy::should_implement_trait)]
    pub fn next(&mut self) -> Result<Pair, Refusal> {
        let read = records::read_next_cells(self.cells, self.at);
        self.step(read)?.ok_or(Refusal::EmptySlot)
    }

    /// A value that may be missing (27).
    pub fn next_opt(&mut self) -> Result<Option<Pair>, Refusal> {
        let read = records::read_next_opt_cells(self.cells, self.at);
        self.step(read)
    }

    /// Whether no slot is left.
    pub fn is_eof(&self) -> bool {
        records::read_is_eof_cells(self.cells, self.at)
    }

    fn step(&mut self, read: Read) -> Result<Option<Pair>, Refusal> {
        self.at = read.after;
        read.next.map_err(|refused| Refusal::of(refused, b"", b""))
    }
}
