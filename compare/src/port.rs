// The library's boundary as a trait, so that ours, the oracle and wrong versions of either can stand behind it. An answer is its eight cells:
// the number, the place of the name in a detail (area, start, length), four values.

pub type Answer = [u64; 8];

pub const SPEC_AREA: u64 = 1;
pub const CALL_AREA: u64 = 2;

#[derive(Debug, Clone, Copy)]
pub struct Record<'a> {
    pub cells: &'a [u64],
    pub area: &'a [u8],
}

pub trait Port {
    fn collect(&mut self, spec: Record, call: Record, board: &mut [u64]) -> Answer;
    // The same against a list that was prepared before; none where a port has no such way.
    fn collect_prepared(
        &mut self,
        _spec: Record,
        _call: Record,
        _board: &mut [u64],
    ) -> Option<Answer> {
        None
    }
    fn can_fill(&mut self, spec: Record, call: Record) -> Answer;
    fn names_map(&mut self, call: Record, out: &mut [u64]) -> Answer;
    fn positions(&mut self, call: Record, out: &mut [u64]) -> Answer;
    fn len(&mut self, call: Record) -> Answer;
    fn no_named_args(&mut self, call: Record) -> Answer;
    fn optional(&mut self, call: Record, numbers: (usize, usize), out: &mut [u64]) -> Answer;
    fn positional(&mut self, call: Record, required: usize, out: &mut [u64]) -> Answer;
    fn parameters_str(&mut self, spec: Record, out: &mut [u8]) -> Answer;
    fn lookup(&mut self, spec: Record, name: &[u8]) -> Answer;
    fn read_next(&mut self, slots: &[u64], at: usize) -> Answer;
    fn read_next_opt(&mut self, slots: &[u64], at: usize) -> Answer;
    fn read_is_eof(&mut self, slots: &[u64], at: usize) -> bool;
}

pub fn refused(number: u64) -> Answer {
    [number, 0, 0, 0, 0, 0, 0, 0]
}

pub fn answered(value: u64) -> Answer {
    [0, 0, 0, 0, value, 0, 0, 0]
}

// A refusal whose detail has a name and perhaps a count.
pub fn refused_name(number: u64, area: u64, payload: u64, count: u64) -> Answer {
    [number, area, payload >> 8, payload & 255, count, 0, 0, 0]
}
