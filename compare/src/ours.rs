// Our library, through its C boundary.
use crate::port::Answer;
use crate::port::Port;
use crate::port::Record;

use liuwdom::raw;
use liuwdom::records::{OUTPUT, PREPARED};

// Lends each part as a pointer and a length. The number handed back must be the answer's cell 0; if not, a number that none has stands
// there, which shows as a difference.
macro_rules! ask {
    ($name:ident($($part:expr),*) $(, $number:expr)* $(; $out:expr)?) => {{
        let mut answer: Answer = [u64::MAX; 8];
        let number = ask!(@call [$name] [] [$($part,)*] [$($number,)*] [$($out)?] answer);
        if number != answer[0] {
            answer[0] = u64::MAX - number;
        }
        answer
    }};
    (@call [$name:ident] [$($done:expr,)*] [$part:expr, $($rest:expr,)*] [$($number:expr,)*] [$($out:expr)?] $answer:ident) => {
        ask!(@call [$name] [$($done,)* $part.as_ptr(), $part.len(),] [$($rest,)*] [$($number,)*] [$($out)?] $answer)
    };
    (@call [$name:ident] [$($done:expr,)*] [] [$($number:expr,)*] [$out:expr] $answer:ident) => {
        unsafe { raw::$name($($done,)* $($number,)* $out.as_mut_ptr(), $out.len(), $answer.as_mut_ptr()) }
    };
    (@call [$name:ident] [$($done:expr,)*] [] [$($number:expr,)*] [] $answer:ident) => {
        unsafe { raw::$name($($done,)* $($number,)* $answer.as_mut_ptr()) }
    };
}

// What `bind` prints for two sheets.
pub fn bind(input: &[u8]) -> Vec<u8> {
    let mut out = vec![0; OUTPUT];
    let answer = ask!(liuwdom_bind(input); out);
    out.truncate(answer[4] as usize);
    out
}

pub struct Ours;

impl Port for Ours {
    fn collect(&mut self, s: Record, c: Record, board: &mut [u64]) -> Answer {
        ask!(liuwdom_collect(s.cells, s.area, c.cells, c.area); board)
    }

    fn collect_prepared(&mut self, s: Record, c: Record, board: &mut [u64]) -> Option<Answer> {
        let mut prepared = [0; PREPARED];
        let built = ask!(liuwdom_prepare(s.cells, s.area); prepared);
        Some(match built[0] {
            0 => ask!(liuwdom_bind_prepared(prepared, s.area, c.cells, c.area); board),
            _ => built,
        })
    }

    fn can_fill(&mut self, s: Record, c: Record) -> Answer {
        ask!(liuwdom_can_fill(s.cells, s.area, c.cells, c.area))
    }

    fn names_map(&mut self, c: Record, out: &mut [u64]) -> Answer {
        ask!(liuwdom_names_map(c.cells, c.area); out)
    }

    fn positions(&mut self, c: Record, out: &mut [u64]) -> Answer {
        ask!(liuwdom_positions(c.cells, c.area); out)
    }

    fn len(&mut self, c: Record) -> Answer {
        ask!(liuwdom_len(c.cells, c.area))
    }

    fn no_named_args(&mut self, c: Record) -> Answer {
        ask!(liuwdom_no_named_args(c.cells, c.area))
    }

    fn optional(&mut self, c: Record, numbers: (usize, usize), out: &mut [u64]) -> Answer {
        ask!(liuwdom_optional(c.cells, c.area), numbers.0, numbers.1; out)
    }

    fn positional(&mut self, c: Record, required: usize, out: &mut [u64]) -> Answer {
        ask!(liuwdom_positional(c.cells, c.area), required; out)
    }

    fn parameters_str(&mut self, s: Record, out: &mut [u8]) -> Answer {
        ask!(liuwdom_parameters_str(s.cells, s.area); out)
    }

    fn lookup(&mut self, s: Record, name: &[u8]) -> Answer {
        ask!(liuwdom_lookup(s.cells, s.area, name))
    }

    fn read_next(&mut self, slots: &[u64], at: usize) -> Answer {
        ask!(liuwdom_read_next(slots), at)
    }

    fn read_next_opt(&mut self, slots: &[u64], at: usize) -> Answer {
        ask!(liuwdom_read_next_opt(slots), at)
    }

    fn read_is_eof(&mut self, slots: &[u64], at: usize) -> bool {
        unsafe { raw::liuwdom_read_is_eof(slots.as_ptr(), slots.len(), at) }
    }
}
