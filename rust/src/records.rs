//! The library over cells and bytes as they are: nothing is encoded, nothing is allocated, nothing is asked of the caller.
//!
//! Records, boards and payloads are laid out as document 01 says. A refusal changes nothing that was lent.
//!
//! ```
//! use liuwdom::records::{collect_cells, BOARD};
//!
//! // def f(a, /): the area holds both names; the call gives 7
//! let spec = b"fa";
//! let spec_cells = [1, 1, 256 + 1, 0, 0, 4, 0, 0, 0];
//! let call_cells = [1, 0, 0, 0, 0, 0, 3, 7];
//! let mut board = [0; BOARD];
//! let counts = collect_cells(&spec_cells, spec, &call_cells, b"", &mut board).unwrap();
//! assert_eq!(counts.taken, 1);
//! assert_eq!(board[..2], [3, 7]);
//!
//! // none given: 20, and the parameter's name is the second byte of the spec area
//! let refused = collect_cells(&spec_cells, spec, &[0; 6], b"", &mut board).unwrap_err();
//! assert_eq!(refused.number, 20);
//! assert_eq!(refused.name.unwrap().bytes(spec, b""), b"a");
//! ```

use crate::raw;

/// Cells of an answer.
pub const ANSWER: usize = 8;
/// Cells that a board needs at least.
pub const BOARD: usize = 896;
/// Cells that a prepared list needs at most, and its output at least.
pub const PREPARED: usize = 386;
/// Bytes that the output for a printed list needs at least.
pub const PRINTED: usize = 8_192;
/// Bytes that the output for sheets needs at least.
pub const OUTPUT: usize = 40_960;
/// Cells of the longest parameter record, which its output needs at least.
pub const SPEC_CELLS: usize = 265;
/// Cells of the longest call record, which its output needs at least.
pub const CALL_CELLS: usize = 774;
/// Bytes that the output for the texts of a sheet needs at least.
pub const TEXTS: usize = 16_384;

/// Runs that a list of minutes may have.
pub const RUNS: usize = 4_096;
/// Runs that a window over them may have.
pub const WINDOW: u64 = 1_440;

/// Cells before the arguments of a call record.
pub const HEAD: usize = 6;
/// Cells of a value, of a slot.
pub const VALUE: usize = 2;
/// Cells of a name or key and its value.
pub const PAIR: usize = 4;

/// The kinds of values.
pub mod kind {
    pub const NOTHING: u64 = 1;
    pub const FLAG: u64 = 2;
    pub const WHOLE: u64 = 3;
    pub const REAL: u64 = 4;
    pub const SPEC_TEXT: u64 = 5;
    pub const CALL_TEXT: u64 = 6;
    pub const HANDLE: u64 = 7;
    /// In a slot: the star remainder's count.
    pub const ARGS: u64 = 8;
    /// In a slot: the named remainder's count.
    pub const KWARGS: u64 = 9;
}

/// The number for cells that are no prepared list; the library's own.
pub const NOT_PREPARED: u64 = 100;
/// The number for an output that is too short for any answer; the library's own.
pub const NO_ROOM: u64 = 101;

/// A parameter list or a call, as cells and the area that holds its texts.
#[derive(Clone, Debug, Default, PartialEq, Eq)]
pub struct Record {
    pub cells: Vec<u64>,
    pub area: Vec<u8>,
}

/// What an accepted collection counts.
#[derive(Clone, Copy, Debug, Default, PartialEq, Eq)]
pub struct Counts {
    /// Slots filled from the call.
    pub taken: usize,
    /// Slots filled from defaults.
    pub defaulted: usize,
    /// Positionals left for `*args`.
    pub star: usize,
    /// Names left for `**kwargs`.
    pub named: usize,
}

/// The area that a name stands in.
#[derive(Clone, Copy, Debug, PartialEq, Eq)]
pub enum Area {
    Spec,
    Call,
}

/// Where the name of a detail stands.
#[derive(Clone, Copy, Debug, PartialEq, Eq)]
pub struct Place {
    pub area: Area,
    pub start: usize,
    pub length: usize,
}

impl Place {
    /// Its bytes, out of the areas that were lent when it was told; of other areas perhaps none.
    pub fn bytes<'a>(&self, spec: &'a [u8], call: &'a [u8]) -> &'a [u8] {
        let area = match self.area {
            Area::Spec => spec,
            Area::Call => call,
        };
        area.get(self.start..self.start + self.length)
            .unwrap_or_default()
    }
}

/// A refusal as the answer's cells tell it.
#[derive(Clone, Copy, Debug, PartialEq, Eq)]
pub struct RawRefusal {
    /// 1 to 30 as in document 01 (8 is retired), 39 as in document 02, [`NOT_PREPARED`] or [`NO_ROOM`].
    pub number: u64,
    pub name: Option<Place>,
    /// The detail's numbers: the count of 23 and 24; least, most and got of 26; for 27 and 28 the third is where the reader stands; the line of
    /// 30.
    pub values: [u64; 4],
}

fn told(answer: [u64; ANSWER]) -> Result<[u64; 4], RawRefusal> {
    let [number, area, start, length, values @ ..] = answer;
    if number == 0 {
        return Ok(values);
    }
    let place = |area| Place {
        area,
        start: start as usize,
        length: length as usize,
    };
    let name = match area {
        1 => Some(place(Area::Spec)),
        2 => Some(place(Area::Call)),
        _ => None,
    };
    Err(RawRefusal {
        number,
        name,
        values,
    })
}

// One call over the boundary: what is lent to read, then numbers, then what is lent to write.
macro_rules! ask {
    ($function:ident($($lent:expr),*; $($number:expr),*; $($out:expr),*)) => {{
        let mut answer = [0; ANSWER];
        // SAFETY: a slice is good for its length, and one that is borrowed to be written overlaps nothing else.
        unsafe {
            raw::$function(
                $($lent.as_ptr(), $lent.len(),)*
                $($number,)*
                $($out.as_mut_ptr(), $out.len(),)*
                answer.as_mut_ptr(),
            )
        };
        told(answer)
    }};
}

fn counts([taken, defaulted, star, named]: [u64; 4]) -> Counts {
    Counts {
        taken: taken as usize,
        defaulted: defaulted as usize,
        star: star as usize,
        named: named as usize,
    }
}

fn number(values: [u64; 4]) -> usize {
    values[0] as usize
}

// An index or a position, where there is one.
fn found(values: [u64; 4]) -> Option<usize> {
    (values[0] != 0).then_some(values[1] as usize)
}

/// Collects a call into a board.
pub fn collect_cells(
    spec_cells: &[u64],
    spec: &[u8],
    call_cells: &[u64],
    call: &[u8],
    board: &mut [u64],
) -> Result<Counts, RawRefusal> {
    ask!(liuwdom_collect(spec_cells, spec, call_cells, call; ; board)).map(counts)
}

/// Whether the written arguments of a call fill a parameter list.
pub fn can_fill_cells(
    spec_cells: &[u64],
    spec: &[u8],
    call_cells: &[u64],
    call: &[u8],
) -> Result<bool, RawRefusal> {
    ask!(liuwdom_can_fill(spec_cells, spec, call_cells, call; ;)).map(|values| values[0] != 0)
}

/// Prepares a parameter list for many calls, and says how many cells it took.
pub fn prepare_cells(
    spec_cells: &[u64],
    spec: &[u8],
    prepared: &mut [u64],
) -> Result<usize, RawRefusal> {
    ask!(liuwdom_prepare(spec_cells, spec; ; prepared)).map(number)
}

/// Collects a call against a prepared list. `spec` is the area that the list was prepared over.
pub fn bind_prepared_cells(
    prepared: &[u64],
    spec: &[u8],
    call_cells: &[u64],
    call: &[u8],
    board: &mut [u64],
) -> Result<Counts, RawRefusal> {
    ask!(liuwdom_bind_prepared(prepared, spec, call_cells, call; ; board)).map(counts)
}

/// The index of the parameter that can be named so.
pub fn lookup_cells(
    spec_cells: &[u64],
    spec: &[u8],
    name: &[u8],
) -> Result<Option<usize>, RawRefusal> {
    ask!(liuwdom_lookup(spec_cells, spec, name; ;)).map(found)
}

/// Writes the written names and then the entries, and says how many.
pub fn names_map_cells(
    call_cells: &[u64],
    call: &[u8],
    out: &mut [u64],
) -> Result<usize, RawRefusal> {
    ask!(liuwdom_names_map(call_cells, call; ; out)).map(number)
}

/// Writes the written positionals and then the star items, and says how many.
pub fn positions_cells(
    call_cells: &[u64],
    call: &[u8],
    out: &mut [u64],
) -> Result<usize, RawRefusal> {
    ask!(liuwdom_positions(call_cells, call; ; out)).map(number)
}

/// How many arguments a call has.
pub fn len_cells(call_cells: &[u64], call: &[u8]) -> Result<usize, RawRefusal> {
    ask!(liuwdom_len(call_cells, call; ;)).map(number)
}

/// Refuses a call with names.
pub fn no_named_args_cells(call_cells: &[u64], call: &[u8]) -> Result<(), RawRefusal> {
    ask!(liuwdom_no_named_args(call_cells, call; ;)).map(|_| ())
}

/// Writes `required` + `optional` positionals, 0 and 0 for those not given, and says how many were given.
pub fn optional_cells(
    call_cells: &[u64],
    call: &[u8],
    required: usize,
    optional: usize,
    out: &mut [u64],
) -> Result<usize, RawRefusal> {
    ask!(liuwdom_optional(call_cells, call; required, optional; out)).map(number)
}

/// Writes just `required` positionals.
pub fn positional_cells(
    call_cells: &[u64],
    call: &[u8],
    required: usize,
    out: &mut [u64],
) -> Result<usize, RawRefusal> {
    ask!(liuwdom_positional(call_cells, call; required; out)).map(number)
}

/// Prints a parameter list, and says how many bytes that took.
pub fn parameters_str_cells(
    spec_cells: &[u64],
    spec: &[u8],
    out: &mut [u8],
) -> Result<usize, RawRefusal> {
    ask!(liuwdom_parameters_str(spec_cells, spec; ; out)).map(number)
}

/// Reads two sheets and prints how the call binds, and says how many bytes that took.
pub fn bind_bytes(input: &[u8], out: &mut [u8]) -> Result<usize, RawRefusal> {
    ask!(liuwdom_bind(input; ; out)).map(number)
}

/// How many cells and bytes the records of two sheets take.
#[derive(Clone, Copy, Debug, PartialEq, Eq)]
pub struct Lengths {
    pub spec_cells: usize,
    pub spec: usize,
    pub call_cells: usize,
    pub call: usize,
}

/// Reads two sheets into both records and the areas of their texts, and says how long each is (30).
pub fn read_sheets_bytes(
    input: &[u8],
    spec_cells: &mut [u64],
    spec: &mut [u8],
    call_cells: &mut [u64],
    call: &mut [u8],
) -> Result<Lengths, RawRefusal> {
    let lengths = ask!(liuwdom_read_sheets(input; ; spec_cells, spec, call_cells, call))?;
    let [spec_cells, spec, call_cells, call] = lengths.map(|length| length as usize);
    Ok(Lengths {
        spec_cells,
        spec,
        call_cells,
        call,
    })
}

/// Two cells of a slot.
#[derive(Clone, Copy, Debug, PartialEq, Eq)]
pub struct Pair {
    pub kind: u64,
    pub payload: u64,
}

/// A read, and where the reader stands after it, refused or not.
#[derive(Clone, Copy, Debug, PartialEq, Eq)]
pub struct Read {
    /// `None` where the slot is empty.
    pub next: Result<Option<Pair>, RawRefusal>,
    pub after: usize,
}

fn read(told: Result<[u64; 4], RawRefusal>) -> Read {
    let [kind, payload, after, _] = match told {
        Ok(values) => values,
        Err(refused) => refused.values,
    };
    Read {
        next: told.map(|_| (kind != 0).then_some(Pair { kind, payload })),
        after: after as usize,
    }
}

/// Reads the slot at a position, which must be filled (27, 28).
pub fn read_next_cells(slots: &[u64], at: usize) -> Read {
    read(ask!(liuwdom_read_next(slots; at;)))
}

/// Reads the slot at a position, filled or not (27).
pub fn read_next_opt_cells(slots: &[u64], at: usize) -> Read {
    read(ask!(liuwdom_read_next_opt(slots; at;)))
}

/// Whether no slot is left at a position.
pub fn read_is_eof_cells(slots: &[u64], at: usize) -> bool {
    // SAFETY: a slice is good for its length.
    unsafe { raw::liuwdom_read_is_eof(slots.as_ptr(), slots.len(), at) }
}

/// The first position at which the minutes of the last `w` runs exceed a limit (39).
pub fn window_minutes(minutes: &[u32], w: u64, limit: u64) -> Result<Option<usize>, RawRefusal> {
    ask!(liuwdom_window(minutes; w, limit;)).map(found)
}
