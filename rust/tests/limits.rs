//! Limits: 64 and 65 parameters, 66 and 67 steps, names of 64 and 65 bytes, boards of 895 and 896 cells; long texts; what a refusal leaves.

use liuwdom::records::{self, Lengths, RawRefusal, Record};
use liuwdom::records::{BOARD, CALL_CELLS, OUTPUT, PRINTED, SPEC_CELLS, TEXTS};
use liuwdom::{collect, sheet, Bound, Call, Refusal, Signature};

fn numbered(list: Signature, names: std::ops::Range<usize>) -> Signature {
    names.fold(list, |list, index| list.optional(format!("p{index}")))
}

fn parameters(count: usize) -> Signature {
    numbered(Signature::new("f"), 0..count)
}

fn bound(list: &Signature) -> Result<Bound, Refusal> {
    collect(list, &Call::new())
}

#[test]
fn parameters_64_and_65() {
    assert_eq!(bound(&parameters(64)).unwrap().slots.len(), 64);
    assert_eq!(bound(&parameters(65)), Err(Refusal::TooManyParameters));
    let remainders = parameters(63).args().kwargs();
    assert_eq!(bound(&remainders), Err(Refusal::TooManyParameters));
}

#[test]
fn steps_66_and_67() {
    let marked = parameters(40).slash().star();
    assert!(bound(&numbered(marked.clone(), 40..64)).is_ok());
    let long = numbered(marked, 40..65);
    assert_eq!(bound(&long), Err(Refusal::TooManySteps));
}

#[test]
fn names_64_and_65() {
    let named = |length| Signature::new("f").slash().optional("n".repeat(length));
    let call = Call::new().named("n".repeat(64), 7);
    assert_eq!(collect(&named(64), &call).unwrap().counts.taken, 1);
    assert_eq!(bound(&named(65)), Err(Refusal::BadName));
    let call = Call::new().named("n".repeat(65), 7);
    assert_eq!(collect(&named(64), &call), Err(Refusal::BadArgument));
    assert_eq!(bound(&Signature::new("")), Err(Refusal::BadName));
}

#[test]
fn arguments_64_and_65() {
    let list = Signature::new("f").args().kwargs();
    let all = Call::new().items(0..64);
    let all = (0..64).fold(all, |call, index| call.positional(index));
    assert_eq!(collect(&list, &all).unwrap().star.len(), 128);
    let more = all.positional(64);
    assert_eq!(collect(&list, &more), Err(Refusal::TooManyArguments));
}

// None of these panics: each is refused as 01 says.
#[test]
fn texts_of_any_length() {
    for length in [65, 255, 256, 65_536, 1_000_000] {
        let text = "t".repeat(length);
        let named = Signature::new("f").required(&text);
        assert_eq!(bound(&named), Err(Refusal::BadName));
        let defaulted = Signature::new("f").defaulted("a", text.as_str());
        assert_eq!(bound(&defaulted), Err(Refusal::BadDefault));
        let list = Signature::new("f").args().kwargs();
        let calls = [
            Call::new().positional(text.as_str()),
            Call::new().items([text.as_str()]),
            Call::new().named(&text, 1),
            Call::new().entries([(&text, 1)]),
        ];
        for call in calls {
            assert_eq!(collect(&list, &call), Err(Refusal::BadArgument));
        }
        assert_eq!(list.lookup(&text), Ok(None));
    }
}

#[test]
fn more_texts_than_an_area_holds() {
    let text = "t".repeat(64);
    let list = Signature::new("f").args();
    let call = Call::new().items(vec![text.as_str(); 2_000]);
    assert_eq!(collect(&list, &call), Err(Refusal::TooManyArguments));
    let long = (0..2_000).fold(list, |list, _| list.defaulted(&text, text.as_str()));
    assert_eq!(bound(&long), Err(Refusal::TooManySteps));
}

fn one_value() -> (Record, Record) {
    let list = Signature::new("f").required("a");
    (list.record(), Call::new().positional(7).record())
}

#[test]
fn boards_895_and_896() {
    let (spec, call) = one_value();
    let mut board = vec![5; BOARD];
    let collect = |board: &mut [u64]| {
        records::collect_cells(&spec.cells, &spec.area, &call.cells, &call.area, board)
    };
    assert_eq!(collect(&mut board[..895]).unwrap_err().number, 14);
    assert_eq!(board, [5; BOARD]);
    assert_eq!(collect(&mut board).unwrap().taken, 1);
    assert_eq!(board[..2], [3, 7]);
    assert_eq!(board[2..], [5; BOARD - 2]);
}

#[test]
fn a_refusal_leaves_the_board() {
    let (spec, _) = one_value();
    let calls = [
        Call::new(),
        Call::new().positional(1).positional(2),
        Call::new().positional(1).named("a", 2),
    ];
    for call in calls {
        let call = call.record();
        let mut board: Vec<u64> = (0..BOARD as u64).collect();
        let ended =
            records::collect_cells(&spec.cells, &spec.area, &call.cells, &call.area, &mut board);
        assert!(ended.is_err());
        assert!(board.into_iter().eq(0..BOARD as u64));
    }
}

#[test]
fn outputs_that_are_too_short_are_left() {
    let (spec, _) = one_value();
    let mut out = vec![5; OUTPUT];
    let refused = records::parameters_str_cells(&spec.cells, &spec.area, &mut out[..PRINTED - 1]);
    assert_eq!(refused.unwrap_err().number, 29);
    let refused = records::bind_bytes(b"", &mut out[..OUTPUT - 1]);
    assert_eq!(refused.unwrap_err().number, records::NO_ROOM);
    assert_eq!(out, [5; OUTPUT]);
}

// Cells that no signature or call gives.
#[test]
fn cells_may_hold_anything() {
    let mut board = vec![0; BOARD];
    let mut number = |spec_cells: &[u64], call_cells: &[u64]| {
        records::collect_cells(spec_cells, b"fa", call_cells, b"", &mut board)
            .map_err(|refused| refused.number)
            .map(|counts| counts.taken)
    };
    let none = [0; 6];
    let max = u64::MAX;
    assert_eq!(number(&[], &none), Err(1));
    assert_eq!(number(&[1, 8, 0, 0, 0], &none), Err(2));
    assert_eq!(number(&[max], &none), Err(3));
    assert_eq!(number(&[1, 3, 257, max, max], &none), Err(4));
    assert_eq!(number(&[1, 7, 0, 0, 0, 1, 257, 0, 0], &none), Err(5));
    assert_eq!(number(&[1], &[max; 6]), Err(9));
    assert_eq!(number(&[1], &[0, 0, 3, 0, 0, 0]), Err(10));
    assert_eq!(number(&[1], &[1, 0, 0, 0, 0, 0, 5, 1]), Err(11));
    assert_eq!(number(&[1], &none), Ok(0));
}

const SHEETS: &[u8] = b"part,name,value\ndef,f,\nrequired,a,\n\npart,name,value\npos,,sB3\n";

// Four outputs of these lengths with no zero in them, and what reading sheets leaves there.
struct Outputs {
    spec_cells: Vec<u64>,
    spec: Vec<u8>,
    call_cells: Vec<u64>,
    call: Vec<u8>,
}

impl Outputs {
    fn new([spec_cells, spec, call_cells, call]: [usize; 4]) -> Outputs {
        Outputs {
            spec_cells: vec![7; spec_cells],
            spec: vec![7; spec],
            call_cells: vec![7; call_cells],
            call: vec![7; call],
        }
    }

    fn read(&mut self, input: &[u8]) -> Result<Lengths, RawRefusal> {
        records::read_sheets_bytes(
            input,
            &mut self.spec_cells,
            &mut self.spec,
            &mut self.call_cells,
            &mut self.call,
        )
    }

    fn are_left(&self) -> bool {
        self.spec_cells
            .iter()
            .chain(&self.call_cells)
            .all(|&cell| cell == 7)
            && self.spec.iter().chain(&self.call).all(|&byte| byte == 7)
    }
}

const ROOM: [usize; 4] = [SPEC_CELLS, TEXTS, CALL_CELLS, TEXTS];

#[test]
fn records_are_written_from_the_first_cell_and_byte_on() {
    let mut outputs = Outputs::new(ROOM);
    let lengths = outputs.read(SHEETS).unwrap();
    assert_eq!((lengths.spec_cells, lengths.spec), (5, 2));
    assert_eq!((lengths.call_cells, lengths.call), (8, 2));
    assert_eq!(outputs.spec_cells[..6], [1, 1, 256 + 1, 0, 0, 7]);
    assert_eq!(outputs.spec[..3], *b"fa\x07");
    assert_eq!(outputs.call_cells[..9], [1, 0, 0, 0, 0, 0, 6, 2, 7]);
    assert_eq!(outputs.call[..3], *b"B3\x07");
}

#[test]
fn outputs_of_records_that_are_too_short_are_left() {
    for short in 0..ROOM.len() {
        let mut lengths = ROOM;
        lengths[short] -= 1;
        let mut outputs = Outputs::new(lengths);
        // Asked before the sheets are looked at.
        for input in [SHEETS, b""] {
            assert_eq!(outputs.read(input).unwrap_err().number, records::NO_ROOM);
            assert!(outputs.are_left());
        }
    }
}

#[test]
fn a_bad_sheet_leaves_the_outputs_of_records() {
    let mut outputs = Outputs::new(ROOM);
    let last = [SHEETS, b"pos,,400\n"].concat();
    let refused = outputs.read(&last).unwrap_err();
    assert_eq!((refused.number, refused.values[0]), (30, 7));
    assert!(outputs.are_left());
    assert_eq!(sheet::read(&last), Err(Refusal::BadSheet { line: 7 }));
}

// Cells that are no record are none, and no cells make reading them panic.
#[test]
fn cells_are_read_as_records_or_as_nothing() {
    let (spec, call) = sheet::read_records(SHEETS).unwrap();
    assert_eq!(
        Signature::from_record(&spec),
        Some(Signature::new("f").required("a"))
    );
    assert_eq!(Call::from_record(&call), Some(Call::new().positional("B3")));
    let cells = spec.cells[..4].to_vec();
    let area = spec.area.clone();
    assert_eq!(Signature::from_record(&Record { cells, area }), None);
    for record in [&spec, &call] {
        for place in 0..record.cells.len() {
            for cell in [0, 2, 5, 64, 65_536, u64::MAX / 2, u64::MAX] {
                let mut other = record.clone();
                other.cells[place] = cell;
                let _ = (Signature::from_record(&other), Call::from_record(&other));
            }
            let cells = record.cells[..place].to_vec();
            let area = record.area.clone();
            assert_eq!(Call::from_record(&Record { cells, area }), None);
        }
    }
}
