// The comparison itself is tried: a right port shows no difference, and each wrong version of it is seen within a few thousand cases. The
// right port is the oracle, asked with one form of each star whatever the case's form is.
use compare::judge::Intended;
use compare::judge::Judge;
use compare::judge::Report;
use compare::order::expected;
use compare::port::refused;
use compare::port::Answer;
use compare::port::Port;
use compare::port::Record;
use compare::random::compare_random;
use compare::small::compare_small;
use compare::theirs::quiet_asserts;
use compare::theirs::Theirs;

const CASES: u64 = 3_000;

#[derive(Clone, Copy, PartialEq, Debug)]
enum Fault {
    None,
    DropsDefaults,
    MissingBeforeUnknown,
    UnknownBeforeEntries,
    IgnoresStar,
    TakenOneMore,
    NamedRemainderFirst,
    WritesOnRefusal,
    WritesBehindTheBoard,
    NameOneShort,
    NineteenForSixteen,
    FillsAlways,
    FindsPositionalOnly,
    MapsEntriesFirst,
    PositionsWithoutStar,
    LenWithoutEntries,
    NamesUnseen,
    OptionalKeepsTail,
    PrintsNoSlash,
    WritesBehindTheText,
    ReadsNothing,
    SwallowsAll,
    NeverAtEnd,
}

const FAULTS: [Fault; 22] = [
    Fault::DropsDefaults,
    Fault::MissingBeforeUnknown,
    Fault::UnknownBeforeEntries,
    Fault::IgnoresStar,
    Fault::TakenOneMore,
    Fault::NamedRemainderFirst,
    Fault::WritesOnRefusal,
    Fault::WritesBehindTheBoard,
    Fault::NameOneShort,
    Fault::NineteenForSixteen,
    Fault::FillsAlways,
    Fault::FindsPositionalOnly,
    Fault::MapsEntriesFirst,
    Fault::PositionsWithoutStar,
    Fault::LenWithoutEntries,
    Fault::NamesUnseen,
    Fault::OptionalKeepsTail,
    Fault::PrintsNoSlash,
    Fault::WritesBehindTheText,
    Fault::ReadsNothing,
    Fault::SwallowsAll,
    Fault::NeverAtEnd,
];

struct Wrong {
    right: Theirs,
    fault: Fault,
}

fn wrong(fault: Fault) -> Wrong {
    Wrong {
        right: Theirs::default(),
        fault,
    }
}

fn parameters<'a>(spec: Record<'a>) -> impl Iterator<Item = &'a [u64]> {
    let steps = spec.cells[1..].chunks_exact(4);
    steps.filter(|s| s[0] != 4 && s[0] != 5)
}

fn text(area: &[u8], payload: u64) -> &[u8] {
    &area[(payload >> 8) as usize..][..(payload & 255) as usize]
}

// The call without its star.
fn without_star(call: Record) -> Vec<u64> {
    let c = call.cells;
    let from = 6 + 2 * c[0] as usize + 4 * c[1] as usize;
    let mut cells = c[..from].to_vec();
    cells.extend(&c[from + 2 * c[3] as usize..]);
    (cells[2], cells[3]) = (0, 0);
    cells
}

impl Wrong {
    fn accepted(&self, spec: Record, answer: &mut Answer, board: &mut [u64]) {
        let count = parameters(spec).count();
        match self.fault {
            Fault::DropsDefaults => {
                for (i, p) in parameters(spec).enumerate() {
                    if p[0] == 3 && board[2 * i..2 * i + 2] == p[2..4] {
                        board[2 * i..2 * i + 2].fill(0);
                    }
                }
            }
            Fault::TakenOneMore => answer[4] += 1,
            Fault::NamedRemainderFirst => {
                let (star, named) = (2 * answer[6] as usize, 4 * answer[7] as usize);
                board[2 * count..2 * count + star + named].rotate_left(star);
            }
            Fault::WritesBehindTheBoard => {
                let end = 2 * count + 2 * answer[6] as usize + 4 * answer[7] as usize;
                if end < board.len() {
                    board[end] = 0;
                }
            }
            _ => {}
        }
    }

    fn refused(&self, spec: Record, call: Record, answer: &mut Answer, board: &mut [u64]) {
        match self.fault {
            Fault::WritesOnRefusal => board[0] ^= 1,
            Fault::NameOneShort if answer[1] != 0 => answer[3] = answer[3].saturating_sub(1),
            Fault::NineteenForSixteen if answer[0] == 16 => answer[0] = 19,
            // As if 20 had ended it: then an unknown name comes first.
            Fault::UnknownBeforeEntries if matches!(answer[0], 18 | 19) => {
                let told = expected(spec, call, refused(20));
                if told[0] == 24 {
                    *answer = told;
                }
            }
            _ => {}
        }
    }
}

impl Port for Wrong {
    fn collect(&mut self, spec: Record, call: Record, board: &mut [u64]) -> Answer {
        if self.fault == Fault::IgnoresStar {
            let cells = without_star(call);
            let area = call.area;
            return self.right.collect(
                spec,
                Record {
                    cells: &cells,
                    area,
                },
                board,
            );
        }
        let mut answer = match self.fault {
            Fault::MissingBeforeUnknown => self.right.published(spec, call, board),
            _ => self.right.collect(spec, call, board),
        };
        match answer[0] {
            0 => self.accepted(spec, &mut answer, board),
            _ => self.refused(spec, call, &mut answer, board),
        }
        answer
    }

    fn can_fill(&mut self, spec: Record, call: Record) -> Answer {
        let mut answer = self.right.can_fill(spec, call);
        if self.fault == Fault::FillsAlways && answer[0] == 0 {
            answer[4] = 1;
        }
        answer
    }

    fn names_map(&mut self, call: Record, out: &mut [u64]) -> Answer {
        let answer = self.right.names_map(call, out);
        if self.fault == Fault::MapsEntriesFirst && answer[0] == 0 {
            let written = 4 * call.cells[1] as usize;
            out[..4 * answer[4] as usize].rotate_left(written);
        }
        answer
    }

    fn positions(&mut self, call: Record, out: &mut [u64]) -> Answer {
        if self.fault == Fault::PositionsWithoutStar {
            let cells = without_star(call);
            let area = call.area;
            return self.right.positions(
                Record {
                    cells: &cells,
                    area,
                },
                out,
            );
        }
        self.right.positions(call, out)
    }

    fn len(&mut self, call: Record) -> Answer {
        let mut answer = self.right.len(call);
        if self.fault == Fault::LenWithoutEntries && answer[0] == 0 {
            answer[4] -= call.cells[5];
        }
        answer
    }

    fn no_named_args(&mut self, call: Record) -> Answer {
        let answer = self.right.no_named_args(call);
        match self.fault == Fault::NamesUnseen && answer[0] == 24 {
            true => [0; 8],
            false => answer,
        }
    }

    fn optional(&mut self, call: Record, numbers: (usize, usize), out: &mut [u64]) -> Answer {
        let before = out.to_vec();
        let answer = self.right.optional(call, numbers, out);
        if self.fault == Fault::OptionalKeepsTail && answer[0] == 0 {
            let given = 2 * answer[4] as usize;
            out[given..].copy_from_slice(&before[given..]);
        }
        answer
    }

    fn positional(&mut self, call: Record, required: usize, out: &mut [u64]) -> Answer {
        self.right.positional(call, required, out)
    }

    fn parameters_str(&mut self, spec: Record, out: &mut [u8]) -> Answer {
        let answer = self.right.parameters_str(spec, out);
        if self.fault == Fault::PrintsNoSlash {
            out.iter_mut()
                .filter(|b| **b == b'/')
                .for_each(|b| *b = b' ');
        }
        if self.fault == Fault::WritesBehindTheText {
            out[8191] = 0;
        }
        answer
    }

    fn lookup(&mut self, spec: Record, name: &[u8]) -> Answer {
        let mut answer = self.right.lookup(spec, name);
        if self.fault == Fault::FindsPositionalOnly && answer[0] == 0 && answer[4] == 0 {
            let found = parameters(spec).position(|p| p[0] <= 3 && text(spec.area, p[1]) == name);
            (answer[4], answer[5]) = (found.is_some() as u64, found.unwrap_or(0) as u64);
        }
        answer
    }

    fn read_next(&mut self, slots: &[u64], at: usize) -> Answer {
        let mut answer = self.right.read_next(slots, at);
        match self.fault {
            Fault::ReadsNothing => answer = [27, 0, 0, 0, 0, 0, at as u64, 0],
            Fault::SwallowsAll if answer[0] == 0 => answer[6] = slots.len() as u64 / 2,
            _ => {}
        }
        answer
    }

    fn read_next_opt(&mut self, slots: &[u64], at: usize) -> Answer {
        self.right.read_next_opt(slots, at)
    }

    fn read_is_eof(&mut self, slots: &[u64], at: usize) -> bool {
        self.fault != Fault::NeverAtEnd && self.right.read_is_eof(slots, at)
    }
}

fn differences(fault: Fault) -> Report {
    let mut report = Report::new(0);
    compare_random(
        5,
        CASES,
        &mut wrong(fault),
        &mut Judge::default(),
        &mut report,
    );
    report
}

#[test]
fn right_one_shows_no_difference() {
    quiet_asserts();
    let report = differences(Fault::None);
    assert_eq!(report.differences, 0);
    for met in [Intended::LenOfText, Intended::MissingBeforeUnknown] {
        assert!(0 < report.met[met as usize].count, "{met:?} was not met");
    }
    for number in [0, 5, 7, 13, 15, 16, 17, 18, 19, 20, 21, 22, 23, 24] {
        assert!(0 < report.ended[number], "no case ended in {number}");
    }
}

#[test]
fn wrong_ones_are_seen() {
    quiet_asserts();
    for fault in FAULTS {
        assert!(0 < differences(fault).differences, "{fault:?} was not seen");
    }
}

#[test]
fn wrong_ones_are_seen_among_the_small() {
    quiet_asserts();
    for fault in [
        Fault::None,
        Fault::DropsDefaults,
        Fault::TakenOneMore,
        Fault::WritesOnRefusal,
    ] {
        let mut report = Report::new(0);
        compare_small(1, &mut wrong(fault), &mut Judge::default(), &mut report);
        assert_eq!(0 < report.differences, fault != Fault::None, "{fault:?}");
    }
}
