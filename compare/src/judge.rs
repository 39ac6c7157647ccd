// One case asked of both sides, every answer and every cell compared. Where the two are meant to differ, the difference has a name, a count
// and the smallest input that shows it.
use crate::case::Case;
use crate::port::Answer;
use crate::port::Port;
use crate::theirs::Theirs;
use oracle::standin::calls::Other;
use std::fmt::Debug;

#[derive(Debug, Clone, Copy, PartialEq, Eq)]
pub enum Intended {
    AssertOnStep,
    AssertOnName,
    SlotsAfterError,
    OneErrorForRepeats,
    AllUnknownNames,
    MissingBeforeUnknown,
    LenOfText,
}

pub const INTENDED: [(Intended, &str); 7] = [
    (
        Intended::AssertOnStep,
        "a step that may not stand there: the Rust panics, ours refuses by 5",
    ),
    (
        Intended::AssertOnName,
        "a repeated nameable name: the Rust panics, ours refuses by 7",
    ),
    (
        Intended::SlotsAfterError,
        "an error: the Rust has written slots by then, ours writes nothing",
    ),
    (
        Intended::OneErrorForRepeats,
        "a repeated argument: one error of the Rust, 16 or 19 of ours",
    ),
    (
        Intended::AllUnknownNames,
        "several unknown names: the Rust tells all, ours the count and the first",
    ),
    (
        Intended::MissingBeforeUnknown,
        "an unknown name beside a missing parameter or surplus values: the Rust tells these, ours the name by 24",
    ),
    (
        Intended::LenOfText,
        "len of a starred text: the Rust counts its characters, ours refuses by 15",
    ),
];

pub const MOST: [&str; 8] = [
    "steps",
    "parameters",
    "values",
    "names",
    "items",
    "entries",
    "star remainder",
    "named remainder",
];

pub struct Met {
    pub count: u64,
    pub smallest: Option<Case>,
}

pub struct Report {
    pub cases: u64,
    pub answers: u64,
    pub differences: u64,
    // How often collection ended in each number.
    pub ended: [u64; 32],
    pub met: [Met; INTENDED.len()],
    // The most that was met of each of `MOST`.
    pub most: [u64; MOST.len()],
    // Differences are printed up to so many.
    pub show: u64,
}

impl Report {
    pub fn new(show: u64) -> Self {
        Report {
            cases: 0,
            answers: 0,
            differences: 0,
            ended: [0; 32],
            met: std::array::from_fn(|_| Met {
                count: 0,
                smallest: None,
            }),
            most: [0; MOST.len()],
            show,
        }
    }

    // Takes note of how large a case is, and of the remainders that an accepted call has.
    fn measure(&mut self, case: &Case, ended: &Answer) {
        let steps = case.spec_cells[1..].chunks_exact(4);
        let parameters = steps.clone().filter(|s| s[0] != 4 && s[0] != 5).count();
        let c = &case.call_cells;
        let remainders = if ended[0] == 0 {
            [ended[6], ended[7]]
        } else {
            [0, 0]
        };
        let sizes = [
            steps.len() as u64,
            parameters as u64,
            c[0],
            c[1],
            c[3],
            c[5],
            remainders[0],
            remainders[1],
        ];
        for (most, size) in self.most.iter_mut().zip(sizes) {
            *most = size.max(*most);
        }
    }

    fn same<T: PartialEq + Debug>(&mut self, what: &str, case: &Case, ours: &T, theirs: &T) {
        self.answers += 1;
        if ours == theirs {
            return;
        }
        self.differences += 1;
        if self.differences <= self.show {
            println!("difference: {what}: ours {ours:?}, theirs {theirs:?}\n{case}");
        }
    }

    fn meet(&mut self, what: Intended, case: &Case) {
        let met = &mut self.met[what as usize];
        met.count += 1;
        if met.smallest.as_ref().is_none_or(|s| case.size() < s.size()) {
            met.smallest = Some(case.clone());
        }
    }

    pub fn print(&self) {
        println!("{} cases, {} answers compared", self.cases, self.answers);
        for (number, count) in self.ended.iter().enumerate().filter(|(_, c)| **c > 0) {
            println!("  collection ended in {number}: {count}");
        }
        for (what, most) in MOST.iter().zip(self.most) {
            println!("  at most {most}: {what}");
        }
        println!("{} unexplained differences", self.differences);
        for (what, words) in INTENDED {
            let met = &self.met[what as usize];
            println!("intended: {words}: met {} times", met.count);
            if let Some(case) = &met.smallest {
                println!("  smallest:\n{case}");
            }
        }
    }
}

// Room for what both sides write.
pub struct Judge {
    pub theirs: Theirs,
    boards: [Vec<u64>; 2],
    bytes: [Vec<u8>; 2],
}

// Bytes of an output before it is lent.
const OUTPUT: usize = 8192;
const OUTPUT_FILL: u8 = 165;

impl Default for Judge {
    fn default() -> Self {
        Judge {
            theirs: Theirs::default(),
            boards: [Vec::new(), Vec::new()],
            bytes: [vec![0; OUTPUT], vec![0; OUTPUT]],
        }
    }
}

impl Judge {
    fn writes(
        &mut self,
        what: &str,
        case: &Case,
        ours: &mut dyn Port,
        report: &mut Report,
        ask: impl Fn(&mut dyn Port, &mut [u64]) -> Answer,
    ) -> Answer {
        let [a, b] = &mut self.boards;
        refill(case, a);
        refill(case, b);
        let mine = ask(ours, a);
        let other = ask(&mut self.theirs, b);
        report.same(what, case, &mine, &other);
        same_each(what, case, report, a, b);
        other
    }

    // Collection and can-fill.
    pub fn bind(&mut self, case: &Case, ours: &mut dyn Port, report: &mut Report) {
        report.cases += 1;
        self.theirs.forms = case.forms;
        let (spec, call) = (case.spec(), case.call());
        let ended = self.writes("collect", case, ours, report, |port, board| {
            port.collect(spec, call, board)
        });
        report.ended[ended[0] as usize] += 1;
        report.measure(case, &ended);
        let aside = self.theirs.aside;
        match ended[0] {
            5 => report.meet(Intended::AssertOnStep, case),
            7 => report.meet(Intended::AssertOnName, case),
            16 | 19 => report.meet(Intended::OneErrorForRepeats, case),
            24 if 1 < aside.names_told => report.meet(Intended::AllUnknownNames, case),
            _ => {}
        }
        if aside.slots_written {
            report.meet(Intended::SlotsAfterError, case);
        }
        if aside.hid_name {
            report.meet(Intended::MissingBeforeUnknown, case);
        }
        self.prepared(case, ours, report, &ended);
        let fills = ours.can_fill(spec, call);
        report.same("can_fill", case, &fills, &self.theirs.can_fill(spec, call));
    }

    // The same against a prepared list must end as collection did: the oracle's board is still there.
    fn prepared(&mut self, case: &Case, ours: &mut dyn Port, report: &mut Report, ended: &Answer) {
        let [a, b] = &mut self.boards;
        refill(case, a);
        if let Some(answer) = ours.collect_prepared(case.spec(), case.call(), a) {
            report.same("bind_prepared", case, &answer, ended);
            same_each("bind_prepared", case, report, a, b);
        }
    }

    // The accessors of a call.
    pub fn access(&mut self, case: &Case, ours: &mut dyn Port, report: &mut Report) {
        self.theirs.forms = case.forms;
        let call = case.call();
        self.writes("names_map", case, ours, report, |port, out| {
            port.names_map(call, out)
        });
        self.writes("positions", case, ours, report, |port, out| {
            port.positions(call, out)
        });
        self.writes("optional", case, ours, report, |port, out| {
            port.optional(call, (case.required, case.more), out)
        });
        self.writes("positional", case, ours, report, |port, out| {
            port.positional(call, case.required, out)
        });
        let (len, other) = (ours.len(call), self.theirs.len(call));
        let text = case.call_cells[2] == 2 && case.forms.no_star == Other::Text;
        if text && len[0] == 15 && other[0] != 13 {
            report.meet(Intended::LenOfText, case);
        } else {
            report.same("len", case, &len, &other);
        }
        let none = ours.no_named_args(call);
        report.same(
            "no_named_args",
            case,
            &none,
            &self.theirs.no_named_args(call),
        );
    }

    // The printed list, and the index of each name that the list or the call has.
    pub fn list(&mut self, case: &Case, ours: &mut dyn Port, report: &mut Report) {
        let spec = case.spec();
        self.bytes.iter_mut().for_each(|b| b.fill(OUTPUT_FILL));
        let [a, b] = &mut self.bytes;
        let printed = ours.parameters_str(spec, a);
        let other = self.theirs.parameters_str(spec, b);
        report.same("parameters_str", case, &printed, &other);
        same_each("parameters_str", case, report, a, b);
        let own = case.spec_cells[1..].chunks_exact(4);
        let own = own
            .filter(|s| s[0] <= 3)
            .map(|s| text(&case.spec_area, s[1]));
        let pairs = case.call_cells[6 + 2 * case.call_cells[0] as usize..].chunks_exact(4);
        let given = pairs.take(case.call_cells[1] as usize);
        let given = given.map(|c| text(&case.call_area, c[1]));
        for name in own.chain(given).take(8).chain([&b"*args"[..], b"", b"zz"]) {
            let found = ours.lookup(spec, name);
            report.same("lookup", case, &found, &self.theirs.lookup(spec, name));
        }
    }

    // One read of each sort at one place.
    pub fn read(&mut self, case: &Case, ours: &mut dyn Port, report: &mut Report) {
        let (slots, at) = (&case.slots, case.at);
        let next = ours.read_next(slots, at);
        report.same("read_next", case, &next, &self.theirs.read_next(slots, at));
        let next = ours.read_next_opt(slots, at);
        let other = self.theirs.read_next_opt(slots, at);
        report.same("read_next_opt", case, &next, &other);
        let eof = ours.read_is_eof(slots, at);
        report.same(
            "read_is_eof",
            case,
            &eof,
            &self.theirs.read_is_eof(slots, at),
        );
    }

    pub fn all(&mut self, case: &Case, ours: &mut dyn Port, report: &mut Report) {
        self.bind(case, ours, report);
        self.access(case, ours, report);
        self.list(case, ours, report);
        self.read(case, ours, report);
    }
}

// A board before it is lent.
fn refill(case: &Case, board: &mut Vec<u64>) {
    board.clear();
    board.extend((0..case.board_len as u64).map(|i| case.fill.wrapping_add(i)));
}

// Compares what both wrote, and tells the first cell or byte that differs.
fn same_each<T: PartialEq + Debug>(
    what: &str,
    case: &Case,
    report: &mut Report,
    ours: &[T],
    theirs: &[T],
) {
    report.answers += 1;
    if ours == theirs {
        return;
    }
    let first = ours.iter().zip(theirs).position(|(a, b)| a != b);
    let i = first.expect("outputs of one length");
    let what = format!("{what}, what is written at {i}");
    report.same(&what, case, &ours[i], &theirs[i]);
}

fn text(area: &[u8], payload: u64) -> &[u8] {
    let start = (payload >> 8) as usize;
    &area[start..start + (payload & 255) as usize]
}
