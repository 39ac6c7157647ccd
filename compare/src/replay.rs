// The cases that the programs collect_cases and access_cases replay, read from their standard inputs, whose heads say how they are laid
// out: decimals with anything between them, and a comment from # to the end of its line.
use crate::case::Case;
use crate::port::Answer;
use crate::port::Port;

pub fn numbers(text: &str) -> Vec<u64> {
    let lines = text.lines().map(|l| l.split('#').next().unwrap_or(""));
    let words = lines.flat_map(|l| l.split_ascii_whitespace());
    words.map(|w| w.parse().expect("a decimal")).collect()
}

pub struct Numbers<'a> {
    numbers: &'a [u64],
    at: usize,
}

impl<'a> Numbers<'a> {
    pub fn new(numbers: &'a [u64]) -> Self {
        Numbers { numbers, at: 0 }
    }

    pub fn take(&mut self) -> u64 {
        self.at += 1;
        self.numbers[self.at - 1]
    }

    pub fn counted(&mut self) -> Vec<u64> {
        let n = self.take();
        (0..n).map(|_| self.take()).collect()
    }

    // Bytes, where a number from 512 on is a run.
    pub fn area(&mut self) -> Vec<u8> {
        let mut area = Vec::new();
        for run in self.counted() {
            let times = (run / 256).max(1) as usize;
            area.resize(area.len() + times, run as u8);
        }
        area
    }

    pub fn at_end(&self) -> bool {
        self.at == self.numbers.len()
    }
}

// What a case expects: an answer, the bytes of its name, the cells written.
pub struct Expected {
    pub answer: Answer,
    pub name: Vec<u8>,
    pub written: Vec<u64>,
}

// A call to collect with what is expected of it, and can-fill's answer where this is no cut.
pub struct Collection {
    pub case: Case,
    pub fills: Option<Answer>,
    pub expected: Expected,
}

fn place(answer: &mut Answer, area: u64, payload: u64) {
    [answer[1], answer[2], answer[3]] = [area, payload >> 8, payload & 255];
}

fn ending(numbers: &mut Numbers) -> Expected {
    let told: [u64; 5] = std::array::from_fn(|_| numbers.take());
    let mut answer = [told[0], 0, 0, 0, told[1], 0, 0, 0];
    match told[0] {
        0 => answer[5..].copy_from_slice(&told[2..]),
        _ => place(&mut answer, told[2], told[3]),
    }
    Expected {
        answer,
        name: numbers.area(),
        written: numbers.counted(),
    }
}

// One case of collect_cases: its call, or each of its cuts.
pub fn collections(numbers: &mut Numbers, out: &mut Vec<Collection>) {
    let mut case = Case {
        spec_cells: numbers.counted(),
        spec_area: numbers.area(),
        call_area: numbers.area(),
        board_len: numbers.take() as usize,
        fill: numbers.take(),
        ..Case::default()
    };
    case.call_cells = numbers.counted();
    let fills = [numbers.take(), 0, 0, 0, numbers.take(), 0, 0, 0];
    let cuts = numbers.take();
    if cuts == 0 {
        let expected = ending(numbers);
        out.push(Collection {
            case,
            fills: Some(fills),
            expected,
        });
        return;
    }
    for _ in 0..cuts {
        case.call_cells = numbers.counted();
        let expected = ending(numbers);
        out.push(Collection {
            case: case.clone(),
            fills: None,
            expected,
        });
    }
}

// All sections of a file of collect_cases.
pub fn all_collections(text: &str) -> Vec<Collection> {
    let numbers = numbers(text);
    let mut numbers = Numbers::new(&numbers);
    let mut out = Vec::new();
    while !numbers.at_end() {
        for _ in 0..numbers.take() {
            collections(&mut numbers, &mut out);
        }
    }
    out
}

// Are the texts of a case in UTF-8?
pub fn utf8(case: &Case) -> bool {
    let texts = |area: &[u8], cells: &[u64]| {
        cells.iter().all(|payload| {
            let (start, len) = ((payload >> 8) as usize, (payload & 255) as usize);
            let text = area.get(start..start + len);
            text.is_none_or(|t| std::str::from_utf8(t).is_ok())
        })
    };
    let steps = case.spec_cells.get(1..).unwrap_or(&[]).chunks_exact(4);
    let steps: Vec<u64> = steps
        .flat_map(|s| [s[1], if s[2] == 5 { s[3] } else { 0 }])
        .chain(case.spec_cells.first().copied())
        .collect();
    let values = case.call_cells.get(6..).unwrap_or(&[]).chunks_exact(2);
    let values: Vec<u64> = values.filter(|v| v[0] == 6).map(|v| v[1]).collect();
    texts(&case.spec_area, &steps) && texts(&case.call_area, &values)
}

// Does the oracle speak of a case that ends so? 01's domain, and the builder's asserts.
pub fn in_domain(number: u64) -> bool {
    matches!(number, 0 | 5 | 7 | 13 | 15..=24 | 26..=28)
}

// The bytes of the name in an answer.
pub fn name_in<'a>(case: &'a Case, answer: &Answer) -> &'a [u8] {
    let area = match answer[1] {
        0 => return &[],
        1 => &case.spec_area,
        _ => &case.call_area,
    };
    let start = answer[2] as usize;
    &area[start..start + answer[3] as usize]
}

// Does a port end a collection as expected, board and all? If not, what differs.
pub fn check(c: &Collection, port: &mut dyn Port) -> Result<(), String> {
    let case = &c.case;
    let before: Vec<u64> = (0..case.board_len as u64)
        .map(|i| case.fill.wrapping_add(i))
        .collect();
    let mut board = before.clone();
    let answer = port.collect(case.spec(), case.call(), &mut board);
    let mut after = before;
    after[..c.expected.written.len()].copy_from_slice(&c.expected.written);
    if answer != c.expected.answer {
        return Err(format!(
            "{answer:?}, expected {:?}\n{case}",
            c.expected.answer
        ));
    }
    if name_in(case, &answer) != c.expected.name {
        return Err(format!("another name\n{case}"));
    }
    if board != after {
        return Err(format!("another board\n{case}"));
    }
    let fills = port.can_fill(case.spec(), case.call());
    match c.fills.is_none_or(|expected| expected == fills) {
        true => Ok(()),
        false => Err(format!(
            "can-fill {fills:?}, expected {:?}\n{case}",
            c.fills
        )),
    }
}
