// What both sides are given: a list of so many required parameters, each by position or name, and a call against it, as 01's records.
use std::fmt;

const NAMES: &str = include_str!("../names.txt");

#[derive(Clone, Copy, PartialEq, Eq, Debug)]
pub enum Shape {
    Positional,
    // All by name, in the list's order.
    Named,
    // All by name, in another order.
    Shuffled,
    // A quarter each by position, as items of a list, by name, as entries of a dictionary.
    Spread,
    // All by name, the last one misspelled: the Rust tells that a parameter is missing, ours that the name is unknown.
    Refused,
}

pub const SHAPES: [Shape; 5] = [
    Shape::Positional,
    Shape::Named,
    Shape::Shuffled,
    Shape::Spread,
    Shape::Refused,
];

impl fmt::Display for Shape {
    fn fmt(&self, f: &mut fmt::Formatter) -> fmt::Result {
        f.write_str(match self {
            Shape::Positional => "all positional",
            Shape::Named => "all named",
            Shape::Shuffled => "named out of order",
            Shape::Spread => "half spread",
            Shape::Refused => "refused",
        })
    }
}

pub struct Record {
    pub cells: Vec<u64>,
    pub area: Vec<u8>,
}

pub struct Input {
    pub names: Vec<&'static str>,
    pub spec: Record,
    pub call: Record,
}

fn push_text(area: &mut Vec<u8>, text: &str) -> u64 {
    let payload = area.len() * 256 + text.len();
    area.extend(text.bytes());
    payload as u64
}

fn spec(names: &[&str]) -> Record {
    let mut area = Vec::new();
    let mut cells = vec![push_text(&mut area, "water"), 4, 0, 0, 0];
    for name in names {
        cells.extend([1, push_text(&mut area, name), 0, 0]);
    }
    Record { cells, area }
}

// Values are whole numbers; a pair is a name's two cells and a value's.
fn call(names: &[&str], shape: Shape) -> Record {
    let m = names.len();
    let (p, s, n) = match shape {
        Shape::Positional => (m, 0, 0),
        Shape::Named | Shape::Shuffled | Shape::Refused => (0, 0, m),
        Shape::Spread => (
            m.div_ceil(4),
            m / 4,
            m.div_ceil(4).min(m - m.div_ceil(4) - m / 4),
        ),
    };
    let d = m - p - s - n;
    let kind = |given: bool| given as u64;
    let spread = shape == Shape::Spread;
    let mut area = Vec::new();
    let mut cells = vec![
        p as u64,
        n as u64,
        kind(spread),
        s as u64,
        kind(spread),
        d as u64,
    ];
    (0..p).for_each(|i| cells.extend([3, i as u64]));
    let mut pair = |i: usize, cells: &mut Vec<u64>| {
        let misspelled = shape == Shape::Refused && i + 1 == m;
        let name = if misspelled { "strat" } else { names[i] };
        cells.extend([6, push_text(&mut area, name), 3, i as u64]);
    };
    let mut written: Vec<usize> = (p + s..p + s + n).collect();
    if shape == Shape::Shuffled {
        shuffle(&mut written);
    }
    written.into_iter().for_each(|i| pair(i, &mut cells));
    (p..p + s).for_each(|i| cells.extend([3, i as u64]));
    (p + s + n..m).for_each(|i| pair(i, &mut cells));
    Record { cells, area }
}

// The same order each time, by a generator of the usual kind.
fn shuffle(places: &mut [usize]) {
    let mut state: u64 = 1;
    for i in (1..places.len()).rev() {
        state = state
            .wrapping_mul(6364136223846793005)
            .wrapping_add(1442695040888963407);
        places.swap(i, (state >> 33) as usize % (i + 1));
    }
}

pub fn input(size: usize, shape: Shape) -> Input {
    let names: Vec<_> = NAMES.split_whitespace().take(size).collect();
    assert_eq!(names.len(), size, "names.txt has a name for each parameter");
    Input {
        spec: spec(&names),
        call: call(&names, shape),
        names,
    }
}
