// All small cases: every list of up to so many steps over two names, and every call over three names with up to two of each part.
// The accessors see each call once, the printed list and lookup each list once, collection and can-fill each list with each call.
use crate::case::Case;
use crate::judge::Judge;
use crate::judge::Report;
use crate::port::Port;
use oracle::standin::calls::Forms;
use oracle::standin::calls::Iterable;
use oracle::standin::calls::NoDouble;
use oracle::standin::calls::Other;

// The function, and the names a and b.
const SPEC_AREA: &[u8] = b"fab";
// The names a, b, c, and a text.
const CALL_AREA: &[u8] = b"abct";

fn name(i: u64) -> u64 {
    i << 8 | 1
}

// The ten steps: three codes with two names each, four without.
fn step(i: usize) -> [u64; 4] {
    match i {
        0..=5 => {
            let (code, place) = (1 + i as u64 / 2, 1 + i as u64 % 2);
            let default = if code == 3 { [3, 30 + place] } else { [0, 0] };
            [code, name(place), default[0], default[1]]
        }
        _ => [i as u64 - 2, 0, 0, 0],
    }
}

const STEPS: usize = 10;

fn lists(most: usize) -> Vec<Vec<u64>> {
    let mut all = vec![vec![name(0)]];
    let mut from = 0;
    for _ in 0..most {
        let until = all.len();
        for i in from..until {
            for k in 0..STEPS {
                let mut longer = all[i].clone();
                longer.extend(step(k));
                all.push(longer);
            }
        }
        from = until;
    }
    all
}

// Sequences of up to two of `n` things; of different ones if they must differ.
fn sequences(n: u64, differ: bool) -> Vec<Vec<u64>> {
    let mut all = vec![vec![]];
    all.extend((0..n).map(|a| vec![a]));
    for a in 0..n {
        all.extend((0..n).filter(|&b| !differ || a != b).map(|b| vec![a, b]));
    }
    all
}

// A key: a name, or a number where the names end.
fn key(i: u64) -> [u64; 2] {
    match i {
        3 => [3, 5],
        _ => [6, name(i)],
    }
}

// One part of a star: its kind, how many items or which entries, and how it is given where the kind leaves it open.
struct Star {
    kind: u64,
    items: u64,
    text: bool,
}

fn stars() -> Vec<Star> {
    let kinds = [
        (0, 0, false),
        (2, 0, false),
        (2, 0, true),
        (1, 0, false),
        (1, 1, false),
        (1, 2, false),
    ];
    kinds
        .map(|(kind, items, text)| Star { kind, items, text })
        .into()
}

fn calls() -> Vec<(Vec<u64>, Forms)> {
    let mut all = Vec::new();
    let names = sequences(3, false);
    let mut doubles: Vec<(u64, Vec<u64>)> = vec![(0, vec![]), (2, vec![])];
    doubles.extend(sequences(4, true).into_iter().map(|keys| (1, keys)));
    for p in 0..=2 {
        for written in &names {
            for star in stars() {
                for (double, keys) in &doubles {
                    let call = call(p, written, &star, *double, keys);
                    let forms = Forms {
                        star: [Iterable::List, Iterable::Tuple, Iterable::Keys][all.len() % 3],
                        no_star: if star.text {
                            Other::Text
                        } else {
                            Other::Number
                        },
                        no_double: [NoDouble::List, NoDouble::Text, NoDouble::Number]
                            [all.len() % 3],
                    };
                    all.push((call, forms));
                }
            }
        }
    }
    all
}

// A record whose values all differ, so that none passes for another; the first is a text.
fn call(p: u64, written: &[u64], star: &Star, double: u64, keys: &[u64]) -> Vec<u64> {
    let mut cells = vec![
        p,
        written.len() as u64,
        star.kind,
        star.items,
        double,
        keys.len() as u64,
    ];
    let mut next = 99;
    let mut value = || {
        next += 1;
        match next {
            100 => [6, name(3)],
            n => [3, n],
        }
    };
    (0..p).for_each(|_| cells.extend(value()));
    for &i in written {
        cells.extend([6, name(i)]);
        cells.extend(value());
    }
    (0..star.items).for_each(|_| cells.extend(value()));
    for &i in keys {
        cells.extend(key(i));
        cells.extend(value());
    }
    cells
}

pub fn compare_small(most: usize, ours: &mut dyn Port, judge: &mut Judge, report: &mut Report) {
    let (lists, calls) = (lists(most), calls());
    let mut case = Case {
        spec_cells: lists[0].clone(),
        spec_area: SPEC_AREA.to_vec(),
        call_area: CALL_AREA.to_vec(),
        ..Case::default()
    };
    for (cells, forms) in &calls {
        case.call_cells.clone_from(cells);
        case.forms = *forms;
        for numbers in [(0, 0), (1, 1), (2, 0), (0, 3), (5, 5)] {
            (case.required, case.more) = numbers;
            judge.access(&case, ours, report);
        }
    }
    let mut built = 0;
    for list in &lists {
        case.spec_cells.clone_from(list);
        built += bind_calls(&mut case, &calls, ours, judge, report) as u64;
    }
    read_small(&mut case, ours, judge, report);
    println!(
        "{} lists of up to {most} steps, of which {built} can be built; {} calls",
        lists.len(),
        calls.len()
    );
}

// One list with every call, or with the first alone where it can't be built: it ends alike in all. Can it?
fn bind_calls(
    case: &mut Case,
    calls: &[(Vec<u64>, Forms)],
    ours: &mut dyn Port,
    judge: &mut Judge,
    report: &mut Report,
) -> bool {
    case.call_cells = vec![0; 6];
    judge.list(case, ours, report);
    let (first, others) = calls.split_first().expect("some calls");
    bind_call(case, first, ours, judge, report);
    if judge.theirs.aside.panicked {
        return false;
    }
    for call in others {
        bind_call(case, call, ours, judge, report);
    }
    true
}

fn bind_call(
    case: &mut Case,
    (cells, forms): &(Vec<u64>, Forms),
    ours: &mut dyn Port,
    judge: &mut Judge,
    report: &mut Report,
) {
    case.call_cells.clone_from(cells);
    case.forms = *forms;
    judge.bind(case, ours, report);
}

// Up to four slots of two sorts each, an odd cell behind them, every place up to one past the end.
fn read_small(case: &mut Case, ours: &mut dyn Port, judge: &mut Judge, report: &mut Report) {
    for count in 0..=4 {
        for full in 0..1u64 << count {
            for odd in 0..2 {
                case.slots.clear();
                (0..count).for_each(|i| case.slots.extend([(full >> i & 1) * (3 + i), 7]));
                (0..odd).for_each(|_| case.slots.push(9));
                for at in 0..=count as usize + 1 {
                    case.at = at;
                    judge.read(case, ours, report);
                }
            }
        }
    }
}
