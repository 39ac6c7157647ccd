// The oracle against the cases that our own programs replay: theirs were made from the rules, by others, and without it. Those outside
// 01's domain (records that 1 to 4, 6 or 9 to 12 refuse, short boards, texts that are no UTF-8) are passed over.
use compare::case::Case;
use compare::port::Answer;
use compare::port::Port;
use compare::replay::all_collections;
use compare::replay::check;
use compare::replay::in_domain;
use compare::replay::name_in;
use compare::replay::numbers;
use compare::replay::utf8;
use compare::replay::Numbers;
use compare::sample::sample;
use compare::theirs::quiet_asserts;
use compare::theirs::Theirs;

fn file(name: &str) -> String {
    let path = format!("{}/../crates/{name}/stdin", env!("CARGO_MANIFEST_DIR"));
    std::fs::read_to_string(path).expect("the program's cases")
}

// 6 is our own limit, so the oracle has no word on such a list; the rest of the list may still be one that 5 or 7 refuses.
#[test]
fn collections_end_alike() {
    quiet_asserts();
    let mut theirs = Theirs::default();
    let mut played = 0;
    for c in all_collections(&file("collect_cases")) {
        if in_domain(c.expected.answer[0]) && utf8(&c.case) {
            check(&c, &mut theirs).unwrap_or_else(|words| panic!("{words}"));
            played += 1;
        }
    }
    assert_eq!(played, COLLECTIONS);
}

const COLLECTIONS: usize = 1582;
const ACCESSES: usize = 2251;
const LISTS: usize = 294;
const READS: usize = 1183;

// The detail of an accessor's refusal as the file has it, or its answer.
fn accessed(n: &mut Numbers) -> (Answer, Vec<u8>, Vec<u64>) {
    let told: [u64; 4] = std::array::from_fn(|_| n.take());
    let answer = match told[0] {
        0 => [0, 0, 0, 0, told[1], 0, 0, 0],
        19 => [19, 2, told[1] >> 8, told[1] & 255, 0, 0, 0, 0],
        24 => [24, 2, told[2] >> 8, told[2] & 255, told[1], 0, 0, 0],
        number => [number, 0, 0, 0, told[1], told[2], told[3], 0],
    };
    (answer, n.area(), n.counted())
}

// What an accessor is asked for: all six in the file's order.
fn ask(i: usize, case: &Case, more: [usize; 3], port: &mut Theirs, out: &mut [u64]) -> Answer {
    let call = case.call();
    match i {
        0 => port.names_map(call, out),
        1 => port.positions(call, out),
        2 => port.len(call),
        3 => port.no_named_args(call),
        4 => port.optional(call, (more[0], more[1]), out),
        _ => port.positional(call, more[2], out),
    }
}

// The numbers that the oracle's `optional` is compiled for.
fn compiled(i: usize, more: [usize; 3]) -> bool {
    let has = |n: usize| matches!(n, 0..=3 | 5 | 64);
    match i {
        4 => has(more[0]) && has(more[1]),
        5 => has(more[2]),
        _ => true,
    }
}

fn calls(n: &mut Numbers) -> usize {
    let mut played = 0;
    for _ in 0..n.take() {
        let mut case = Case {
            call_cells: n.counted(),
            call_area: n.area(),
            ..Case::default()
        };
        (case.board_len, case.fill) = (n.take() as usize, n.take());
        let more = std::array::from_fn(|_| n.take() as usize);
        for i in 0..6 {
            let (answer, name, written) = accessed(n);
            if !in_domain(answer[0]) || !utf8(&case) || !compiled(i, more) {
                continue;
            }
            let mut out: Vec<u64> = (0..case.board_len as u64).map(|k| case.fill + k).collect();
            let mut after = out.clone();
            after[..written.len()].copy_from_slice(&written);
            let got = ask(i, &case, more, &mut Theirs::default(), &mut out);
            assert_eq!((got, &out), (answer, &after), "accessor {i}\n{case}");
            assert_eq!(name_in(&case, &got), name, "accessor {i}\n{case}");
            played += 1;
        }
    }
    played
}

fn lists(n: &mut Numbers) -> usize {
    let mut played = 0;
    for _ in 0..n.take() {
        let case = Case {
            spec_cells: n.counted(),
            spec_area: n.area(),
            ..Case::default()
        };
        let room = n.take();
        let answer = [n.take(), 0, 0, 0, n.take(), 0, 0, 0];
        let printed = n.area();
        if !in_domain(answer[0]) || room < 8192 || !utf8(&case) {
            continue;
        }
        let mut out = vec![165; 8192];
        assert_eq!(
            Theirs::default().parameters_str(case.spec(), &mut out),
            answer,
            "{case}"
        );
        assert_eq!(out[..printed.len()], printed, "{case}");
        played += 1;
    }
    played
}

fn walks(n: &mut Numbers) -> usize {
    let mut played = 0;
    for _ in 0..n.take() {
        let slots = n.counted();
        let mut at = 0;
        for _ in 0..n.take() {
            let (read, [tag, x, y], after) = (n.take(), [n.take(), n.take(), n.take()], n.take());
            let mut theirs = Theirs::default();
            let got = match read {
                0 => [2, theirs.read_is_eof(&slots, at) as u64, 0, at as u64],
                _ => {
                    let a = match read {
                        1 => theirs.read_next(&slots, at),
                        _ => theirs.read_next_opt(&slots, at),
                    };
                    let tag = if a[0] == 0 { (a[4] != 0) as u64 } else { a[0] };
                    [tag, a[4], a[5], a[6]]
                }
            };
            assert_eq!(got, [tag, x, y, after], "read {read} at {at} of {slots:?}");
            at = after as usize;
            played += 1;
        }
    }
    played
}

#[test]
fn accessors_lists_and_walks_end_alike() {
    quiet_asserts();
    let numbers = numbers(&file("access_cases"));
    let mut n = Numbers::new(&numbers);
    let played = (calls(&mut n), lists(&mut n), walks(&mut n));
    assert_eq!(played, (ACCESSES, LISTS, READS));
}

// The sample that the gate replays is the one that is made.
#[test]
fn sample_is_the_one_replayed() {
    quiet_asserts();
    assert!(
        file("collect_cases").ends_with(&sample(7, 300)),
        "the last section of crates/collect_cases/stdin is what `compare sample 7 300` prints"
    );
}

// The sample is read back, ends as it says, and has every ending of the Rust; so has what is expected of ours.
#[test]
fn sample_is_read_back() {
    quiet_asserts();
    let mut theirs = Theirs::default();
    let mut board = [0; 1000];
    let (mut ended, mut told) = ([0; 32], [0; 32]);
    for c in all_collections(&sample(3, 300)) {
        check(&c, &mut theirs).unwrap_or_else(|words| panic!("{words}"));
        let published = theirs.published(c.case.spec(), c.case.call(), &mut board);
        ended[published[0] as usize] += 1;
        told[c.expected.answer[0] as usize] += 1;
    }
    for number in [0, 13, 15, 16, 17, 18, 19, 20, 21, 22, 23, 24] {
        assert!(10 <= ended[number], "{number} ends {} cases", ended[number]);
        assert!(0 < told[number], "{number} is expected of no case");
    }
}
