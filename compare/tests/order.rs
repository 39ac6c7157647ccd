// The rule of order.rs on small calls: what the Rust ends in, and what is expected of ours.
use compare::port::Answer;
use compare::port::Port;
use compare::port::Record;
use compare::theirs::quiet_asserts;
use compare::theirs::Theirs;

const SPEC_AREA: &[u8] = b"fa";
const CALL_AREA: &[u8] = b"xy";

// The function f with these steps.
fn list(steps: &[[u64; 4]]) -> Vec<u64> {
    [&[1], steps.concat().as_slice()].concat()
}

const A: [u64; 4] = [1, 257, 0, 0];
const SLASH: [u64; 4] = [4, 0, 0, 0];
const STAR: [u64; 4] = [5, 0, 0, 0];
const KWARGS: [u64; 4] = [7, 0, 0, 0];

// x=, as a written name and as an entry, with none for its value.
const NAMED: [u64; 10] = [0, 1, 0, 0, 0, 0, 6, 1, 1, 0];
const ENTRY: [u64; 10] = [0, 0, 0, 0, 1, 1, 6, 1, 1, 0];
// One value and x=.
const SURPLUS: [u64; 12] = [1, 1, 0, 0, 0, 0, 1, 0, 6, 1, 1, 0];
// y= and an entry x.
const TWO: [u64; 14] = [0, 1, 0, 0, 1, 1, 6, 257, 1, 0, 6, 1, 1, 0];

fn ends(steps: &[[u64; 4]], call: &[u64]) -> (u64, Answer) {
    quiet_asserts();
    let mut theirs = Theirs::default();
    let spec = list(steps);
    let record = |cells, area| Record { cells, area };
    let (spec, call) = (record(&spec, SPEC_AREA), record(call, CALL_AREA));
    let mut board = vec![0; 896];
    let published = theirs.published(spec, call, &mut board);
    (published[0], theirs.collect(spec, call, &mut board))
}

#[test]
fn unknown_name_is_expected_first() {
    let told = [24, 2, 0, 1, 1, 0, 0, 0];
    assert_eq!(ends(&[A], &NAMED), (20, told));
    assert_eq!(ends(&[SLASH, A], &NAMED), (21, told));
    assert_eq!(ends(&[STAR, A], &NAMED), (22, told));
    assert_eq!(ends(&[], &SURPLUS), (23, told));
    assert_eq!(ends(&[A], &ENTRY), (20, told));
    assert_eq!(ends(&[A], &TWO), (20, [24, 2, 1, 1, 2, 0, 0, 0]));
}

#[test]
fn rust_is_expected_elsewhere() {
    // Nothing missing; under **kwargs; no name at all.
    assert_eq!(ends(&[], &NAMED), (24, [24, 2, 0, 1, 1, 0, 0, 0]));
    assert_eq!(ends(&[A, KWARGS], &NAMED), (20, [20, 1, 1, 1, 0, 0, 0, 0]));
    assert_eq!(ends(&[A], &[0; 6]), (20, [20, 1, 1, 1, 0, 0, 0, 0]));
}
