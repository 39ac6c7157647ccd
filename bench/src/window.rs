// Water in the last runs: ours over the boundary against a plain Rust loop of the same shape, which keeps the sum, adds each run and drops the
// oldest one. The limit is never exceeded, so both go over the whole list.
use crate::sides::Run;
use crate::time::{by_count, instructions, times};
use liuwdom::records::{window_minutes, RUNS, WINDOW};
use std::hint::black_box;

// Runs in the list, and w. The list of a quarter and the longest window show how the cost grows: with the list, and not with w.
const ROWS: [(usize, u64); 3] = [(RUNS, 7), (RUNS, WINDOW), (RUNS / 4, 7)];

const SIDES: [&str; 2] = ["ours", "rust"];

// Minutes from 0 to 59, in an order that repeats after 64 runs.
fn minutes(runs: usize) -> Vec<u32> {
    (0..runs)
        .map(|i| (i * i * 7 + i) as u32 % 64 % 60)
        .collect()
}

fn limit(w: u64) -> u64 {
    60 * w
}

#[inline(never)]
fn plain(minutes: &[u32], w: usize, limit: u64) -> Option<usize> {
    let mut sum = 0;
    let mut last = 0;
    while last < minutes.len() {
        sum += u64::from(minutes[last]);
        if w <= last {
            sum -= u64::from(minutes[last - w]);
        }
        if limit < sum {
            return Some(last);
        }
        last += 1;
    }
    None
}

fn with_side<T>(side: &str, runs: usize, w: u64, then: impl FnOnce(Run) -> T) -> T {
    let minutes = minutes(runs);
    let ask = |minutes: &[u32], w, limit| match side {
        "ours" => window_minutes(minutes, w, limit) == Ok(None),
        _ => plain(minutes, w as usize, limit).is_none(),
    };
    then(&mut |times| {
        (0..times).all(|_| {
            let (minutes, w) = black_box((&minutes, w));
            ask(minutes, w, limit(w))
        })
    })
}

pub fn table() {
    println!("Water in the last runs, against a plain Rust loop of the same shape; every row goes over its whole list.");
    println!();
    println!("| runs | w | ours ns | Rust ns | ours / Rust | instructions ours / Rust |");
    println!("|---|---|---|---|---|---|");
    for (runs, w) in ROWS {
        let t = with_side("ours", runs, w, |ours| {
            with_side("rust", runs, w, |rust| times(ours, rust))
        });
        let [ours, rust] =
            SIDES.map(|side| instructions(&["window", side, &runs.to_string(), &w.to_string()]));
        println!(
            "| {runs} | {w} | {:.0} | {:.0} | {:.2} | {} |",
            t.ours,
            t.rust,
            t.ours / t.rust,
            by_count(ours, rust)
        );
    }
}

// One side alone, for callgrind.
pub fn one(words: &[String]) -> Option<()> {
    let [side, runs, w, times] = words else {
        return None;
    };
    let side = SIDES.into_iter().find(|s| s == side)?;
    let (runs, w) = (runs.parse().ok()?, w.parse().ok()?);
    let times = times.parse().ok()?;
    with_side(side, runs, w, |run| run(times)).then_some(())
}
