// Ours against the Rust, in one process, on the same inputs: `bench` prints the tables, `bench growth` sizes 1 to 64 as rows, `bench plot` draws
// such rows. The baseline of binding is the published bodies over stand-ins (oracle/), which keep the original's precomputed hashes and allocate no
// more than it does; it is not the unmodified crate. These are measurements and no tests.
mod input;
mod plot;
mod sides;
mod time;
mod window;

use input::{input, Shape, SHAPES};
use sides::{with_ours, with_rust, List};
use std::io::Read;
use time::{by_count, instructions, times, Times};

const SIZES: [usize; 3] = [4, 16, 64];
const LISTS: [List; 2] = [List::Cold, List::Prepared];

// What a row pays for where ours is slower. With a list that is built for each call a form of 01 explains all of it. With a prepared list it is
// the first demand, no check left to the caller: each cell of list and call is asked at each call, where the Rust trusts what it is given; and
// with names out of order the plain search.
fn reason(shape: Shape, list: List) -> &'static str {
    match (list, shape) {
        (List::Cold, Shape::Shuffled) => "the builder by value, the plain search (forms of 01)",
        (List::Cold, _) => "the builder by value (a form of 01)",
        (_, Shape::Shuffled) => "the plain search (a form of 01), asking each cell",
        (_, _) => "asking each cell",
    }
}

fn list_name(list: List) -> &'static str {
    match list {
        List::Cold => "cold",
        List::Prepared => "prepared",
    }
}

fn table() {
    println!("Baseline: published bodies of starlark 0.14.2 over stand-ins, not the unmodified crate. Both sides in one process, release builds.");
    println!("Ours starts from the records' cells; our board is not cleared between calls. The Rust starts from ready values and hashes, checks");
    println!("written names, and its slots are cleared before each call. Medians of 301 batches, ours and the Rust's by turns.");
    println!();
    println!("| parameters | call | list | ours ns | Rust ns | ours / Rust | instructions ours / Rust | above 1.0 for |");
    println!("|---|---|---|---|---|---|---|---|");
    for list in LISTS {
        for size in SIZES {
            for shape in SHAPES {
                row(size, shape, list);
            }
        }
    }
}

fn timed(size: usize, shape: Shape, list: List) -> Times {
    let input = input(size, shape);
    with_ours(&input, shape, list, |ours| {
        with_rust(&input, shape, list, |rust| times(ours, rust))
    })
}

fn row(size: usize, shape: Shape, list: List) {
    let t = timed(size, shape, list);
    let ratio = t.ours / t.rust;
    let count = |side| {
        let (size, shape) = (size.to_string(), format!("{shape:?}"));
        instructions(&["one", side, &size, &shape, &format!("{list:?}")])
    };
    let counted = by_count(count("ours"), count("rust"));
    let why = if ratio > 1.0 { reason(shape, list) } else { "" };
    println!(
        "| {size} | {shape} | {} | {:.0} | {:.0} | {ratio:.2} | {counted} | {why} |",
        list_name(list),
        t.ours,
        t.rust
    );
}

fn growth() {
    println!("call,list,parameters,ours ns,Rust ns");
    for shape in SHAPES {
        for list in LISTS {
            for size in 1..=64 {
                let t = timed(size, shape, list);
                println!(
                    "{shape},{},{size},{:.1},{:.1}",
                    list_name(list),
                    t.ours,
                    t.rust
                );
            }
        }
    }
}

fn plot_rows() {
    let mut rows = String::new();
    std::io::stdin()
        .read_to_string(&mut rows)
        .expect("rows on standard input");
    match plot::plot(&rows) {
        Some(svg) => print!("{svg}"),
        None => {
            eprintln!("bench plot: these are not rows of `bench growth`");
            std::process::exit(2);
        }
    }
}

// One side alone, for callgrind.
fn one(words: &[String]) -> Option<()> {
    let [side, size, shape, list, times] = words else {
        return None;
    };
    let shape = SHAPES.into_iter().find(|s| format!("{s:?}") == *shape)?;
    let list = LISTS.into_iter().find(|l| format!("{l:?}") == *list)?;
    let input = input(size.parse().ok().filter(|n| (1..=64).contains(n))?, shape);
    let times = times.parse().ok()?;
    let right = match side.as_str() {
        "ours" => with_ours(&input, shape, list, |run| run(times)),
        "rust" => with_rust(&input, shape, list, |run| run(times)),
        _ => return None,
    };
    right.then_some(())
}

fn main() {
    let words: Vec<String> = std::env::args().skip(1).collect();
    match words.first().map(String::as_str) {
        None => {
            table();
            println!();
            window::table();
        }
        Some("windows") => window::table(),
        Some("growth") => growth(),
        Some("plot") => plot_rows(),
        Some("one") if one(&words[1..]).is_some() => {}
        Some("window") if window::one(&words[1..]).is_some() => {}
        _ => {
            eprintln!("usage: bench | bench windows | bench growth | bench plot <ROWS | bench one SIDE SIZE SHAPE LIST TIMES | bench window SIDE RUNS W TIMES");
            std::process::exit(2);
        }
    }
}
