// Compares our library with the published bodies, or prints what these answer.
use compare::judge::Judge;
use compare::judge::Report;
use compare::ours::Ours;
use compare::sample::sample;
use compare::theirs::quiet_asserts;
use std::process::exit;

const USAGE: &str = "usage: compare random SEED COUNT
       compare small [STEPS]
       compare replay FILE
       compare bind <SHEETS
       compare sample SEED COUNT";

fn number(word: Option<&String>) -> u64 {
    match word.map(|w| w.parse()) {
        Some(Ok(n)) => n,
        _ => usage(),
    }
}

fn usage() -> ! {
    eprintln!("{USAGE}");
    exit(2)
}

fn main() {
    quiet_asserts();
    let words: Vec<String> = std::env::args().skip(1).collect();
    match words.first().map(|w| w.as_str()) {
        Some("sample") => print!("{}", sample(number(words.get(1)), number(words.get(2)))),
        Some("random" | "small" | "replay" | "bind") => run(&words),
        _ => usage(),
    }
}

fn run(words: &[String]) {
    match words[0].as_str() {
        "replay" => exit(replay(words.get(1))),
        "bind" => return bind(),
        _ => {}
    }
    let mut judge = Judge::default();
    let mut report = Report::new(20);
    match words[0].as_str() {
        "random" => {
            let (seed, count) = (number(words.get(1)), number(words.get(2)));
            compare::random::compare_random(seed, count, &mut Ours, &mut judge, &mut report)
        }
        _ => {
            let steps = words.get(1).map_or(3, |w| number(Some(w)));
            compare::small::compare_small(steps as usize, &mut Ours, &mut judge, &mut report)
        }
    }
    report.print();
    exit((0 < report.differences) as i32)
}

// The library's `bind` from standard input to standard output.
fn bind() {
    use std::io::Read;
    use std::io::Write;
    let mut input = Vec::new();
    let read = std::io::stdin().read_to_end(&mut input);
    let output = compare::ours::bind(&input);
    let written = std::io::stdout().write_all(&output);
    read.and(written.map(|()| 0))
        .expect("standard input and output");
}

// The cases of a file of collect_cases, played on ours.
fn replay(file: Option<&String>) -> i32 {
    let text = std::fs::read_to_string(file.unwrap_or_else(|| usage())).expect("a file of cases");
    let all = compare::replay::all_collections(&text);
    let wrong = all
        .iter()
        .filter_map(|c| compare::replay::check(c, &mut Ours).err());
    let wrong = wrong.map(|words| println!("difference: {words}")).count();
    println!("{} played, {wrong} differ", all.len());
    (0 < wrong) as i32
}
