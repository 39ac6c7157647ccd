// How long a side takes: the median over many batches, ours and the Rust's by turns; and how many instructions, by callgrind.
use crate::sides::Run;
use std::process::Command;
use std::time::Instant;

const BATCHES: usize = 301;
const BATCH_NANOS: u128 = 60_000;

pub struct Times {
    pub ours: f64,
    pub rust: f64,
}

fn nanos(run: Run, times: usize) -> u128 {
    let start = Instant::now();
    assert!(run(times), "a side did not end as it has to");
    start.elapsed().as_nanos()
}

// How many runs fill a batch.
fn calibrate(run: Run) -> usize {
    let mut times = 1;
    while nanos(run, times) < BATCH_NANOS {
        times *= 2;
    }
    times
}

fn median(mut all: Vec<f64>) -> f64 {
    all.sort_by(f64::total_cmp);
    all[all.len() / 2]
}

// Both sides stand ready before the first batch, so nothing but the calls is timed.
pub fn times(ours: Run, rust: Run) -> Times {
    let (na, nb) = (calibrate(ours), calibrate(rust));
    let mut all = (Vec::new(), Vec::new());
    for _ in 0..BATCHES {
        all.0.push(nanos(ours, na) as f64 / na as f64);
        all.1.push(nanos(rust, nb) as f64 / nb as f64);
    }
    Times {
        ours: median(all.0),
        rust: median(all.1),
    }
}

// What a row says of instructions, from how many each side takes.
pub fn by_count(ours: Option<f64>, rust: Option<f64>) -> String {
    match ours.zip(rust) {
        Some((a, b)) => format!("{a:.0} / {b:.0} = {:.2}", a / b),
        None => "no valgrind".to_owned(),
    }
}

// Instructions of one run of the side that these words name: two runs of this program under callgrind, one with 1,000 rounds more than the
// other. None without valgrind.
pub fn instructions(words: &[&str]) -> Option<f64> {
    const ROUNDS: usize = 1000;
    let counted = |rounds: usize| {
        let own = std::env::current_exe().ok()?;
        let out = Command::new("valgrind")
            .args(["--tool=callgrind", "--callgrind-out-file=/dev/null"])
            .arg(own)
            .args(words)
            .arg(rounds.to_string())
            .output()
            .ok()?;
        let said = String::from_utf8_lossy(&out.stderr).into_owned();
        let line = said.lines().find(|l| l.contains("Collected :"))?;
        line.rsplit(' ').next()?.parse::<f64>().ok()
    };
    Some((counted(2 * ROUNDS)? - counted(ROUNDS)?) / ROUNDS as f64)
}
