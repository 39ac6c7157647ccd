//! Plays files of (parameter list, call, expected outcome) through the library, each call as it is written and over all its cuts.

mod cases;
mod check;
mod cuts;

use std::env;
use std::fs;
use std::io::{self, Read, Write};
use std::process::ExitCode;
use std::time::{Duration, Instant};

use cases::{read_cases, Case};
use check::{check, Checked};
use cuts::LIBRARY;

const HELP: &str = "\
schedule-check [FILE..]

Plays cases through the library: each call as its sheets say, and again over every
cut into written and spread arguments. Without a FILE, or for -, it reads standard
input. A case is, in one table of three columns:

    case NAME,,
    the parameter sheet, as `bind` takes it
    (a blank line)
    the call sheet
    (a blank line)
    what `bind` prints, whole; or accepted,, for any acceptance

Blank lines (or ,,) may follow before the next case.

Prints each case that ends otherwise than expected or not alike at all cuts, and a
summary line.

Status: 0 all as expected, 1 some differ, 2 a file or the command line can't be read.
";

const DIFFERING: u8 = 1;
const UNREADABLE: u8 = 2;

#[derive(Default)]
struct Totals {
    cases: usize,
    differing: usize,
    cut_cases: usize,
    cuts: usize,
    unreadable: usize,
}

impl Totals {
    fn add(&mut self, checked: &Checked) {
        self.cases += 1;
        self.differing += usize::from(!checked.differences.is_empty());
        self.cut_cases += usize::from(checked.cuts > 0);
        self.cuts += checked.cuts;
    }

    fn summary(&self) -> String {
        format!(
            "{}: {} as expected, {} differing; {} of {} played",
            counted(self.cases, "case"),
            self.cases - self.differing,
            self.differing,
            counted(self.cuts, "cut"),
            counted(self.cut_cases, "case")
        )
    }

    fn status(&self) -> u8 {
        if self.unreadable > 0 {
            UNREADABLE
        } else if self.differing > 0 {
            DIFFERING
        } else {
            0
        }
    }
}

fn counted(count: usize, thing: &str) -> String {
    let plural = if count == 1 { "" } else { "s" };
    format!("{count} {thing}{plural}")
}

// A line on standard error now and then, on files that take long.
struct Progress {
    last: Instant,
}

impl Progress {
    fn tell(&mut self, file: &str, done: usize, all: usize, differing: usize) {
        if self.last.elapsed() >= Duration::from_secs(1) {
            self.last = Instant::now();
            eprintln!("schedule-check: {file}: {done} of {all} cases, {differing} differing");
        }
    }
}

fn main() -> ExitCode {
    let mut arguments: Vec<String> = env::args().skip(1).collect();
    if arguments
        .iter()
        .any(|argument| argument == "--help" || argument == "-h")
    {
        print!("{HELP}");
        return ExitCode::SUCCESS;
    }
    if let Some(option) = arguments.iter().find(|a| a.len() > 1 && a.starts_with('-')) {
        eprintln!("schedule-check: no option {option}; see schedule-check --help");
        return ExitCode::from(UNREADABLE);
    }
    if arguments.is_empty() {
        arguments.push("-".into());
    }
    match play_files(&arguments, &mut io::stdout().lock()) {
        Ok(totals) => ExitCode::from(totals.status()),
        Err(error) => {
            eprintln!("schedule-check: standard output: {error}");
            ExitCode::from(UNREADABLE)
        }
    }
}

fn play_files(files: &[String], out: &mut impl Write) -> io::Result<Totals> {
    let mut totals = Totals::default();
    let mut progress = Progress {
        last: Instant::now(),
    };
    for file in files {
        match read_file(file) {
            Ok(cases) => play_cases(file, &cases, &mut totals, &mut progress, out)?,
            Err(why) => {
                totals.unreadable += 1;
                eprintln!("schedule-check: {why}");
            }
        }
    }
    writeln!(out, "{}", totals.summary())?;
    Ok(totals)
}

fn read_file(file: &str) -> Result<Vec<Case>, String> {
    let bytes = if file == "-" {
        let mut bytes = Vec::new();
        io::stdin().read_to_end(&mut bytes).map(|_| bytes)
    } else {
        fs::read(file)
    };
    let bytes = bytes.map_err(|error| format!("{file}: {error}"))?;
    read_cases(&bytes).map_err(|malformed| format!("{file}:{}: {}", malformed.line, malformed.why))
}

fn play_cases(
    file: &str,
    cases: &[Case],
    totals: &mut Totals,
    progress: &mut Progress,
    out: &mut impl Write,
) -> io::Result<()> {
    for (done, case) in cases.iter().enumerate() {
        progress.tell(file, done, cases.len(), totals.differing);
        let checked = check(case, LIBRARY);
        totals.add(&checked);
        for difference in &checked.differences {
            let name = String::from_utf8_lossy(&case.name);
            write!(out, "{file}:{}: case {name}\n{difference}", case.line)?;
        }
    }
    Ok(())
}
