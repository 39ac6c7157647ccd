//! The program schedule-check: its statuses and what it prints.

use std::io::Write;
use std::process::{Command, Output, Stdio};

const EXAMPLES: &str = concat!(env!("CARGO_MANIFEST_DIR"), "/../examples/schedules.csv");

fn program() -> Command {
    Command::new(env!("CARGO_BIN_EXE_schedule-check"))
}

fn played(input: &str) -> Output {
    let mut child = program()
        .arg("-")
        .stdin(Stdio::piped())
        .stdout(Stdio::piped())
        .stderr(Stdio::piped())
        .spawn()
        .unwrap();
    child
        .stdin
        .take()
        .unwrap()
        .write_all(input.as_bytes())
        .unwrap();
    child.wait_with_output().unwrap()
}

fn text(bytes: &[u8]) -> String {
    String::from_utf8_lossy(bytes).into_owned()
}

#[test]
fn the_examples_end_as_they_say() {
    let output = program().arg(EXAMPLES).output().unwrap();
    let cases = std::fs::read_to_string(EXAMPLES).unwrap();
    let cases = cases
        .lines()
        .filter(|line| line.starts_with("case "))
        .count();
    let summary = format!("{cases} cases: {cases} as expected, 0 differing; ");
    assert!(
        text(&output.stdout).starts_with(&summary),
        "{}",
        text(&output.stdout)
    );
    assert_eq!(output.status.code(), Some(0));
}

// Each expectation of the examples, made wrong, is seen.
#[test]
fn a_wrong_expectation_is_named() {
    let cases = std::fs::read_to_string(EXAMPLES).unwrap();
    for right in ["taken,2,", "refused,16,start", "refused,23,1"] {
        let wrong = cases.replacen(right, "refused,24,crop", 1);
        let output = played(&wrong);
        assert_eq!(output.status.code(), Some(1), "{right}");
        let line = wrong
            .lines()
            .position(|line| line == "refused,24,crop")
            .unwrap();
        let before = wrong.lines().take(line);
        let (begun, case) = before
            .enumerate()
            .filter(|(_, line)| line.starts_with("case "))
            .last()
            .unwrap();
        let named = format!("-:{}: {}\n", begun + 1, case.trim_end_matches(','));
        let told = text(&output.stdout);
        assert!(told.contains(&named), "{named} in {told}");
        assert!(told.contains(&format!("    {right}\n")), "{told}");
        assert!(told.contains(" 1 differing;"), "{told}");
    }
}

#[test]
fn what_is_no_file_of_cases_is_refused() {
    for input in [
        "",
        "part,name,value\n",
        "case a,,\n",
        "case a,,\npart,name,value\n",
    ] {
        let output = played(input);
        assert_eq!(output.status.code(), Some(2), "{input}");
        assert!(text(&output.stderr).starts_with("schedule-check: -:"));
    }
    let missing = program().arg("no such file").output().unwrap();
    assert_eq!(missing.status.code(), Some(2));
    let option = program().arg("--no-such-option").output().unwrap();
    assert_eq!(option.status.code(), Some(2));
}

#[test]
fn help_is_at_hand() {
    let output = program().arg("--help").output().unwrap();
    assert_eq!(output.status.code(), Some(0));
    assert!(text(&output.stdout).starts_with("schedule-check [FILE..]"));
}

// 64 values and 64 names, each 0 to 64 of them written, and both rests omitted.
#[test]
fn the_largest_call_is_played_at_every_cut() {
    let mut file =
        String::from("case largest,,\npart,name,value\ndef,f,\n*args,,\n**kwargs,,\n,,\n");
    file += "part,name,value\n";
    for index in 0..64 {
        file += &format!("pos,,i{index}\nnamed,name{index},stext{index}\n");
    }
    file += ",,\naccepted,,\n";
    let summary = "1 case: 1 as expected, 0 differing; 4356 cuts of 1 case played\n";
    assert_eq!(text(&played(&file).stdout), summary);
}
