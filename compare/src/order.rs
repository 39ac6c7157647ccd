// The order of the questions (02, §4). The Rust asks after unknown names last, ours directly after the entries: where the Rust ends in 20 to 23 and
// a name has nowhere to go, ours ends in 24. The rule stands here alone, from the Rust's end and the two records to the end that is expected of
// ours; `Theirs` applies it, so that the comparison, the sample and the cases replayed on the Rust all go by it.
use crate::port::refused_name;
use crate::port::Answer;
use crate::port::Record;
use crate::port::CALL_AREA;
use oracle::standin::calls::text_at;

pub fn expected(spec: Record, call: Record, ended: Answer) -> Answer {
    if !(20..=23).contains(&ended[0]) || spec.cells[1..].chunks_exact(4).any(|s| s[0] == 7) {
        return ended;
    }
    let unknown = unknown_names(spec, call);
    match unknown.first() {
        Some(first) => refused_name(24, CALL_AREA, *first, unknown.len() as u64),
        None => ended,
    }
}

// The names of N that no parameter takes, in N's order, by their payloads: written names, then the entries' texts.
fn unknown_names(spec: Record, call: Record) -> Vec<u64> {
    let c = call.cells;
    let (written, items) = (c[1] as usize, 2 * c[3] as usize);
    let pairs = &c[6 + 2 * c[0] as usize..];
    let (named, behind) = pairs.split_at(4 * written);
    let keys = named
        .chunks_exact(4)
        .chain(behind[items..].chunks_exact(4))
        .filter(|pair| pair[0] == 6);
    keys.map(|pair| pair[1])
        .filter(|key| !takes(spec, text_at(call.area, *key)))
        .collect()
}

// Does a parameter take this name? Those before /, * and *args take none.
fn takes(spec: Record, name: &str) -> bool {
    let steps = spec.cells[1..].chunks_exact(4);
    let mut nameable = steps.skip_while(|s| s[0] <= 3).filter(|s| s[0] <= 3);
    nameable.any(|s| text_at(spec.area, s[1]) == name)
}
