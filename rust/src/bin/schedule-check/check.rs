//! One case, played: as it is written, by sheets and by records, and over every cut.

use std::fmt::{self, Display, Formatter};

use liuwdom::{bind_sheet, sheet, Call, Signature};

use crate::cases::{Case, Expected};
use crate::cuts::{play, Cut, Functions, Played, Records, Whole};

/// Where a case does not end as it should.
pub enum Difference {
    /// The sheets end otherwise than expected.
    Expected { expected: Vec<u8>, got: Vec<u8> },
    /// The records of the sheets end otherwise than the sheets.
    Records { sheets: Vec<u8>, records: Vec<u8> },
    /// A cut ends otherwise than the call that is written out whole; so many of them do.
    Cut {
        cut: Cut,
        whole: Vec<u8>,
        got: Vec<u8>,
        others: usize,
        cuts: usize,
    },
    /// Can-fill says otherwise of the call that is written out whole.
    CanFill { said: bool, whole: Vec<u8> },
}

/// How a case went.
#[derive(Default)]
pub struct Checked {
    pub differences: Vec<Difference>,
    /// How many cuts were played; none where the call has no cuts.
    pub cuts: usize,
}

/// Plays a case, its records and cuts with these functions.
pub fn check(case: &Case, functions: Functions) -> Checked {
    let mut checked = Checked::default();
    let printed = bind_sheet(&case.sheets);
    if !case.expected.is_met_by(&printed) {
        checked.differences.push(Difference::Expected {
            expected: match &case.expected {
                Expected::Accepted => b"accepted,,\n".to_vec(),
                Expected::Printed(lines) => lines.clone(),
            },
            got: printed.clone(),
        });
    }
    // A sheet that is refused by 30 describes no records.
    if let Ok((signature, call)) = sheet::read(&case.sheets) {
        let records = Records::of(&signature, &call);
        let ended = records.outcome(&records.collect(functions));
        let by_records = sheet::print(&signature, &ended);
        if by_records != printed {
            checked.differences.push(Difference::Records {
                sheets: printed,
                records: by_records,
            });
        }
        check_cuts(&signature, &call, functions, &mut checked);
    }
    checked
}

fn check_cuts(signature: &Signature, call: &Call, functions: Functions, checked: &mut Checked) {
    let Some(whole) = Whole::of(signature, call) else {
        return;
    };
    let Some(played) = play(&whole, functions) else {
        return;
    };
    checked.cuts = played.cuts;
    let print = |ending| sheet::print(signature, &whole.records.outcome(ending));
    let Played { others, cuts, .. } = played;
    if let Some((cut, ending)) = &played.first {
        checked.differences.push(Difference::Cut {
            cut: *cut,
            whole: print(&played.whole),
            got: print(ending),
            others,
            cuts,
        });
    }
    if let Some(said) = played.foretold {
        checked.differences.push(Difference::CanFill {
            said,
            whole: print(&played.whole),
        });
    }
}

impl Display for Difference {
    fn fmt(&self, f: &mut Formatter) -> fmt::Result {
        match self {
            Difference::Expected { expected, got } => {
                writeln!(f, "  ends otherwise than expected")?;
                block(f, "expected", expected)?;
                block(f, "got", got)
            }
            Difference::Records { sheets, records } => {
                writeln!(f, "  ends otherwise by records than by sheets")?;
                block(f, "sheets", sheets)?;
                block(f, "records", records)
            }
            Difference::Cut {
                cut,
                whole,
                got,
                others,
                cuts,
            } => {
                writeln!(f, "  ends otherwise at {others} of its {cuts} cuts")?;
                block(f, "written out whole", whole)?;
                block(f, &format!("with {cut}"), got)
            }
            Difference::CanFill { said, whole } => {
                let said = if *said { "yes" } else { "no" };
                writeln!(f, "  can-fill says {said} of the call written out whole")?;
                block(f, "collection", whole)
            }
        }
    }
}

fn block(f: &mut Formatter, title: &str, lines: &[u8]) -> fmt::Result {
    writeln!(f, "  {title}:")?;
    for line in String::from_utf8_lossy(lines).lines() {
        writeln!(f, "    {line}")?;
    }
    Ok(())
}

#[cfg(test)]
mod tests {
    use super::*;
    use crate::cases::read_cases;
    use crate::cuts::LIBRARY;
    use liuwdom::records::collect_cells;

    fn told(expected: &str, functions: Functions) -> Vec<String> {
        let sheets = "part,name,value\ndef,f,\nrequired,a,\n\npart,name,value\npos,,i7\n\n";
        let file = format!("case one,,\n{sheets}{expected}\n");
        let cases = read_cases(file.as_bytes()).unwrap();
        let checked = check(&cases[0], functions);
        let told = checked.differences.iter().map(Difference::to_string);
        told.collect()
    }

    fn first_lines(told: &[String]) -> Vec<&str> {
        told.iter().filter_map(|told| told.lines().next()).collect()
    }

    #[test]
    fn what_is_as_expected_is_not_told() {
        let whole = "slot,name,value\n0,a,i7\ntaken,1,\ndefaulted,0,";
        assert_eq!(told(whole, LIBRARY), [""; 0]);
        assert_eq!(told("accepted,,", LIBRARY), [""; 0]);
    }

    #[test]
    fn what_is_expected_and_what_was_got_is_told() {
        let got = "slot,name,value\n    0,a,i7\n    taken,1,\n    defaulted,0,\n";
        let lines = format!(
            "  ends otherwise than expected\n  expected:\n    refused,20,a\n  got:\n    {got}"
        );
        assert_eq!(told("refused,20,a", LIBRARY), [lines]);
    }

    // A count that is wrong at every cut is seen by the sheets, one that is wrong at some by the cuts.
    #[test]
    fn records_and_cuts_are_told() {
        let everywhere = Functions {
            collect: |spec_cells, spec, call_cells, call, board| {
                let mut counts = collect_cells(spec_cells, spec, call_cells, call, board)?;
                counts.defaulted += 1;
                Ok(counts)
            },
            ..LIBRARY
        };
        let by_records = told("accepted,,", everywhere);
        let lines = ["  ends otherwise by records than by sheets"];
        assert_eq!(first_lines(&by_records), lines);
        let with_list = Functions {
            collect: |spec_cells, spec, call_cells, call, board| {
                let mut counts = collect_cells(spec_cells, spec, call_cells, call, board)?;
                counts.defaulted += call_cells[2] as usize;
                Ok(counts)
            },
            can_fill: |_, _, _, _| Ok(false),
        };
        let by_cuts = told("accepted,,", with_list);
        let lines = [
            "  ends otherwise at 4 of its 6 cuts",
            "  can-fill says no of the call written out whole",
        ];
        assert_eq!(first_lines(&by_cuts), lines);
        let cut = "values written: 1, the rest behind *; names written: 0, nothing behind **";
        assert!(by_cuts[0].contains(cut), "{}", by_cuts[0]);
    }
}
