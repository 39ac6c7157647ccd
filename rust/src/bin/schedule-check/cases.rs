//! Files of cases: one three-column table, as a spreadsheet writes it (rust/README.md gives the rule).

/// One case of a file.
#[derive(Debug, PartialEq, Eq)]
pub struct Case {
    pub name: Vec<u8>,
    /// The line that begins it, from 1.
    pub line: usize,
    /// Both sheets with a blank line between, as `bind` takes them.
    pub sheets: Vec<u8>,
    pub expected: Expected,
}

/// What is expected of a case.
#[derive(Debug, PartialEq, Eq)]
pub enum Expected {
    /// Acceptance, whatever the slots are.
    Accepted,
    /// What `bind` prints, whole.
    Printed(Vec<u8>),
}

impl Expected {
    fn of(lines: Vec<u8>) -> Expected {
        if lines == b"accepted,,\n" {
            Expected::Accepted
        } else {
            Expected::Printed(lines)
        }
    }

    /// Whether this is what `bind` printed.
    pub fn is_met_by(&self, printed: &[u8]) -> bool {
        match self {
            Expected::Accepted => !printed.starts_with(b"refused,"),
            Expected::Printed(lines) => lines == printed,
        }
    }
}

/// Why a file can't be read as cases.
#[derive(Debug, PartialEq, Eq)]
pub struct Malformed {
    pub line: usize,
    pub why: String,
}

/// The cases of a file.
pub fn read_cases(file: &[u8]) -> Result<Vec<Case>, Malformed> {
    let mut reader = Reader::default();
    for (index, line) in file.split_inclusive(|&byte| byte == b'\n').enumerate() {
        reader.line = index + 1;
        match line.strip_suffix(b"\n") {
            Some(line) => reader.read(line)?,
            None => return reader.malformed("the last line does not end with a line feed"),
        }
    }
    reader.line += 1;
    reader.close_case()?;
    if reader.cases.is_empty() {
        return reader.malformed("there is no case; one begins with a line `case NAME,,`");
    }
    Ok(reader.cases)
}

#[derive(Default)]
enum Part {
    #[default]
    Outside,
    List,
    Call,
    Expected,
}

// A file that is being read: the cases before, and the one whose lines come in.
#[derive(Default)]
struct Reader {
    cases: Vec<Case>,
    line: usize,
    part: Part,
    name: Vec<u8>,
    begun: usize,
    sheets: Vec<u8>,
    // Lines of the present part.
    lines: Vec<u8>,
}

impl Reader {
    fn malformed<T>(&self, why: impl Into<String>) -> Result<T, Malformed> {
        Err(Malformed {
            line: self.line,
            why: why.into(),
        })
    }

    fn read(&mut self, line: &[u8]) -> Result<(), Malformed> {
        if let Some(name) = case_name(line) {
            self.close_case()?;
            self.name = name.to_vec();
            self.begun = self.line;
            self.part = Part::List;
            return Ok(());
        }
        if is_blank(line) {
            return self.close_part();
        }
        if let Part::Outside = self.part {
            return self.malformed(outside(line));
        }
        self.lines.extend(line);
        self.lines.push(b'\n');
        Ok(())
    }

    // At a blank line.
    fn close_part(&mut self) -> Result<(), Malformed> {
        match self.part {
            Part::Outside => Ok(()),
            Part::List if self.lines.is_empty() => self.malformed("no parameter sheet before it"),
            Part::List => {
                self.sheets = std::mem::take(&mut self.lines);
                self.sheets.push(b'\n');
                self.part = Part::Call;
                Ok(())
            }
            Part::Call if self.lines.is_empty() => self.malformed("no call sheet before it"),
            Part::Call => {
                self.sheets.append(&mut self.lines);
                self.part = Part::Expected;
                Ok(())
            }
            Part::Expected => self.close_case(),
        }
    }

    // At the end of what is expected: a blank line, the next case or the end of the file.
    fn close_case(&mut self) -> Result<(), Malformed> {
        match self.part {
            Part::Outside => return Ok(()),
            Part::Expected if !self.lines.is_empty() => {}
            _ => {
                let name = String::from_utf8_lossy(&self.name);
                let begun = self.begun;
                return self.malformed(format!(
                    "the case `{name}` of line {begun} does not say what is expected of it"
                ));
            }
        }
        self.part = Part::Outside;
        self.cases.push(Case {
            name: std::mem::take(&mut self.name),
            line: self.begun,
            sheets: std::mem::take(&mut self.sheets),
            expected: Expected::of(std::mem::take(&mut self.lines)),
        });
        Ok(())
    }
}

// `case NAME,,`: no line of a sheet is one, for no part begins with `case `, and a part is never left empty.
fn case_name(line: &[u8]) -> Option<&[u8]> {
    let name = line.strip_prefix(b"case ")?.strip_suffix(b",,")?;
    (!name.is_empty() && !name.contains(&b',')).then_some(name)
}

// A spreadsheet writes an empty row of three columns as two commas.
fn is_blank(line: &[u8]) -> bool {
    line.is_empty() || line == b",,"
}

fn outside(line: &[u8]) -> &'static str {
    if line.ends_with(b"\r") {
        "the line ends with a carriage return; lines end with a line feed alone"
    } else if line.starts_with(b"\xef\xbb\xbf") {
        "the file begins with a byte order mark; save it without one"
    } else {
        "the line belongs to no case; one begins with a line `case NAME,,`"
    }
}

#[cfg(test)]
mod tests {
    use super::*;

    const CASE: &str = "case one,,\nH\ndef,f,\n\nH\npos,,n\n\nrefused,23,1\n";

    fn malformed_at(file: &str) -> usize {
        read_cases(file.as_bytes()).unwrap_err().line
    }

    #[test]
    fn a_case_has_its_parts() {
        let cases = read_cases(CASE.as_bytes()).unwrap();
        let case = Case {
            name: b"one".to_vec(),
            line: 1,
            sheets: b"H\ndef,f,\n\nH\npos,,n\n".to_vec(),
            expected: Expected::Printed(b"refused,23,1\n".to_vec()),
        };
        assert_eq!(cases, [case]);
    }

    #[test]
    fn empty_rows_part_sheets_and_cases() {
        let second = CASE.replace("\n\n", "\n,,\n");
        let file = format!("\n{CASE},,\n\n{second}{CASE}");
        let cases = read_cases(file.as_bytes()).unwrap();
        let lines: Vec<usize> = cases.iter().map(|case| case.line).collect();
        assert_eq!(lines, [2, 12, 20]);
        assert!(cases.windows(2).all(|two| two[0].sheets == two[1].sheets));
    }

    #[test]
    fn a_parameter_may_be_called_case() {
        let file = CASE.replace("def,f,", "f,def,\ncase,required,");
        assert_eq!(read_cases(file.as_bytes()).unwrap().len(), 1);
    }

    #[test]
    fn acceptance_may_be_all_that_is_expected() {
        let file = CASE.replace("refused,23,1", "accepted,,");
        let cases = read_cases(file.as_bytes()).unwrap();
        assert_eq!(cases[0].expected, Expected::Accepted);
        assert!(cases[0].expected.is_met_by(b"slot,name,value\ntaken,0,\n"));
        assert!(!cases[0].expected.is_met_by(b"refused,20,a\n"));
    }

    #[test]
    fn what_is_no_case_is_refused_with_its_line() {
        assert_eq!(malformed_at(""), 1);
        assert_eq!(malformed_at("case one,,"), 1);
        assert_eq!(malformed_at("case one,,\n\n"), 2);
        assert_eq!(malformed_at("case one,,\nH\n\n\n"), 4);
        assert_eq!(malformed_at("case one,,\nH\n\nH\n\n"), 6);
        assert_eq!(malformed_at(&format!("{CASE}\nx\n")), 10);
        assert_eq!(malformed_at(&format!("case none,,\n{CASE}")), 2);
        assert_eq!(malformed_at(&CASE.replace('\n', "\r\n")), 1);
    }
}
