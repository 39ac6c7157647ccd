// A case: a list, a call, and what else the entry points ask for. Its buffers are used again for the next one.
use crate::port::Record;
use oracle::standin::calls::Forms;
use oracle::standin::calls::PLAIN;
use std::fmt;

#[derive(Clone)]
pub struct Case {
    pub spec_cells: Vec<u64>,
    pub spec_area: Vec<u8>,
    pub call_cells: Vec<u64>,
    pub call_area: Vec<u8>,
    // How the star values are given to the Rust.
    pub forms: Forms,
    pub required: usize,
    pub more: usize,
    pub board_len: usize,
    pub fill: u64,
    // The reader's slots and where it stands.
    pub slots: Vec<u64>,
    pub at: usize,
}

impl Default for Case {
    fn default() -> Self {
        Case {
            spec_cells: vec![0],
            spec_area: Vec::new(),
            call_cells: vec![0; 6],
            call_area: Vec::new(),
            forms: PLAIN,
            required: 0,
            more: 0,
            board_len: 896,
            fill: 1_000_000,
            slots: Vec::new(),
            at: 0,
        }
    }
}

impl Case {
    pub fn spec(&self) -> Record<'_> {
        Record {
            cells: &self.spec_cells,
            area: &self.spec_area,
        }
    }

    pub fn call(&self) -> Record<'_> {
        Record {
            cells: &self.call_cells,
            area: &self.call_area,
        }
    }

    // What counts as a small case: few cells, then few bytes.
    pub fn size(&self) -> (usize, usize) {
        let cells = self.spec_cells.len() + self.call_cells.len();
        (cells, self.spec_area.len() + self.call_area.len())
    }
}

struct Hex<'a>(&'a [u8]);

impl fmt::Display for Hex<'_> {
    fn fmt(&self, f: &mut fmt::Formatter<'_>) -> fmt::Result {
        self.0.iter().try_for_each(|b| write!(f, "{b:02x}"))
    }
}

impl fmt::Display for Case {
    fn fmt(&self, f: &mut fmt::Formatter<'_>) -> fmt::Result {
        writeln!(f, "    spec cells {:?}", self.spec_cells)?;
        writeln!(f, "    spec area  {}", Hex(&self.spec_area))?;
        writeln!(f, "    call cells {:?}", self.call_cells)?;
        writeln!(f, "    call area  {}", Hex(&self.call_area))?;
        write!(
            f,
            "    {:?}, optional {} {}, ",
            self.forms, self.required, self.more
        )?;
        write!(f, "board {} from {}, ", self.board_len, self.fill)?;
        write!(f, "slots {:?} at {}", self.slots, self.at)
    }
}
