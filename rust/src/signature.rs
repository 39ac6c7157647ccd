//! Parameter lists.

use crate::call::pair;
use crate::records::{self, kind, Record, PRINTED};
use crate::refusal::Refusal;
use crate::value::{add_text, text_at, Areas, Value};

// Cells of a step.
const STEP: usize = 4;

/// One step of a parameter list.
#[derive(Clone, Debug, PartialEq, Eq)]
pub enum Step {
    Required(Vec<u8>),
    Optional(Vec<u8>),
    Defaulted(Vec<u8>, Value),
    /// `/`: what stands before it is given by position only.
    Slash,
    /// `*`: what follows is given by name only.
    Star,
    /// `*args`
    Args,
    /// `**kwargs`
    Kwargs,
}

impl Step {
    /// Whether it is a parameter, which has a slot, and not a mark.
    pub fn is_parameter(&self) -> bool {
        !matches!(self, Step::Slash | Step::Star)
    }

    fn code(&self) -> u64 {
        match self {
            Step::Required(_) => 1,
            Step::Optional(_) => 2,
            Step::Defaulted(_, _) => 3,
            Step::Slash => 4,
            Step::Star => 5,
            Step::Args => 6,
            Step::Kwargs => 7,
        }
    }

    // Code, name, kind and payload of the default; 0 where a code has none.
    fn cells(&self, area: &mut Vec<u8>) -> [u64; 4] {
        match self {
            Step::Required(name) | Step::Optional(name) => {
                [self.code(), add_text(area, name), 0, 0]
            }
            Step::Defaulted(name, value) => {
                let name = add_text(area, name);
                let default = value.pair(kind::SPEC_TEXT, area);
                [self.code(), name, default.kind, default.payload]
            }
            Step::Slash | Step::Star | Step::Args | Step::Kwargs => [self.code(), 0, 0, 0],
        }
    }

    // What four cells say; nothing where the code is none or the text of a name lies outside.
    fn read(cells: &[u64], area: &[u8]) -> Option<Step> {
        let name = || text_at(area, cells[1]).map(<[u8]>::to_vec);
        let default = || {
            let areas = Areas {
                spec: area,
                call: b"",
            };
            areas.value(pair(&cells[2..]))
        };
        Some(match cells[0] {
            1 => Step::Required(name()?),
            2 => Step::Optional(name()?),
            3 => Step::Defaulted(name()?, default()?),
            4 => Step::Slash,
            5 => Step::Star,
            6 => Step::Args,
            7 => Step::Kwargs,
            _ => return None,
        })
    }
}

/// A function's name and the steps of its parameter list. Any steps can be put together; the library judges them when they are used.
///
/// As long as no `/` was met, parameters are by position only: this is `def water(block, /, start, minutes = 30, **kwargs)`.
///
/// ```
/// use liuwdom::Signature;
///
/// let water = Signature::new("water")
///     .required("block")
///     .slash()
///     .required("start")
///     .defaulted("minutes", 30)
///     .kwargs();
/// assert_eq!(water.parameters_str().unwrap(), b"block, /, start, minutes = ..., **kwargs");
/// assert_eq!(water.lookup("start"), Ok(Some(1)));
/// assert_eq!(water.lookup("block"), Ok(None)); // by position only
/// ```
///
/// A text of more than 64 bytes does not panic; it is refused, by 3 or 4:
///
/// ```
/// # use liuwdom::{Refusal, Signature};
/// let long = Signature::new("water").required("b".repeat(100_000));
/// assert_eq!(long.parameters_str(), Err(Refusal::BadName));
/// ```
#[derive(Clone, Debug, PartialEq, Eq)]
pub struct Signature {
    pub name: Vec<u8>,
    pub steps: Vec<Step>,
}

impl Signature {
    pub fn new(name: impl AsRef<[u8]>) -> Signature {
        Signature {
            name: name.as_ref().to_vec(),
            steps: Vec::new(),
        }
    }

    /// With one more step.
    pub fn step(mut self, step: Step) -> Signature {
        self.steps.push(step);
        self
    }

    pub fn required(self, name: impl AsRef<[u8]>) -> Signature {
        self.step(Step::Required(name.as_ref().to_vec()))
    }

    pub fn optional(self, name: impl AsRef<[u8]>) -> Signature {
        self.step(Step::Optional(name.as_ref().to_vec()))
    }

    pub fn defaulted(self, name: impl AsRef<[u8]>, value: impl Into<Value>) -> Signature {
        self.step(Step::Defaulted(name.as_ref().to_vec(), value.into()))
    }

    pub fn slash(self) -> Signature {
        self.step(Step::Slash)
    }

    pub fn star(self) -> Signature {
        self.step(Step::Star)
    }

    pub fn args(self) -> Signature {
        self.step(Step::Args)
    }

    pub fn kwargs(self) -> Signature {
        self.step(Step::Kwargs)
    }

    /// How many parameters there are: steps that are no marks.
    pub fn parameters(&self) -> usize {
        self.steps.iter().filter(|step| step.is_parameter()).count()
    }

    /// As cells and the area of its texts.
    pub fn record(&self) -> Record {
        let mut area = Vec::new();
        let mut cells = vec![add_text(&mut area, &self.name)];
        for step in &self.steps {
            cells.extend(step.cells(&mut area));
        }
        Record { cells, area }
    }

    /// What cells and an area say; nothing where they are no parameter record (1, 2), or a text or a default is none (3, 4).
    ///
    /// ```
    /// # use liuwdom::Signature;
    /// let water = Signature::new("water").required("block").slash().defaulted("minutes", 30);
    /// assert_eq!(Signature::from_record(&water.record()), Some(water));
    /// ```
    pub fn from_record(record: &Record) -> Option<Signature> {
        let (name, steps) = record.cells.split_first()?;
        let steps = steps.chunks(STEP);
        Some(Signature {
            name: text_at(&record.area, *name)?.to_vec(),
            steps: steps
                .map(|cells| (cells.len() == STEP).then(|| Step::read(cells, &record.area))?)
                .collect::<Option<_>>()?,
        })
    }

    /// The index of the parameter that can be named so (1 to 7).
    pub fn lookup(&self, name: impl AsRef<[u8]>) -> Result<Option<usize>, Refusal> {
        let spec = self.record();
        records::lookup_cells(&spec.cells, &spec.area, name.as_ref())
            .map_err(|refused| Refusal::of(refused, &spec.area, b""))
    }

    /// The list as it is printed (1 to 7).
    pub fn parameters_str(&self) -> Result<Vec<u8>, Refusal> {
        let spec = self.record();
        let mut out = vec![0; PRINTED];
        let length = records::parameters_str_cells(&spec.cells, &spec.area, &mut out)
            .map_err(|refused| Refusal::of(refused, &spec.area, b""))?;
        out.truncate(length);
        Ok(out)
    }
}
