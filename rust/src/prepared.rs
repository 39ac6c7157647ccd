//! Parameter lists that are judged once and bound against many times.

use crate::bound::Bound;
use crate::call::Call;
use crate::records::{self, BOARD, PREPARED};
use crate::refusal::Refusal;
use crate::signature::Signature;
use crate::value::Areas;

/// A parameter list that passed 1 to 7, ready for calls.
///
/// ```
/// use liuwdom::{collect, Call, Prepared, Signature};
///
/// let water = Signature::new("water").required("block").slash().defaulted("minutes", 30);
/// let prepared = Prepared::new(&water).unwrap();
/// for call in [Call::new().positional("B3"), Call::new()] {
///     assert_eq!(prepared.bind(&call), collect(&water, &call));
/// }
/// ```
#[derive(Clone, Debug, PartialEq, Eq)]
pub struct Prepared {
    cells: Vec<u64>,
    spec: Vec<u8>,
    parameters: usize,
}

impl Prepared {
    /// Judges a parameter list (1 to 7).
    pub fn new(signature: &Signature) -> Result<Prepared, Refusal> {
        let spec = signature.record();
        let mut cells = vec![0; PREPARED];
        let length = records::prepare_cells(&spec.cells, &spec.area, &mut cells)
            .map_err(|refused| Refusal::of(refused, &spec.area, b""))?;
        cells.truncate(length);
        Ok(Prepared {
            cells,
            spec: spec.area,
            parameters: signature.parameters(),
        })
    }

    /// Binds a call (9 to 24).
    pub fn bind(&self, call: &Call) -> Result<Bound, Refusal> {
        let given = call.record();
        let mut board = [0; BOARD];
        let areas = Areas {
            spec: &self.spec,
            call: &given.area,
        };
        records::bind_prepared_cells(
            &self.cells,
            areas.spec,
            &given.cells,
            areas.call,
            &mut board,
        )
        .map(|counts| Bound::read(counts, self.parameters, &board, areas))
        .map_err(|refused| Refusal::of(refused, areas.spec, areas.call))
    }

    /// Its cells and the spec area, for [`records::bind_prepared_cells`].
    pub fn cells(&self) -> (&[u64], &[u8]) {
        (&self.cells, &self.spec)
    }
}
