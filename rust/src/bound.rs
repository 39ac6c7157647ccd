//! Collection and can-fill, with Rust's own types.

use crate::call::{named_in, pair, values_in, Call};
use crate::records::{self, kind, Counts, Pair, Record, BOARD, PAIR, VALUE};
use crate::refusal::Refusal;
use crate::signature::Signature;
use crate::value::{Areas, Value};

/// What a parameter got.
#[derive(Clone, Debug, PartialEq, Eq)]
pub enum Slot {
    /// Nothing: optional, and not given.
    Empty,
    Value(Value),
    /// `*args`, and how many values it got.
    Args(usize),
    /// `**kwargs`, and how many names it got.
    Kwargs(usize),
}

/// An accepted call.
#[derive(Clone, Debug, PartialEq, Eq)]
pub struct Bound {
    pub counts: Counts,
    /// One for each parameter, in the list's order.
    pub slots: Vec<Slot>,
    /// What `*args` got.
    pub star: Vec<Value>,
    /// What `**kwargs` got.
    pub named: Vec<(Vec<u8>, Value)>,
}

impl Bound {
    /// What stands on the board that an accepted collection wrote, with these counts, for so many parameters.
    ///
    /// # Panics
    ///
    /// On a board that is too short for them.
    pub fn read(counts: Counts, parameters: usize, board: &[u64], areas: Areas) -> Bound {
        let (slots, rest) = board.split_at(VALUE * parameters);
        let (star, rest) = rest.split_at(VALUE * counts.star);
        Bound {
            counts,
            slots: slots
                .chunks_exact(VALUE)
                .map(|cells| slot(pair(cells), areas))
                .collect(),
            star: values_in(star, areas),
            named: named_in(&rest[..PAIR * counts.named], areas),
        }
    }
}

fn slot(pair: Pair, areas: Areas) -> Slot {
    match pair.kind {
        kind::ARGS => Slot::Args(pair.payload as usize),
        kind::KWARGS => Slot::Kwargs(pair.payload as usize),
        _ => areas.value(pair).map_or(Slot::Empty, Slot::Value),
    }
}

/// Binds a call to a parameter list (1 to 24).
///
/// ```
/// use liuwdom::{collect, Call, Refusal, Signature, Slot};
///
/// let water = Signature::new("water")
///     .required("block")
///     .slash()
///     .required("start")
///     .defaulted("minutes", 30)
///     .kwargs();
/// let call = Call::new().positional("B3").named("start", 400).named("crop", "vine");
///
/// let bound = collect(&water, &call).unwrap();
/// assert_eq!((bound.counts.taken, bound.counts.defaulted), (2, 1));
/// assert_eq!(bound.slots[1], Slot::Value(400.into()));
/// assert_eq!(bound.slots[2], Slot::Value(30.into()));
/// assert_eq!(bound.slots[3], Slot::Kwargs(1));
/// assert_eq!(bound.named, [(b"crop".to_vec(), "vine".into())]);
///
/// let refused = collect(&water, &Call::new().positional("B3")).unwrap_err();
/// assert_eq!(refused, Refusal::Missing { name: b"start".to_vec() });
/// assert_eq!(refused.number(), 21);
/// assert_eq!(refused.to_string(), "`start`: missing");
/// ```
///
/// A name that the function does not take is told before a parameter that is missing:
///
/// ```
/// use liuwdom::{collect, Call, Signature};
///
/// let water = Signature::new("water").required("block").slash().required("start");
/// let refused = collect(&water, &Call::new().positional("B3").named("strat", 400)).unwrap_err();
/// assert_eq!(refused.number(), 24);
/// assert_eq!(refused.to_string(), "`strat`: no name that the function takes, the first of 1");
/// ```
pub fn collect(signature: &Signature, call: &Call) -> Result<Bound, Refusal> {
    let spec = signature.record();
    let given = call.record();
    let mut board = [0; BOARD];
    let counts = collect_records(&spec, &given, &mut board)?;
    let areas = Areas {
        spec: &spec.area,
        call: &given.area,
    };
    Ok(Bound::read(counts, signature.parameters(), &board, areas))
}

/// Binds a call's record to a parameter list's, into a lent board of at least [`BOARD`] cells (1 to 24). A refusal leaves the board as it was.
///
/// ```
/// use liuwdom::{collect_records, records::BOARD, Call, Refusal, Signature};
///
/// let water = Signature::new("water").required("block").slash().required("start").record();
/// let mut board = [7; BOARD];
/// let refused = collect_records(&water, &Call::new().positional("B3").record(), &mut board);
/// assert_eq!(refused, Err(Refusal::Missing { name: b"start".to_vec() }));
/// assert_eq!(board, [7; BOARD]);
///
/// let counts = collect_records(&water, &Call::new().positional("B3").named("start", 400).record(), &mut board)?;
/// assert_eq!((counts.taken, board[2..4].to_vec(), board[4]), (2, vec![3, 400], 7));
/// # Ok::<(), Refusal>(())
/// ```
pub fn collect_records(spec: &Record, call: &Record, board: &mut [u64]) -> Result<Counts, Refusal> {
    records::collect_cells(&spec.cells, &spec.area, &call.cells, &call.area, board)
        .map_err(|refused| Refusal::of(refused, &spec.area, &call.area))
}

/// Whether the written arguments of a call fill a parameter list; what stands behind `*` and `**` is not looked at (1 to 11).
///
/// ```
/// use liuwdom::{can_fill, Call, Signature};
///
/// let water = Signature::new("water").required("block").slash().required("start");
/// let call = Call::new().positional("B3");
/// assert_eq!(can_fill(&water, &call), Ok(false));
/// assert_eq!(can_fill(&water, &call.named("start", 400)), Ok(true));
/// ```
pub fn can_fill(signature: &Signature, call: &Call) -> Result<bool, Refusal> {
    let spec = signature.record();
    let given = call.record();
    records::can_fill_cells(&spec.cells, &spec.area, &given.cells, &given.area)
        .map_err(|refused| Refusal::of(refused, &spec.area, &given.area))
}
