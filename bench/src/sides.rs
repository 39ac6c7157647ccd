// The two sides of a row, each ready to be run many times. Ours starts from the records' cells each time, as the library is called; the Rust
// from values, symbols and hashes that are made beforehand, as its evaluator holds them.
use crate::input::{Input, Shape};
use liuwdom::records::{bind_prepared_cells, collect_cells, prepare_cells, BOARD, PREPARED};
use oracle::standin::calls::{read_call, PLAIN};
use oracle::standin::timed::plain_list;
use oracle::values::{HeapStore, Value};
use std::hint::black_box;

#[derive(Clone, Copy, PartialEq, Eq, Debug)]
pub enum List {
    // Built for each call.
    Cold,
    // Built once.
    Prepared,
}

// One side of a row, ready: runs it so many times, and says whether each run ended as the shape says.
pub type Run<'a> = &'a mut dyn FnMut(usize) -> bool;

// Hands our side over, ready.
pub fn with_ours<T>(input: &Input, shape: Shape, list: List, then: impl FnOnce(Run) -> T) -> T {
    let (spec, call) = (&input.spec, &input.call);
    let mut board = [0; BOARD];
    let mut prepared = [0; PREPARED];
    prepare_cells(&spec.cells, &spec.area, &mut prepared).expect("a list that is right");
    then(&mut |times| {
        let mut right = true;
        for _ in 0..times {
            let (spec, call) = black_box((spec, call));
            let ended = match list {
                List::Cold => {
                    collect_cells(&spec.cells, &spec.area, &call.cells, &call.area, &mut board)
                }
                List::Prepared => {
                    bind_prepared_cells(&prepared, &spec.area, &call.cells, &call.area, &mut board)
                }
            };
            right &= ended.is_ok() == (shape != Shape::Refused);
            black_box(&mut board);
        }
        right
    })
}

// The same of the Rust. Its slots are emptied before each call, as its evaluator does. These calls leave nothing on its heap: there is no
// *args or **kwargs to make a value for.
pub fn with_rust<T>(input: &Input, shape: Shape, list: List, then: impl FnOnce(Run) -> T) -> T {
    let store = HeapStore::new();
    let heap = store.heap();
    let given = read_call(heap, &input.call.cells, &input.call.area, PLAIN);
    let built = plain_list("water", &input.names);
    let mut slots: Vec<Option<Value>> = vec![None; input.names.len()];
    then(&mut |times| {
        let mut right = true;
        for _ in 0..times {
            let given = black_box(&given);
            slots.fill(None);
            let arguments = given.arguments().expect("names that differ");
            let ended = match list {
                List::Cold => plain_list("water", black_box(&input.names))
                    .collect(&arguments, &mut slots, heap),
                List::Prepared => built.collect(&arguments, &mut slots, heap),
            };
            right &= ended.is_ok() == (shape != Shape::Refused);
            black_box(&mut slots);
        }
        right
    })
}
