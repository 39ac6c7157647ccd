//! Prepared lists: bound against as their records are; what is no prepared list is seen.

use liuwdom::records::{self, BOARD, NOT_PREPARED, NO_ROOM, PREPARED};
use liuwdom::{collect, Call, Prepared, Refusal, Signature, Star};

fn lists() -> Vec<Signature> {
    let water = Signature::new("water").required("block").slash();
    let water = water.required("start").defaulted("minutes", "thirty");
    let named_only = water.clone().star().required("pump").optional("crop");
    let remainders = water.clone().args().optional("pump").kwargs();
    let none = Signature::new("f");
    let most = (0..64).fold(none.clone(), |list, index| {
        list.optional(format!("p{index}"))
    });
    vec![water, named_only, remainders, none, most]
}

fn calls() -> Vec<Call> {
    let block = Call::new().positional("B3");
    vec![
        Call::new(),
        block.clone(),
        block.clone().named("start", 400).named("pump", true),
        block.clone().items([400, 45, 50]),
        block.clone().items([400]).entries([("start", 430)]),
        block
            .clone()
            .entries([("start", 430), ("crop", 1), ("other", 2)]),
        block.clone().named("x", 1).named("x", 2),
        block.star(Star::NotIterable),
    ]
}

#[test]
fn prepared_lists_bind_as_their_records() {
    for list in lists() {
        let prepared = Prepared::new(&list).unwrap();
        for call in calls() {
            assert_eq!(prepared.bind(&call), collect(&list, &call));
        }
    }
}

// Each parameter has its argument, in the list's order, however the arguments are written; and calls that just miss that. The two long names
// differ in their last byte.
#[test]
fn calls_in_the_lists_order() {
    let list = Signature::new("water").required("block").slash();
    let list = list.required("start").required("irrigation_a").star();
    let list = list.required("irrigation_b");
    let prepared = Prepared::new(&list).unwrap();
    let block = Call::new().positional("B3");
    let start = block.clone().named("start", 400);
    let calls = [
        (
            block.clone().items([400, 45]).named("irrigation_b", 1),
            true,
        ),
        (
            start
                .clone()
                .named("irrigation_a", 45)
                .named("irrigation_b", 1),
            true,
        ),
        (
            start
                .clone()
                .entries([("irrigation_a", 45), ("irrigation_b", 1)]),
            true,
        ),
        (
            block
                .clone()
                .items([400, 45])
                .entries([("irrigation_b", 1)]),
            true,
        ),
        (
            start
                .clone()
                .entries([("irrigation_b", 1), ("irrigation_a", 45)]),
            true,
        ),
        (block.clone().items([400, 45, 1]), false),
        (
            start
                .clone()
                .named("irrigation_a", 45)
                .named("irrigation_c", 1),
            false,
        ),
        (
            start
                .named("irrigation_a", 45)
                .entries([("irrigation_a", 1)]),
            false,
        ),
    ];
    for (call, accepted) in calls {
        let bound = prepared.bind(&call);
        assert_eq!(bound, collect(&list, &call));
        assert_eq!(bound.is_ok(), accepted, "{call:?}");
    }
}

#[test]
fn a_list_that_is_refused_is_not_prepared() {
    let twice = Signature::new("f").slash().required("a").required("a");
    assert_eq!(Prepared::new(&twice), Err(Refusal::RepeatedParameterName));
    let after = Signature::new("f").kwargs().required("a");
    assert_eq!(Prepared::new(&after), Err(Refusal::MisplacedStep));
}

#[test]
fn outputs_of_385_and_386_cells() {
    for list in lists() {
        let spec = list.record();
        let mut out = vec![5; PREPARED + 1];
        let prepare = |out: &mut [u64]| records::prepare_cells(&spec.cells, &spec.area, out);
        let refused = prepare(&mut out[..PREPARED - 1]).unwrap_err();
        assert_eq!(refused.number, NO_ROOM);
        assert_eq!(out, [5; PREPARED + 1]);
        let length = prepare(&mut out).unwrap();
        assert!(out[length..].iter().all(|cell| *cell == 5));
        assert_eq!(&out[..length], Prepared::new(&list).unwrap().cells().0);
    }
}

// Cells behind the list don't count; one that is left out or has its highest bit changed makes it none.
#[test]
fn cells_that_are_no_prepared_list() {
    let prepared = Prepared::new(&lists()[0]).unwrap();
    let (cells, spec) = prepared.cells();
    let call = calls()[2].record();
    let number = |cells: &[u64], spec: &[u8]| {
        let mut board = vec![5; BOARD];
        let ended = records::bind_prepared_cells(cells, spec, &call.cells, &call.area, &mut board);
        assert!(ended.is_ok() || board == [5; BOARD]);
        ended.map_or_else(|refused| refused.number, |_| 0)
    };
    assert_eq!(number(cells, spec), 24);
    assert_eq!(number(&cells[..cells.len() - 1], spec), NOT_PREPARED);
    assert_eq!(number(&[cells, &[7]].concat(), spec), 24);
    assert_eq!(number(&[], spec), NOT_PREPARED);
    assert_eq!(number(cells, b""), NOT_PREPARED);
    for at in 0..cells.len() {
        let mut changed = cells.to_vec();
        changed[at] ^= 1 << 63;
        let answered = number(&changed, spec);
        assert_eq!(answered, NOT_PREPARED, "cell {at}");
    }
}
