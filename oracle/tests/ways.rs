// The other published ways into the same bodies: `collect_into`, `parser` over an evaluator's slots, `new_parts`.
use oracle::eval::runtime::params::spec::ParametersSpecParam;
use oracle::eval::Evaluator;
use oracle::eval::ParametersSpec;
use oracle::standin::calls::build;
use oracle::standin::calls::cells_of;
use oracle::standin::calls::read_call;
use oracle::standin::calls::PLAIN;
use oracle::standin::told::told;
use oracle::standin::told::Told;
use oracle::values::HeapStore;
use oracle::values::Value;

// f(a, /, b, *args, c=30), with b optional.
const SPEC: &[u8] = b"fabc";
const LIST: &[u64] = &[
    1, 1, 257, 0, 0, 4, 0, 0, 0, 2, 513, 0, 0, 6, 0, 0, 0, 3, 769, 3, 30,
];

#[test]
fn collect_into_fills_an_array() {
    let store = HeapStore::new();
    let list = build(store.heap(), LIST, SPEC).spec;
    let given = read_call(store.heap(), &[1, 0, 0, 0, 0, 0, 3, 7], b"", PLAIN);
    let args = given.arguments().unwrap();
    let slots: [Option<Value>; 4] = list.collect_into(&args, store.heap()).unwrap();
    let cells = slots.map(|slot| slot.map(cells_of));
    assert_eq!(cells, [Some((3, 7)), None, Some((8, 0)), Some((3, 30))]);
}

#[test]
fn parser_reads_every_slot_once() {
    let store = HeapStore::new();
    let list = build(store.heap(), LIST, SPEC).spec;
    let given = read_call(store.heap(), &[1, 0, 0, 0, 0, 0, 3, 7], b"", PLAIN);
    let args = given.arguments().unwrap();
    let mut eval = Evaluator::new(store.heap());
    let read = list.parser(&args, &mut eval, |parser, _| {
        let a: Value = parser.next()?;
        let b: Option<Value> = parser.next_opt()?;
        let rest: Value = parser.next()?;
        let c: Value = parser.next()?;
        Ok((cells_of(a), b.map(cells_of), cells_of(rest), cells_of(c)))
    });
    assert_eq!(read.unwrap(), ((3, 7), None, (8, 0), (3, 30)));
    let short = list.parser(&args, &mut eval, |parser, _| parser.next::<Value>());
    let words = "Parser for `f` did not consume all arguments".to_owned();
    assert_eq!(told(&short.unwrap_err(), "f"), Told::Words(words));
    let empty = list.parser(&args, &mut eval, |parser, _| {
        parser.next::<Value>()?;
        parser.next::<Value>()
    });
    assert_eq!(told(&empty.unwrap_err(), "f"), Told::EmptySlot);
}

#[test]
fn new_parts_prints_like_the_steps() {
    let store = HeapStore::new();
    let value = store.heap().alloc_tuple(&[]);
    let parts = ParametersSpec::new_parts(
        "f",
        [("a", ParametersSpecParam::Required)],
        [("b", ParametersSpecParam::Optional)],
        true,
        [("c", ParametersSpecParam::Defaulted(value))],
        false,
    );
    assert_eq!(parts.parameters_str(), "a, /, b = ..., *args, c = ...");
    let steps = build(store.heap(), LIST, SPEC).spec;
    assert_eq!(steps.parameters_str(), parts.parameters_str());
    assert_eq!(parts.signature(), "f");
}
