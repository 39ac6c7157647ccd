// 01's twelve proved examples, asked of the published bodies.
use oracle::standin::calls::build;
use oracle::standin::calls::cells_of;
use oracle::standin::calls::push_content;
use oracle::standin::calls::read_call;
use oracle::standin::calls::PLAIN;
use oracle::standin::told::told;
use oracle::standin::told::Told;
use oracle::values::HeapStore;

// water(block, /, start, minutes=30), and the same with **kwargs.
const SPEC: &[u8] = b"waterblockstartminutes";
const W: &[u64] = &[5, 1, 1285, 0, 0, 4, 0, 0, 0, 1, 2565, 0, 0, 3, 3847, 3, 30];
const K: &[u64] = &[
    5, 1, 1285, 0, 0, 4, 0, 0, 0, 1, 2565, 0, 0, 3, 3847, 3, 30, 7, 0, 0, 0,
];
const CALL: &[u8] = b"B3startblockcrop";
const B: [u64; 2] = [6, 2];
const START: [u64; 2] = [6, 517];
const BLOCK: [u64; 2] = [6, 1797];
const ONE: [u64; 2] = [3, 1];
const TWO: [u64; 2] = [3, 2];

// The slots' cells with the remainders' behind them, or what the error tells.
fn ends(spec: &[u64], head: [u64; 6], rest: &[[u64; 2]]) -> Result<Vec<u64>, Told> {
    let store = HeapStore::new();
    let heap = store.heap();
    let list = build(heap, spec, SPEC).spec;
    let cells: Vec<u64> = head
        .into_iter()
        .chain(rest.iter().copied().flatten())
        .collect();
    let given = read_call(heap, &cells, CALL, PLAIN);
    let mut slots = vec![None; list.len()];
    let outcome = given
        .arguments()
        .and_then(|args| list.collect(&args, &mut slots, heap));
    outcome.map_err(|e| told(&e, "water"))?;
    let mut board = Vec::new();
    for slot in &slots {
        let (kind, payload) = slot.map_or((0, 0), cells_of);
        board.extend([kind, payload]);
    }
    slots
        .iter()
        .flatten()
        .for_each(|v| push_content(*v, &mut board));
    Ok(board)
}

fn refused(name: fn(String) -> Told, text: &str) -> Result<Vec<u64>, Told> {
    Err(name(text.to_owned()))
}

#[test]
fn first_to_third() {
    assert_eq!(
        ends(W, [3, 0, 0, 0, 0, 0], &[B, ONE, TWO]),
        Ok(vec![6, 2, 3, 1, 3, 2])
    );
    assert_eq!(
        ends(W, [0; 6], &[]),
        refused(Told::MissingPositionalOnly, "block")
    );
    assert_eq!(
        ends(W, [1, 0, 0, 0, 0, 0], &[B]),
        refused(Told::Missing, "start")
    );
}

#[test]
fn fourth_to_sixth() {
    let repeated = refused(Told::RepeatedArg, "start");
    assert_eq!(ends(W, [2, 1, 0, 0, 0, 0], &[B, ONE, START, TWO]), repeated);
    assert_eq!(ends(W, [1, 1, 1, 1, 0, 0], &[B, START, TWO, ONE]), repeated);
    assert_eq!(
        ends(W, [1, 1, 0, 0, 1, 1], &[B, START, TWO, START, ONE]),
        repeated
    );
}

#[test]
fn seventh_to_ninth() {
    assert_eq!(
        ends(W, [4, 0, 0, 0, 0, 0], &[B, ONE, TWO, ONE]),
        Err(Told::ExtraPositionalArg(1))
    );
    let eighth = [B, START, ONE, BLOCK, TWO];
    assert_eq!(
        ends(W, [1, 2, 0, 0, 0, 0], &eighth),
        Err(Told::ExtraNamedArg(vec!["block".to_owned()]))
    );
    assert_eq!(
        ends(K, [1, 2, 0, 0, 0, 0], &eighth),
        Ok(vec![6, 2, 3, 1, 3, 30, 9, 1, 6, 1797, 3, 2])
    );
    assert_eq!(
        ends(W, [0, 2, 0, 0, 0, 0], &eighth[1..]),
        refused(Told::MissingPositionalOnly, "block")
    );
}

#[test]
fn tenth_to_twelfth() {
    let repeated = [B, ONE, START, TWO];
    assert_eq!(
        ends(W, [2, 1, 2, 0, 0, 0], &repeated),
        Err(Told::NotIterable)
    );
    assert_eq!(
        ends(
            W,
            [1, 1, 0, 0, 1, 2],
            &[B, START, TWO, ONE, ONE, START, ONE]
        ),
        Err(Told::ArgsValueIsNotString)
    );
    assert_eq!(ends(&[5], [0; 6], &[]), Ok(vec![]));
}
