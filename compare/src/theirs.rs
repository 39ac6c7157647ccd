// The oracle behind the same boundary: 01's numbers, details and cells for what the published bodies answer. The Rust's one error for repeated
// arguments is 16 or 19: the same call without its `**` value ends in that error exactly where 16 is asked first. `published` is the Rust as it
// is; `collect` is what is expected of ours, where the two orders of the questions part (order.rs).
use crate::order::expected;
use crate::port::answered;
use crate::port::refused;
use crate::port::refused_name;
use crate::port::Answer;
use crate::port::Port;
use crate::port::Record;
use crate::port::CALL_AREA;
use crate::port::SPEC_AREA;
use oracle::standin::calls;
use oracle::standin::calls::cells_of;
use oracle::standin::calls::push_cells;
use oracle::standin::calls::push_content;
use oracle::standin::calls::read_call;
use oracle::standin::calls::text_at;
use oracle::standin::calls::Forms;
use oracle::standin::calls::Given;
use oracle::standin::calls::Got;
use oracle::standin::calls::List;
use oracle::standin::calls::Read;
use oracle::standin::calls::Slots;
use oracle::standin::calls::PLAIN;
use oracle::standin::told::told;
use oracle::standin::told::Told;
use oracle::values::Heap;
use oracle::values::HeapStore;
use oracle::values::Value;
use std::panic::catch_unwind;
use std::panic::AssertUnwindSafe;

// What the last collection did that its answer does not tell.
#[derive(Debug, Clone, Copy, Default)]
pub struct Aside {
    // The builder panicked.
    pub panicked: bool,
    // Slots were written, and then an error was found.
    pub slots_written: bool,
    // The error named so many unknown names.
    pub names_told: usize,
    // The error hid an unknown name.
    pub hid_name: bool,
}

pub struct Theirs {
    pub forms: Forms,
    pub aside: Aside,
    store: HeapStore,
    cells: Vec<u64>,
}

impl Default for Theirs {
    fn default() -> Self {
        Theirs {
            forms: PLAIN,
            aside: Aside::default(),
            store: HeapStore::new(),
            cells: Vec::new(),
        }
    }
}

// Says nothing of the builder's panics, which are caught and told by their number.
pub fn quiet_asserts() {
    std::panic::set_hook(Box::new(|info| {
        let asserted = info
            .location()
            .is_some_and(|l| l.file().ends_with("spec.rs"));
        if !asserted {
            eprintln!("{info}");
        }
    }));
}

// The builder's asserts by their words: 7 for a repeated name, else 5. That of the counts in `finish` answers to no number: no list makes it
// fail (02, §8), so a comparison that meets it is over.
fn build<'v>(heap: Heap<'v>, spec: Record) -> Result<List<'v>, u64> {
    let built = catch_unwind(AssertUnwindSafe(|| {
        calls::build(heap, spec.cells, spec.area)
    }));
    built.map_err(|panic| {
        let words = panic.downcast_ref::<String>().map_or("", |w| w.as_str());
        if words.starts_with("Repeated parameter") {
            7
        } else if words.starts_with("building") {
            panic!("the counts of a finished list: {words}")
        } else {
            5
        }
    })
}

// The numbers of the errors that have no name or count.
fn number_of(told: &Told) -> u64 {
    match told {
        Told::RepeatedName(_) => 13,
        Told::NotIterable => 15,
        Told::KwArgsIsNotDict => 17,
        Told::ArgsValueIsNotString => 18,
        Told::NoSlotLeft => 27,
        Told::EmptySlot => 28,
        other => panic!("no number for {other:?}"),
    }
}

// Copies cells to the start of lent ones.
fn put(cells: &[u64], out: &mut [u64]) {
    out[..cells.len()].copy_from_slice(cells);
}

// The place of the first pair of N that has this name: written names, then entries.
fn place_in_call(call: Record, name: &str, from: Pairs) -> u64 {
    let c = call.cells;
    let start = 6 + 2 * c[0] as usize;
    let names = c[start..start + 4 * c[1] as usize].chunks_exact(4);
    let entries = c[start + 4 * c[1] as usize + 2 * c[3] as usize..].chunks_exact(4);
    let names = names.filter(|_| from == Pairs::All);
    names
        .chain(entries)
        .find(|e| e[0] == 6 && text_at(call.area, e[1]) == name)
        .map_or(u64::MAX, |e| e[1])
}

#[derive(PartialEq)]
enum Pairs {
    All,
    Entries,
}

// The four counts, read off the slots: a slot holds its default where it is the same value, not an equal one.
fn counts(list: &List, slots: &[Option<Value>]) -> Answer {
    let mut answer = answered(0);
    for (parameter, slot) in list.parameters.iter().zip(slots) {
        let Some(value) = slot else { continue };
        let length = cells_of(*value).1;
        match (parameter.code, parameter.default) {
            (6, _) => answer[6] = length,
            (7, _) => answer[7] = length,
            (_, Some(default)) if default.ptr_eq(*value) => answer[5] += 1,
            _ => answer[4] += 1,
        }
    }
    answer
}

// A collection that ended in an error, with the slots as it left them.
struct Ending<'a, 'v> {
    spec: Record<'a>,
    call: Record<'a>,
    list: &'a List<'v>,
    slots: &'a [Option<Value<'v>>],
}

impl Ending<'_, '_> {
    // `written` tells whether the call without its `**` value repeats an argument too.
    fn refusal(&self, told: Told, written: impl FnOnce() -> bool) -> Answer {
        let missing = |number, name: &str| refused_name(number, SPEC_AREA, self.missing(name), 0);
        match told {
            Told::RepeatedArg(name) if written() => {
                let index = calls::lookup(&self.list.spec, &name).expect("a nameable name");
                let place = self.list.parameters[index as usize].name;
                refused_name(16, SPEC_AREA, place, 0)
            }
            Told::RepeatedArg(name) => repeated_entry(self.call, &name),
            Told::MissingPositionalOnly(name) => missing(20, &name),
            Told::Missing(name) => missing(21, &name),
            Told::MissingNamedOnly(name) => missing(22, &name),
            Told::ExtraPositionalArg(count) => [23, 0, 0, 0, count as u64, 0, 0, 0],
            Told::ExtraNamedArg(names) => extra(self.call, &names),
            other => refused(number_of(&other)),
        }
    }

    // The lowest empty required parameter, which has this name: its payload.
    fn missing(&self, name: &str) -> u64 {
        let parameters = self.list.parameters.iter().zip(self.slots);
        parameters
            .filter(|(p, slot)| p.code == 1 && slot.is_none())
            .find(|(p, _)| text_at(self.spec.area, p.name) == name)
            .map_or(u64::MAX, |(p, _)| p.name)
    }
}

fn repeated_entry(call: Record, name: &str) -> Answer {
    let place = place_in_call(call, name, Pairs::Entries);
    refused_name(19, CALL_AREA, place, 0)
}

fn extra(call: Record, names: &[String]) -> Answer {
    let place = place_in_call(call, &names[0], Pairs::All);
    refused_name(24, CALL_AREA, place, names.len() as u64)
}

fn collected<'v>(
    heap: Heap<'v>,
    spec: Record,
    list: &List<'v>,
    given: &Given<'v>,
    slots: &mut Slots<'v>,
) -> Result<(), Told> {
    let collected = given
        .arguments()
        .and_then(|args| list.spec.collect(&args, slots, heap));
    collected.map_err(|e| told(&e, text_at(spec.area, spec.cells[0])))
}

// Does the call repeat an argument without its `**` value too?
fn repeated_without_double<'v>(
    heap: Heap<'v>,
    spec: Record,
    list: &List<'v>,
    given: &Given<'v>,
) -> bool {
    let mut slots = vec![None; list.spec.len()];
    let again = collected(heap, spec, list, &given.without_double(), &mut slots);
    matches!(again, Err(Told::RepeatedArg(_)))
}

// The cells of the slots, and behind them those of the remainders.
fn push_board(list: &List, slots: &[Option<Value>], out: &mut Vec<u64>) {
    slots.iter().for_each(|slot| push_slot(*slot, out));
    for (parameter, slot) in list.parameters.iter().zip(slots) {
        if parameter.code == 6 || parameter.code == 7 {
            push_content(slot.expect("a remainder"), out);
        }
    }
}

fn push_slot(slot: Option<Value>, out: &mut Vec<u64>) {
    let (kind, payload) = slot.map_or((0, 0), cells_of);
    out.extend([kind, payload]);
}

// The answer of an accessor that writes, with its cells already in `cells`.
fn written(told: Result<u64, Told>, cells: &[u64], out: &mut [u64]) -> Answer {
    match told {
        Ok(count) => {
            put(cells, out);
            answered(count)
        }
        Err(Told::WrongNumberOfArgs(least, most, got)) => {
            [26, 0, 0, 0, least as u64, most as u64, got as u64, 0]
        }
        Err(told) => refused(number_of(&told)),
    }
}

impl Port for Theirs {
    fn collect(&mut self, spec: Record, call: Record, board: &mut [u64]) -> Answer {
        let ended = self.published(spec, call, board);
        let answer = expected(spec, call, ended);
        self.aside.hid_name = answer != ended;
        answer
    }

    fn can_fill(&mut self, spec: Record, call: Record) -> Answer {
        self.store.clear();
        let heap = self.store.heap();
        match build(heap, spec) {
            Err(number) => refused(number),
            Ok(list) => {
                let given = read_call(self.store.heap(), call.cells, call.area, self.forms);
                let fills = list
                    .spec
                    .can_fill_with_args(given.pos.len(), &given.written());
                answered(fills as u64)
            }
        }
    }

    fn names_map(&mut self, call: Record, out: &mut [u64]) -> Answer {
        self.store.clear();
        let given = read_call(self.store.heap(), call.cells, call.area, self.forms);
        self.cells.clear();
        let map = given.arguments().and_then(|args| args.names_map());
        if let Err(Told::RepeatedArg(name)) = map.as_ref().map_err(|e| told(e, "")) {
            return repeated_entry(call, &name);
        }
        let count = map.map(|map| {
            for (name, value) in map.iter() {
                push_cells(name.to_value(), &mut self.cells);
                push_cells(*value, &mut self.cells);
            }
            map.len() as u64
        });
        written(count.map_err(|e| told(&e, "")), &self.cells, out)
    }

    fn positions(&mut self, call: Record, out: &mut [u64]) -> Answer {
        self.store.clear();
        let heap = self.store.heap();
        let given = read_call(heap, call.cells, call.area, self.forms);
        self.cells.clear();
        let count = given.arguments().and_then(|args| {
            let mut count = 0;
            for value in args.positions(heap)? {
                push_cells(value, &mut self.cells);
                count += 1;
            }
            Ok(count)
        });
        written(count.map_err(|e| told(&e, "")), &self.cells, out)
    }

    fn len(&mut self, call: Record) -> Answer {
        self.store.clear();
        let given = read_call(self.store.heap(), call.cells, call.area, self.forms);
        let len = given.arguments().and_then(|args| args.len());
        match len {
            Ok(len) => answered(len as u64),
            Err(e) => refused(number_of(&told(&e, ""))),
        }
    }

    fn no_named_args(&mut self, call: Record) -> Answer {
        self.store.clear();
        let given = read_call(self.store.heap(), call.cells, call.area, self.forms);
        let none = given.arguments().and_then(|args| args.no_named_args());
        match none.map_err(|e| told(&e, "")) {
            Ok(()) => answered(0),
            Err(Told::ExtraNamedArg(names)) => extra(call, &names),
            Err(told) => refused(number_of(&told)),
        }
    }

    fn optional(&mut self, call: Record, numbers: (usize, usize), out: &mut [u64]) -> Answer {
        self.store.clear();
        let heap = self.store.heap();
        let given = read_call(heap, call.cells, call.area, self.forms);
        self.cells.clear();
        // The length of P is what `positions` counts; it tells `optional`'s answer, which the Rust does not hand back.
        let count = given.arguments().and_then(|args| {
            let (required, more) = numbers;
            let values: Slots =
                calls::optional(&args, heap, required, more).expect("numbers it is built for")?;
            values
                .iter()
                .for_each(|slot| push_slot(*slot, &mut self.cells));
            Ok(args.positions(heap)?.count() as u64)
        });
        written(count.map_err(|e| told(&e, "")), &self.cells, out)
    }

    fn positional(&mut self, call: Record, required: usize, out: &mut [u64]) -> Answer {
        self.optional(call, (required, 0), out)
    }

    fn parameters_str(&mut self, spec: Record, out: &mut [u8]) -> Answer {
        self.store.clear();
        match build(self.store.heap(), spec) {
            Err(number) => refused(number),
            Ok(list) => {
                let text = list.spec.parameters_str();
                out[..text.len()].copy_from_slice(text.as_bytes());
                answered(text.len() as u64)
            }
        }
    }

    fn lookup(&mut self, spec: Record, name: &[u8]) -> Answer {
        self.store.clear();
        match build(self.store.heap(), spec) {
            Err(number) => refused(number),
            Ok(list) => {
                let name = std::str::from_utf8(name).expect("a name in UTF-8");
                let found = calls::lookup(&list.spec, name);
                let mut answer = answered(found.is_some() as u64);
                answer[5] = found.unwrap_or(0) as u64;
                answer
            }
        }
    }

    fn read_next(&mut self, slots: &[u64], at: usize) -> Answer {
        self.read(slots, at, Read::Next).0
    }

    fn read_next_opt(&mut self, slots: &[u64], at: usize) -> Answer {
        self.read(slots, at, Read::NextOpt).0
    }

    fn read_is_eof(&mut self, slots: &[u64], at: usize) -> bool {
        self.read(slots, at, Read::IsEof).1
    }
}

impl Theirs {
    // How the Rust ends a collection, in 01's numbers.
    pub fn published(&mut self, spec: Record, call: Record, board: &mut [u64]) -> Answer {
        self.aside = Aside::default();
        self.store.clear();
        let heap = self.store.heap();
        let list = match build(heap, spec) {
            Ok(list) => list,
            Err(number) => {
                self.aside.panicked = true;
                return refused(number);
            }
        };
        let given = read_call(heap, call.cells, call.area, self.forms);
        let mut slots = vec![None; list.spec.len()];
        match collected(heap, spec, &list, &given, &mut slots) {
            Ok(()) => {
                self.cells.clear();
                push_board(&list, &slots, &mut self.cells);
                put(&self.cells, board);
                counts(&list, &slots)
            }
            Err(told) => {
                self.aside.slots_written = slots.iter().any(|s| s.is_some());
                if let Told::ExtraNamedArg(names) = &told {
                    self.aside.names_told = names.len();
                }
                let ending = Ending {
                    spec,
                    call,
                    list: &list,
                    slots: &slots,
                };
                ending.refusal(told, || repeated_without_double(heap, spec, &list, &given))
            }
        }
    }

    // One read of a parser over the slots from `at` on: its answer, and whether it says that it is at the end.
    fn read(&mut self, slots: &[u64], at: usize, read: Read) -> (Answer, bool) {
        self.store.clear();
        let heap = self.store.heap();
        let values: Slots = slots
            .chunks_exact(2)
            .skip(at)
            .map(|c| (c[0] != 0).then(|| calls::pair(heap, c[0], c[1])))
            .collect();
        let names = vec![String::new(); values.len()];
        let (got, left) = calls::read_slot(&values, &names, read);
        let (mut answer, eof) = match got {
            Ok(Got::Eof(eof)) => (refused(0), eof),
            Ok(Got::Slot(slot)) => {
                let (kind, payload) = slot.map_or((0, 0), cells_of);
                ([0, 0, 0, 0, kind, payload, 0, 0], false)
            }
            Err(e) => (refused(number_of(&told(&e, ""))), false),
        };
        answer[6] = (at + values.len() - left) as u64;
        (answer, eof)
    }
}
