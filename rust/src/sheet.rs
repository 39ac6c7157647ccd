//! Sheets: the text form of a parameter list and a call, and of how the call ends.

use crate::bound::{Bound, Slot};
use crate::call::Call;
use crate::records::{self, Record, CALL_CELLS, OUTPUT, SPEC_CELLS, TEXTS};
use crate::refusal::Refusal;
use crate::signature::{Signature, Step};
use crate::value::Value;

/// Binds the call of two sheets, and prints how it ends (30, then 3 to 24), as the program `bind` does.
///
/// ```
/// let sheets = b"part,name,value\ndef,f,\nrequired,a,\n\npart,name,value\npos,,i7\n";
/// let told = liuwdom::bind_sheet(sheets);
/// assert_eq!(told, b"slot,name,value\n0,a,i7\ntaken,1,\ndefaulted,0,\n");
/// assert_eq!(liuwdom::bind_sheet(b""), b"refused,30,1\n");
/// ```
pub fn bind_sheet(input: &[u8]) -> Vec<u8> {
    let mut out = vec![0; OUTPUT];
    // An output of this length is never too short.
    let length = records::bind_bytes(input, &mut out).unwrap_or_default();
    out.truncate(length);
    out
}

/// The parameter list and the call of two sheets (30).
///
/// ```
/// use liuwdom::{collect, sheet, Refusal};
///
/// let sheets = b"part,name,value\ndef,f,\nrequired,a,\n\npart,name,value\npos,,i7\n";
/// let (signature, call) = sheet::read(sheets).unwrap();
/// assert_eq!(sheet::print(&signature, &collect(&signature, &call)), liuwdom::bind_sheet(sheets));
/// assert_eq!(sheet::read(b"part"), Err(Refusal::BadSheet { line: 1 }));
/// ```
pub fn read(input: &[u8]) -> Result<(Signature, Call), Refusal> {
    let (spec, call) = read_records(input)?;
    let signature = Signature::from_record(&spec).expect("the library writes a parameter record");
    let call = Call::from_record(&call).expect("the library writes a call record");
    Ok((signature, call))
}

/// The records of two sheets, as the library reads them: the parameter list's and the call's (30).
pub fn read_records(input: &[u8]) -> Result<(Record, Record), Refusal> {
    let (mut spec_cells, mut spec) = (vec![0; SPEC_CELLS], vec![0; TEXTS]);
    let (mut call_cells, mut call) = (vec![0; CALL_CELLS], vec![0; TEXTS]);
    let lengths = records::read_sheets_bytes(
        input,
        &mut spec_cells,
        &mut spec,
        &mut call_cells,
        &mut call,
    )
    .map_err(|refused| Refusal::of(refused, b"", b""))?;
    spec_cells.truncate(lengths.spec_cells);
    spec.truncate(lengths.spec);
    call_cells.truncate(lengths.call_cells);
    call.truncate(lengths.call);
    let record = |cells, area| Record { cells, area };
    Ok((record(spec_cells, spec), record(call_cells, call)))
}

/// How a call ends, as [`bind_sheet`] prints it.
pub fn print(signature: &Signature, ended: &Result<Bound, Refusal>) -> Vec<u8> {
    match ended {
        Ok(bound) => print_bound(signature, bound),
        Err(refusal) => print_line(&[
            b"refused",
            refusal.number().to_string().as_bytes(),
            &detail(refusal),
        ]),
    }
}

fn detail(refusal: &Refusal) -> Vec<u8> {
    match refusal {
        Refusal::ExtraPositionalArg { count } => count.to_string().into(),
        Refusal::BadSheet { line } => line.to_string().into(),
        other => other.name().unwrap_or_default().to_vec(),
    }
}

fn print_line(cells: &[&[u8]; 3]) -> Vec<u8> {
    let mut line = cells.join(&b',');
    line.push(b'\n');
    line
}

fn print_bound(signature: &Signature, bound: &Bound) -> Vec<u8> {
    let mut out = print_line(&[b"slot", b"name", b"value"]);
    print_slots(&mut out, signature, &bound.slots);
    print_star(&mut out, &bound.star);
    print_named(&mut out, &bound.named);
    print_count(&mut out, b"taken", bound.counts.taken);
    print_count(&mut out, b"defaulted", bound.counts.defaulted);
    out
}

fn print_slots(out: &mut Vec<u8>, signature: &Signature, slots: &[Slot]) {
    let parameters = signature.steps.iter().filter(|step| step.is_parameter());
    for (index, (step, slot)) in parameters.zip(slots).enumerate() {
        let index = index.to_string();
        let cells = [index.as_bytes(), parameter_name(step), &print_slot(slot)];
        out.extend(print_line(&cells));
    }
}

fn print_star(out: &mut Vec<u8>, values: &[Value]) {
    for value in values {
        out.extend(print_line(&[b"star", b"", &print_value(value)]));
    }
}

fn print_named(out: &mut Vec<u8>, pairs: &[(Vec<u8>, Value)]) {
    for (name, value) in pairs {
        out.extend(print_line(&[b"named", name, &print_value(value)]));
    }
}

fn print_count(out: &mut Vec<u8>, name: &[u8], count: usize) {
    let count = count.to_string();
    out.extend(print_line(&[name, count.as_bytes(), b""]));
}

fn parameter_name(step: &Step) -> &[u8] {
    match step {
        Step::Required(name) | Step::Optional(name) | Step::Defaulted(name, _) => name,
        Step::Slash => b"/",
        Step::Star => b"*",
        Step::Args => b"*args",
        Step::Kwargs => b"**kwargs",
    }
}

fn print_slot(slot: &Slot) -> Vec<u8> {
    match slot {
        Slot::Empty => Vec::new(),
        Slot::Value(value) => print_value(value),
        Slot::Args(count) | Slot::Kwargs(count) => count.to_string().into(),
    }
}

fn print_value(value: &Value) -> Vec<u8> {
    match value {
        Value::Nothing => b"n".to_vec(),
        Value::Flag(yes) => format!("b{}", u8::from(*yes)).into(),
        Value::Whole(number) => format!("i{number}").into(),
        Value::Real(number) => format!("r{:016x}", number.to_bits()).into(),
        Value::Text(bytes) => [b"s", bytes.as_slice()].concat(),
        Value::Handle(number) => format!("h{number}").into(),
    }
}
