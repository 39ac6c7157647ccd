//! Document 01's twelve proved examples and its sheet, through Rust's own types.

use liuwdom::{
    bind_sheet, can_fill, collect, sheet, Call, Double, Key, Refusal, Signature, Slot, Star, Value,
};

// W, the list of 01's sheet without **kwargs; K has it.
fn w() -> Signature {
    Signature::new("water")
        .required("block")
        .slash()
        .required("start")
        .defaulted("minutes", 30)
}

fn k() -> Signature {
    w().kwargs()
}

fn block() -> Call {
    Call::new().positional("B3")
}

// Case 4: two values, and start by name.
fn start_twice() -> Call {
    block().positional(400).named("start", 430)
}

#[track_caller]
fn refused(call: &Call, refusal: Refusal) {
    assert_eq!(collect(&w(), call), Err(refusal));
}

fn name(text: &str) -> Vec<u8> {
    text.as_bytes().to_vec()
}

#[test]
fn example_1_three_values() {
    let bound = collect(&w(), &block().positional(400).positional(45)).unwrap();
    assert_eq!((bound.counts.taken, bound.counts.defaulted), (3, 0));
    let values = ["B3".into(), 400.into(), 45.into()];
    assert_eq!(bound.slots, values.map(Slot::Value));
}

#[test]
fn example_2_none() {
    let missing = Refusal::MissingPositionalOnly {
        name: name("block"),
    };
    refused(&Call::new(), missing);
}

#[test]
fn example_3_one_value() {
    refused(
        &block(),
        Refusal::Missing {
            name: name("start"),
        },
    );
}

#[test]
fn example_4_by_position_and_by_name() {
    refused(
        &start_twice(),
        Refusal::RepeatedParameter {
            name: name("start"),
        },
    );
}

#[test]
fn example_5_from_a_list_and_by_name() {
    let call = block().items([400]).named("start", 430);
    refused(
        &call,
        Refusal::RepeatedParameter {
            name: name("start"),
        },
    );
}

#[test]
fn example_6_by_name_and_by_entry() {
    let call = block().named("start", 400).entries([("start", 430)]);
    refused(
        &call,
        Refusal::RepeatedArg {
            name: name("start"),
        },
    );
}

#[test]
fn example_7_four_values() {
    let call = block().positional(1).positional(2).positional(3);
    refused(&call, Refusal::ExtraPositionalArg { count: 1 });
}

#[test]
fn example_8_positional_only_by_name() {
    let call = block().named("start", 400).named("block", "B4");
    let first = name("block");
    refused(&call, Refusal::ExtraNamedArg { count: 1, first });
    let bound = collect(&k(), &call).unwrap();
    assert_eq!(bound.slots[0], Slot::Value("B3".into()));
    assert_eq!(bound.named, [(name("block"), "B4".into())]);
}

#[test]
fn example_9_positional_only_by_name_alone() {
    let call = Call::new().named("start", 400).named("block", "B3");
    let first = name("block");
    refused(&call, Refusal::ExtraNamedArg { count: 1, first });
}

// Somebody types strat=: that is told, and neither that start is missing nor that a value is left over. A repeat comes before it, and under
// **kwargs the name is none that is unknown.
#[test]
fn an_unknown_name_is_told_before_what_is_missing() {
    let told = || Refusal::ExtraNamedArg {
        count: 1,
        first: name("strat"),
    };
    refused(&block().named("strat", 400), told());
    let values = ["B3", "400", "45", "B4"];
    let four = values.iter().fold(Call::new(), |c, v| c.positional(*v));
    refused(&four.named("strat", 400), told());
    let twice = start_twice().named("strat", 400);
    refused(
        &twice,
        Refusal::RepeatedParameter {
            name: name("start"),
        },
    );
    let missing = collect(&k(), &block().named("strat", 400)).unwrap_err();
    assert_eq!(
        missing,
        Refusal::Missing {
            name: name("start")
        }
    );
}

#[test]
fn example_10_what_is_no_list_comes_first() {
    let call = start_twice().star(Star::NotIterable);
    refused(&call, Refusal::ArgsArrayIsNotIterable);
}

#[test]
fn example_11_what_is_no_name_comes_first() {
    let entries = vec![(Key::Whole(7), 1.into()), (Key::text("start"), 430.into())];
    let call = block().named("start", 400).double(Double::Entries(entries));
    refused(&call, Refusal::ArgsValueIsNotString);
}

#[test]
fn keys_are_equal_by_kind_and_value() {
    let keyed = |first, second| {
        let entries = vec![(first, 1.into()), (second, 2.into())];
        collect(&k(), &block().double(Double::Entries(entries))).unwrap_err()
    };
    let no_name = Refusal::ArgsValueIsNotString;
    assert_eq!(keyed(Key::Whole(6), Key::Whole(7)), no_name);
    assert_eq!(keyed(Key::text("7"), Key::Whole(7)), no_name);
    assert_eq!(keyed(Key::Whole(7), Key::Whole(7)), Refusal::RepeatedKey);
    assert_eq!(keyed(Key::text("a"), Key::text("a")), Refusal::RepeatedKey);
    let other = Key::Other(Value::Nothing);
    assert_eq!(keyed(Key::text("a"), other), Refusal::BadArgument);
}

#[test]
fn example_12_nothing_to_nothing() {
    let bound = collect(&Signature::new("f"), &Call::new()).unwrap();
    assert_eq!(bound.counts, Default::default());
    assert!(bound.slots.is_empty());
}

#[test]
fn what_is_no_dictionary() {
    let call = block().double(Double::NotDictionary);
    refused(&call, Refusal::KwArgsIsNotDict);
}

#[test]
fn can_fill_foretells() {
    assert_eq!(can_fill(&w(), &block().named("start", 400)), Ok(true));
    assert_eq!(can_fill(&w(), &start_twice()), Ok(false));
    let long = Call::new().positional("s".repeat(65).as_str());
    assert_eq!(can_fill(&w(), &long), Err(Refusal::BadArgument));
}

// Every bit comes back, of a real that is no number too.
#[test]
fn values_come_back_as_they_went_in() {
    let bits = [0x7ff0_0000_0000_0001, 0xfff8_0000_dead_beef, 1 << 63];
    let mut values: Vec<Value> = bits.map(f64::from_bits).map(Value::Real).into();
    values.extend([Value::Nothing, true.into(), false.into()]);
    values.extend([i64::MIN.into(), i64::MAX.into(), (-1).into()]);
    values.extend([
        Value::Handle(u32::MAX),
        "".into(),
        (&b"\xff\n,\0"[..]).into(),
    ]);
    for value in values {
        let list = Signature::new("f")
            .required("a")
            .defaulted("b", value.clone());
        let bound = collect(&list.args(), &Call::new().positional(value.clone())).unwrap();
        let slot = Slot::Value(value);
        assert_eq!(bound.slots, [slot.clone(), slot, Slot::Args(0)]);
    }
}

#[test]
fn an_optional_parameter_stays_empty() {
    let list = Signature::new("f").slash().optional("a").optional("b");
    let bound = collect(&list, &Call::new().named("b", ())).unwrap();
    assert_eq!(bound.slots, [Slot::Empty, Slot::Value(Value::Nothing)]);
}

#[test]
fn accessors_look_at_the_call_alone() {
    let call = block()
        .items([400])
        .named("start", 1)
        .entries([("crop", "vine")]);
    assert_eq!(call.len(), Ok(4));
    assert_eq!(call.positional_args(2), Ok(vec!["B3".into(), 400.into()]));
    let first = name("start");
    assert_eq!(
        call.no_named_args(),
        Err(Refusal::ExtraNamedArg { count: 2, first })
    );
    assert_eq!(block().no_named_args(), Ok(()));
    assert_eq!(call.optional(65, 0), Err(Refusal::TooManyAskedFor));
    let again = call.entries([("start", 2)]);
    assert_eq!(
        again.names_map(),
        Err(Refusal::RepeatedArg {
            name: name("start")
        })
    );
    let text = block().star(Star::NotIterable);
    assert_eq!(text.len(), Err(Refusal::ArgsArrayIsNotIterable));
}

// Sheets of the repository's examples: what they say as records ends as what the library prints of them.
#[test]
fn sheets_and_their_records_end_alike() {
    let folder = concat!(env!("CARGO_MANIFEST_DIR"), "/../examples/");
    for file in ["water", "stars", "repeated", "unknown"] {
        let input = std::fs::read(format!("{folder}{file}.sheet")).unwrap();
        let (signature, call) = sheet::read(&input).unwrap();
        let ended = collect(&signature, &call);
        assert_eq!(
            sheet::print(&signature, &ended),
            bind_sheet(&input),
            "{file}"
        );
    }
    let input = std::fs::read(format!("{folder}misspelled.sheet")).unwrap();
    assert_eq!(sheet::read(&input), Err(Refusal::BadSheet { line: 4 }));
}

#[test]
fn columns_stand_in_any_order_and_lists_after_their_first_line() {
    let input = b"value,name,part\n,f,def\n,,*args\n,,**kwargs\n\nname,part,value\n\
        ,dstar,dict\n,star,list\nsa,entry,i1\n,item,r7ff8000000000001\n,pos,h4294967295\ni7,entry,n\n";
    let (signature, call) = sheet::read(input).unwrap();
    assert_eq!(signature, Signature::new("f").args().kwargs());
    let no_number = Value::Real(f64::from_bits(0x7ff8_0000_0000_0001));
    let entries = vec![(Key::text("a"), 1.into()), (Key::Whole(7), ().into())];
    let same = Call::new()
        .positional(Value::Handle(u32::MAX))
        .items([no_number]);
    assert_eq!(call, same.double(Double::Entries(entries)));
}

// Every form of a value and of a key, as a default and as an argument.
#[test]
fn sheets_hold_every_value() {
    let forms = [
        "n",
        "b0",
        "b1",
        "i0",
        "i-9223372036854775808",
        "i9223372036854775807",
        "r0000000000000000",
        "rfff8000000000001",
        "s",
        "stext",
        "h0",
        "h4294967295",
    ];
    for form in forms {
        let list = format!("part,name,value\ndef,f,\n*args,,\ndefaulted,a,{form}\n**kwargs,,\n");
        let written =
            format!("part,name,value\npos,,{form}\nnamed,b,{form}\nstar,,list\nitem,,{form}\n");
        for key in ["sc", "s", "i7", "n"] {
            let entry = format!("dstar,,dict\nentry,{key},{form}\n");
            let input = [&list, "\n", &written, &entry].concat().into_bytes();
            let (signature, call) = sheet::read(&input).unwrap();
            let ended = collect(&signature, &call);
            let printed = sheet::print(&signature, &ended);
            assert_eq!(printed, bind_sheet(&input), "{form} {key}");
            assert_eq!(ended.is_ok(), key.starts_with('s'));
        }
    }
}
