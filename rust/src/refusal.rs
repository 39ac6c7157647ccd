//! Refusals: one variant for each number of document 01, with its detail. Number 8 is retired and has none.

use std::error::Error;
use std::fmt::{self, Display, Formatter};

use crate::records::{RawRefusal, NOT_PREPARED, NO_ROOM};

/// Why a record, a call, a sheet or a list of runs is refused. Those of binding have the names of the Rust's `FunctionError` where it has one.
#[derive(Clone, Debug, PartialEq, Eq)]
pub enum Refusal {
    /// 1: more than 66 steps, or cells that are no whole steps.
    TooManySteps,
    /// 2: a step's code is none of 1 to 7.
    UnknownCode,
    /// 3: the function's or a parameter's name is empty or has more than 64 bytes.
    BadName,
    /// 4: a default is no value of its kind, or an unused cell is not 0.
    BadDefault,
    /// 5: a step may not stand there.
    MisplacedStep,
    /// 6: more than 64 parameters.
    TooManyParameters,
    /// 7: two parameters that can be named have one name.
    RepeatedParameterName,
    /// 9: more than 64 arguments of a sort, or other cells than they call for.
    TooManyArguments,
    /// 10: what stands behind a star is of no known kind, or has values where it can have none.
    UnknownStarKind,
    /// 11: a value, name or key of the call is none of its kind.
    BadArgument,
    /// 12: the dictionary has a key twice.
    RepeatedKey,
    /// 13: a name is written twice.
    RepeatedName,
    /// 14: a board of fewer than 896 cells.
    ShortBoard,
    /// 15: what stands behind `*` is not iterable.
    ArgsArrayIsNotIterable,
    /// 16: a parameter is given by position and by a written name.
    RepeatedParameter { name: Vec<u8> },
    /// 17: what stands behind `**` is no dictionary.
    KwArgsIsNotDict,
    /// 18: a key of the dictionary is no text.
    ArgsValueIsNotString,
    /// 19: the dictionary gives again what was given.
    RepeatedArg { name: Vec<u8> },
    /// 20: a required parameter is missing that is given by position only.
    MissingPositionalOnly { name: Vec<u8> },
    /// 21: a required parameter is missing.
    Missing { name: Vec<u8> },
    /// 22: a required parameter is missing that is given by name only.
    MissingNamedOnly { name: Vec<u8> },
    /// 23: so many positionals are left over.
    ExtraPositionalArg { count: usize },
    /// 24: so many names are left over, and the first of them. Asked before 20 to 23, since such a name may be a missing one misspelled.
    ExtraNamedArg { count: usize, first: Vec<u8> },
    /// 25: more than 64 positionals are asked for.
    TooManyAskedFor,
    /// 26: the number of positionals is not between these two.
    WrongNumberOfArgs { min: usize, max: usize, got: usize },
    /// 27: no slot is left to read.
    NoSlotLeft,
    /// 28: a slot that must be filled is empty.
    EmptySlot,
    /// 29: an output of fewer than 8,192 bytes.
    ShortOutput,
    /// 30: the sheet breaks a rule at this line, counted from 1; 0 where the whole input is too long.
    BadSheet { line: usize },
    /// 39: a window of no run or of more than 1,440, or a list of more than 4,096 runs.
    WindowOutOfRange,
    /// 100: the cells are no prepared list.
    NotPrepared,
    /// 101: the output is too short for any answer.
    NoRoom,
}

impl Refusal {
    /// What a refusal over cells means, its name read out of the areas that were lent.
    ///
    /// # Panics
    ///
    /// On a number that the library never answers.
    pub fn of(raw: RawRefusal, spec: &[u8], call: &[u8]) -> Refusal {
        let name = || {
            raw.name
                .map(|place| place.bytes(spec, call).to_vec())
                .unwrap_or_default()
        };
        let [first, second, third, _] = raw.values.map(|value| value as usize);
        match raw.number {
            16 => Refusal::RepeatedParameter { name: name() },
            19 => Refusal::RepeatedArg { name: name() },
            20 => Refusal::MissingPositionalOnly { name: name() },
            21 => Refusal::Missing { name: name() },
            22 => Refusal::MissingNamedOnly { name: name() },
            23 => Refusal::ExtraPositionalArg { count: first },
            24 => Refusal::ExtraNamedArg {
                count: first,
                first: name(),
            },
            26 => Refusal::WrongNumberOfArgs {
                min: first,
                max: second,
                got: third,
            },
            30 => Refusal::BadSheet { line: first },
            other => Refusal::without_detail(other),
        }
    }

    fn without_detail(number: u64) -> Refusal {
        match number {
            1 => Refusal::TooManySteps,
            2 => Refusal::UnknownCode,
            3 => Refusal::BadName,
            4 => Refusal::BadDefault,
            5 => Refusal::MisplacedStep,
            6 => Refusal::TooManyParameters,
            7 => Refusal::RepeatedParameterName,
            9 => Refusal::TooManyArguments,
            10 => Refusal::UnknownStarKind,
            11 => Refusal::BadArgument,
            12 => Refusal::RepeatedKey,
            13 => Refusal::RepeatedName,
            14 => Refusal::ShortBoard,
            15 => Refusal::ArgsArrayIsNotIterable,
            17 => Refusal::KwArgsIsNotDict,
            18 => Refusal::ArgsValueIsNotString,
            25 => Refusal::TooManyAskedFor,
            27 => Refusal::NoSlotLeft,
            28 => Refusal::EmptySlot,
            29 => Refusal::ShortOutput,
            39 => Refusal::WindowOutOfRange,
            NOT_PREPARED => Refusal::NotPrepared,
            NO_ROOM => Refusal::NoRoom,
            other => unreachable!("the library has no refusal {other}"),
        }
    }

    /// The number of document 01, or of the request of document 02 that has it.
    pub fn number(&self) -> u64 {
        match self {
            Refusal::TooManySteps => 1,
            Refusal::UnknownCode => 2,
            Refusal::BadName => 3,
            Refusal::BadDefault => 4,
            Refusal::MisplacedStep => 5,
            Refusal::TooManyParameters => 6,
            Refusal::RepeatedParameterName => 7,
            Refusal::TooManyArguments => 9,
            Refusal::UnknownStarKind => 10,
            Refusal::BadArgument => 11,
            Refusal::RepeatedKey => 12,
            Refusal::RepeatedName => 13,
            Refusal::ShortBoard => 14,
            Refusal::ArgsArrayIsNotIterable => 15,
            Refusal::RepeatedParameter { .. } => 16,
            Refusal::KwArgsIsNotDict => 17,
            Refusal::ArgsValueIsNotString => 18,
            Refusal::RepeatedArg { .. } => 19,
            Refusal::MissingPositionalOnly { .. } => 20,
            Refusal::Missing { .. } => 21,
            Refusal::MissingNamedOnly { .. } => 22,
            Refusal::ExtraPositionalArg { .. } => 23,
            Refusal::ExtraNamedArg { .. } => 24,
            Refusal::TooManyAskedFor => 25,
            Refusal::WrongNumberOfArgs { .. } => 26,
            Refusal::NoSlotLeft => 27,
            Refusal::EmptySlot => 28,
            Refusal::ShortOutput => 29,
            Refusal::BadSheet { .. } => 30,
            Refusal::WindowOutOfRange => 39,
            Refusal::NotPrepared => NOT_PREPARED,
            Refusal::NoRoom => NO_ROOM,
        }
    }

    /// The name in its detail, for 16, 19 to 22 and 24.
    pub fn name(&self) -> Option<&[u8]> {
        match self {
            Refusal::RepeatedParameter { name }
            | Refusal::RepeatedArg { name }
            | Refusal::MissingPositionalOnly { name }
            | Refusal::Missing { name }
            | Refusal::MissingNamedOnly { name }
            | Refusal::ExtraNamedArg { first: name, .. } => Some(name),
            _ => None,
        }
    }

    // What is wrong, but for the name.
    fn sentence(&self) -> &'static str {
        match self {
            Refusal::TooManySteps => "the list has more than 66 steps, or is cut off inside one",
            Refusal::UnknownCode => "a step of the list is of no known sort",
            Refusal::BadName => "a name of the list is empty or has more than 64 bytes",
            Refusal::BadDefault => "a default is no proper value, or an unused cell is not 0",
            Refusal::MisplacedStep => "a step of the list may not stand there",
            Refusal::TooManyParameters => "the list has more than 64 parameters",
            Refusal::RepeatedParameterName => "two parameters that can be named have one name",
            Refusal::TooManyArguments => "the call has more than 64 of a sort, or other cells",
            Refusal::UnknownStarKind => "what stands behind a star is of no known sort",
            Refusal::BadArgument => "something in the call is no proper value, name or key",
            Refusal::RepeatedKey => "the dictionary has a key twice",
            Refusal::RepeatedName => "the call writes a name twice",
            Refusal::ShortBoard => "there is too little room for the slots",
            Refusal::ArgsArrayIsNotIterable => "what stands behind * is no list",
            Refusal::RepeatedParameter { .. } => "given by position and by name",
            Refusal::KwArgsIsNotDict => "what stands behind ** is no dictionary",
            Refusal::ArgsValueIsNotString => "a key of the dictionary is no text",
            Refusal::RepeatedArg { .. } => "given again by the dictionary",
            Refusal::MissingPositionalOnly { .. } => "missing, and given by position only",
            Refusal::Missing { .. } => "missing",
            Refusal::MissingNamedOnly { .. } => "missing, and given by name only",
            Refusal::ExtraPositionalArg { .. } => "too many values by position",
            Refusal::ExtraNamedArg { .. } => "no name that the function takes",
            Refusal::TooManyAskedFor => "more than 64 values are asked for",
            Refusal::WrongNumberOfArgs { .. } => "the wrong number of values by position",
            Refusal::NoSlotLeft => "no slot is left to read",
            Refusal::EmptySlot => "a slot that must be filled is empty",
            Refusal::ShortOutput => "there is too little room for the printed list",
            Refusal::BadSheet { .. } => "the sheet breaks a rule",
            Refusal::WindowOutOfRange => {
                "a window has 1 to 1,440 runs, and a list at most 4,096 of them"
            }
            Refusal::NotPrepared => "the cells are no prepared list",
            Refusal::NoRoom => "the output is too short",
        }
    }
}

impl Display for Refusal {
    fn fmt(&self, f: &mut Formatter) -> fmt::Result {
        if let Some(name) = self.name() {
            write!(f, "`{}`: ", String::from_utf8_lossy(name))?;
        }
        f.write_str(self.sentence())?;
        match self {
            Refusal::ExtraPositionalArg { count } => write!(f, ": {count} left over"),
            Refusal::ExtraNamedArg { count, .. } => write!(f, ", the first of {count}"),
            Refusal::WrongNumberOfArgs { min, max, got } => {
                write!(f, ": from {min} to {max}, got {got}")
            }
            Refusal::BadSheet { line } => write!(f, " at line {line}"),
            _ => Ok(()),
        }
    }
}

impl Error for Refusal {}

#[cfg(test)]
mod tests {
    use std::collections::HashSet;

    use super::*;
    use crate::records::{Area, Place};

    fn of(number: u64) -> Refusal {
        let place = Place {
            area: Area::Spec,
            start: 1,
            length: 2,
        };
        let raw = RawRefusal {
            number,
            name: Some(place),
            values: [7, 8, 9, 0],
        };
        Refusal::of(raw, b"xab", b"")
    }

    #[test]
    fn each_number_has_its_refusal() {
        let mut told = HashSet::new();
        for number in (1..=7).chain(9..=30).chain([39, NOT_PREPARED, NO_ROOM]) {
            assert_eq!(of(number).number(), number);
            assert!(told.insert(of(number).to_string()));
        }
    }

    #[test]
    #[should_panic(expected = "the library has no refusal 8")]
    fn eight_is_retired() {
        of(8);
    }

    #[test]
    fn details_are_told() {
        let told = |number| of(number).to_string();
        assert_eq!(told(16), "`ab`: given by position and by name");
        assert_eq!(told(23), "too many values by position: 7 left over");
        assert_eq!(
            told(24),
            "`ab`: no name that the function takes, the first of 7"
        );
        assert_eq!(
            told(26),
            "the wrong number of values by position: from 7 to 8, got 9"
        );
        assert_eq!(told(30), "the sheet breaks a rule at line 7");
    }
}
