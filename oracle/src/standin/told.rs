// Ours: what an error of the published bodies says, told apart by its case or, where the original has only words, by its words.
use crate::eval::runtime::arguments::FunctionError;
use crate::Error;
use crate::ErrorKind;

#[derive(Debug, Clone, PartialEq, Eq)]
pub enum Told {
    RepeatedName(String),
    NotIterable,
    RepeatedArg(String),
    KwArgsIsNotDict,
    ArgsValueIsNotString,
    MissingPositionalOnly(String),
    Missing(String),
    MissingNamedOnly(String),
    ExtraPositionalArg(usize),
    ExtraNamedArg(Vec<String>),
    WrongNumberOfArgs(usize, usize, usize),
    NoSlotLeft,
    EmptySlot,
    Words(String),
}

// `function` is the function's name, which the words about a missing parameter end with.
pub fn told(error: &Error, function: &str) -> Told {
    let inner = match error.kind() {
        ErrorKind::Function(e) | ErrorKind::Value(e) => e,
        ErrorKind::Internal(e) | ErrorKind::Other(e) => e,
    };
    if let Some(case) = inner.downcast_ref::<FunctionError>() {
        return told_case(case);
    }
    match inner.downcast_ref::<String>() {
        Some(words) => told_words(words, function),
        None => Told::Words(format!("{error:?}")),
    }
}

fn told_case(case: &FunctionError) -> Told {
    match case.clone() {
        FunctionError::ExtraPositionalArg { count, .. } => Told::ExtraPositionalArg(count),
        FunctionError::ExtraNamedArg { names, .. } => Told::ExtraNamedArg(names),
        FunctionError::RepeatedArg { name } => Told::RepeatedArg(name),
        FunctionError::ArgsValueIsNotString => Told::ArgsValueIsNotString,
        FunctionError::ArgsArrayIsNotIterable => Told::NotIterable,
        FunctionError::KwArgsIsNotDict => Told::KwArgsIsNotDict,
        FunctionError::WrongNumberOfArgs { min, max, got } => {
            Told::WrongNumberOfArgs(min, max, got)
        }
    }
}

fn told_words(words: &str, function: &str) -> Told {
    let end = format!("` for call to `{function}`");
    let between = |begin: &str, end: &str| {
        let rest = words.strip_prefix(begin)?;
        Some(rest.strip_suffix(end)?.to_owned())
    };
    if let Some(name) = between("Missing positional-only parameter `", &end) {
        return Told::MissingPositionalOnly(name);
    }
    if let Some(name) = between("Missing named-only parameter `", &end) {
        return Told::MissingNamedOnly(name);
    }
    if let Some(name) = between("Missing parameter `", &end) {
        return Told::Missing(name);
    }
    if let Some(name) = between("Argument `", "` occurs more than once") {
        return Told::RepeatedName(name);
    }
    if words == "Requesting more parameters than were specified" {
        return Told::NoSlotLeft;
    }
    if words.starts_with("Requested non-optional param ") {
        return Told::EmptySlot;
    }
    if words.starts_with("Operation `") {
        return Told::NotIterable;
    }
    Told::Words(words.to_owned())
}
