// Ours: what a benchmark asks of the published bodies that they keep to their crate.
use crate::eval::ParametersSpec;
use crate::values::Value;

// A list of required parameters, by position or name, through the published builder.
pub fn plain_list<'v>(function: &str, names: &[&str]) -> ParametersSpec<Value<'v>> {
    let mut builder = ParametersSpec::with_capacity(function.to_owned(), names.len());
    builder.no_more_positional_only_args();
    for name in names {
        builder.required(name);
    }
    builder.finish()
}
