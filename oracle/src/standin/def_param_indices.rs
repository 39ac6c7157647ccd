// Stand-in, ours, for `DefParamIndices`, whose file is missing. The fields are those that `finish` fills. The ranges are read off their use in
// `parameters_str`: positional-only ones come first, then those up to the positional count; named-only ones follow *args, or the positional
// ones where it is absent, up to **kwargs or the end.
use std::ops::Range;

#[derive(Debug, Clone, Copy)]
pub struct DefParamIndices {
    pub num_positional_only: u32,
    pub num_positional: u32,
    pub args: Option<u32>,
    pub kwargs: Option<u32>,
}

impl DefParamIndices {
    pub fn pos_only(&self) -> Range<usize> {
        0..self.num_positional_only as usize
    }

    pub fn pos_or_named(&self) -> Range<usize> {
        self.num_positional_only as usize..self.num_positional as usize
    }

    pub fn named_only(&self, num_params: usize) -> Range<usize> {
        let from = match self.args {
            Some(args) => args as usize + 1,
            None => self.num_positional as usize,
        };
        from..self.kwargs.map_or(num_params, |kwargs| kwargs as usize)
    }
}
