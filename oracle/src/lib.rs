// The published bodies of starlark 0.14.2 over stand-in types, to compare our answers with. `spec.rs`, `arguments.rs`, `map.rs`, `display.rs`
// and `parser.rs` are published text but for the lines marked `stand-in`; `standin/` and this file are ours. This file gives the
// published `use` lines the paths that they name.
#![allow(dead_code)]

extern crate self as either;
extern crate self as hashbrown;
extern crate self as starlark_map;
extern crate self as starlark_syntax;

pub mod standin {
    pub mod calls;
    pub mod def_param_indices;
    pub mod dict;
    pub mod errors;
    pub mod evaluator;
    pub mod hash_table;
    pub mod hashing;
    pub mod heap;
    pub mod iter;
    pub mod marks;
    pub mod small_map;
    pub mod symbol;
    pub mod timed;
    pub mod told;
    pub mod value;
}

pub use standin::errors::Error;
pub use standin::errors::ErrorKind;
pub use standin::errors::Result;
pub use standin::hash_table::HashTable;
pub use standin::hashing::Hashed;
pub use standin::marks::Either;

pub mod small_map {
    pub use crate::standin::small_map::SmallMap;
}

pub mod small_set {
    pub use crate::standin::small_map::SmallSet;
}

pub mod syntax {
    pub mod def {
        pub use crate::standin::def_param_indices::DefParamIndices;
    }
}

pub mod cast {
    pub(crate) use crate::standin::marks::transmute;
}

pub mod coerce {
    pub use crate::standin::marks::coerce;
    pub use crate::standin::marks::Coerce;
}

#[path = ""]
pub mod __macro_refs {
    pub use crate::standin::marks::coerce;
}

pub mod hint {
    pub use crate::standin::marks::unlikely;
}

#[path = "."]
pub mod collections {
    pub use crate::standin::hashing::Hashed;
    pub use crate::standin::hashing::StarlarkHashValue;
    pub use crate::standin::small_map::SmallMap;

    #[path = "."]
    pub mod symbol {
        #[rustfmt::skip]
        #[allow(clippy::all)]
        pub mod map;
        #[allow(clippy::module_inception)]
        pub mod symbol {
            pub use crate::standin::symbol::Symbol;
        }
    }
}

#[path = "."]
pub mod eval {
    pub use crate::eval::runtime::arguments::Arguments;
    pub use crate::eval::runtime::params::parser::ParametersParser;
    pub use crate::eval::runtime::params::spec::ParametersSpec;
    pub use crate::standin::evaluator::Evaluator;

    #[path = "."]
    pub mod runtime {
        #[rustfmt::skip]
        #[allow(clippy::all)]
        pub mod arguments;

        #[path = "."]
        pub mod params {
            #[rustfmt::skip]
        #[allow(clippy::all)]
        pub mod display;
            #[rustfmt::skip]
        #[allow(clippy::all)]
        pub mod parser;
            #[rustfmt::skip]
        #[allow(clippy::all)]
        pub mod spec;
        }
    }
}

pub mod values {
    pub use crate::standin::heap::Heap;
    pub use crate::standin::heap::HeapStore;
    pub use crate::standin::value::StringValue;
    pub use crate::standin::value::UnpackValue;
    pub use crate::standin::value::Value;
    pub use crate::standin::value::ValueLike;

    pub mod dict {
        pub use crate::standin::dict::Dict;
        pub use crate::standin::dict::DictRef;
    }

    pub mod iter {
        pub use crate::standin::iter::StarlarkIterator;
    }
}
