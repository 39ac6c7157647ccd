//! Starlark calls bound to parameter lists, by a library that is written in Rattle and proved (document 01 is its definition).
//!
//! [`Signature`] and [`Call`] say what is to be bound; [`collect`] binds, [`can_fill`] foretells whether a call would be accepted, and a
//! [`Refusal`] says why not. [`bind_sheet`] does the same from sheets to text. [`window`] asks where a list of runs exceeds a pump permit.
//! [`records`] is the layer below, over cells and without allocation, and [`raw`] the boundary itself.
//!
//! What is proved is the library behind [`raw`]; the encoding of Rust's types into records, here, is tested.

mod bound;
mod call;
mod prepared;
pub mod raw;
mod reader;
pub mod records;
mod refusal;
pub mod sheet;
mod signature;
mod value;
mod window;

pub use bound::{can_fill, collect, collect_records, Bound, Slot};
pub use call::{Call, Double, Key, Star};
pub use prepared::Prepared;
pub use reader::Slots;
pub use records::Counts;
pub use refusal::Refusal;
pub use sheet::bind_sheet;
pub use signature::{Signature, Step};
pub use value::{Areas, Value, TEXT};
pub use window::window;
