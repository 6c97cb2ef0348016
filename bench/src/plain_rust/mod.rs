// The plain Rust version: the same four layouts, without `unsafe` and without stored counts. It has the same calls as the C interface.
mod ask;
mod bits;
mod faults;
mod fill;
mod index;
mod list;
mod pioneer;
mod plain;
mod round;
mod set;
mod words;
mod writer;
mod zombit;

pub use ask::ask;
pub use fill::{fill, measure};
pub use index::open;
pub use round::{count, nearest, sheet};
