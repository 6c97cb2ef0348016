//! Sets of parking bays, over the proved library of this repository.
//!
//! A set is the bays 1 to its last bay, which is from 1 to 65,535, each a member or not. An [`Index`] is a set in memory of its own, in one of
//! four [`Form`]s. It answers the questions of a set, whole batches at a time, and is filled into any form; two of them are walked
//! through as a [`Pair`].
//!
//! ```
//! use bays::{Form, Index, Pair, Question, Sort};
//!
//! let free = Index::of_members(16, &[1, 2, 3, 8, 9, 10, 11])?;
//! assert_eq!(free.ask(Question::Next, Sort::Members, &[4, 12]), [8, 0]);
//!
//! let blocks = free.filled(Form::Zombit { size: 2 })?;
//! assert_eq!(blocks.bytes(), [213, 59, 25]);
//!
//! let charging = Index::of_members(16, &[2, 5, 9, 10, 14])?;
//! let sheet = Pair::new(&blocks, &charging).sheet(1, 16)?;
//! assert_eq!(sheet.bays, [2, 9, 10]);
//! assert_eq!(sheet.report.stretches, 9);
//! # Ok::<(), bays::Fault>(())
//! ```
//!
//! [`calls`] has the functions of the library one to one, over memory of the caller's.
//!
//! What each call answers, for all contents and numbers, is proved of the library's code, in the words of its `specs/`. That this package
//! declares its functions as they are, and passes on what it is given, is tested.

pub mod calls;
mod fault;
mod ffi;
mod form;
mod index;
mod pair;
mod question;
mod told;

pub use fault::Fault;
pub use form::Form;
pub use index::Index;
pub use pair::{Pair, Report, Sheet};
pub use question::{Question, Sort};
pub use told::Told;
