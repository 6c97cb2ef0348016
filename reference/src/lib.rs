//! The reference console: the rules of docs/ written down naively, over a yes or a no for each bay.

pub mod bits;
pub mod commands;
pub mod console;
pub mod forms;
pub mod help;
pub mod layers;
pub mod lines;
pub mod list;
pub mod pioneer;
pub mod plain;
pub mod refusals;
pub mod round;
pub mod sets;
pub mod words;
pub mod zombit;
