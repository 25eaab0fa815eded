//! Plans as text: words, names, lines, and what is wrong with them.

pub mod fault;
pub mod item;
mod lines;
mod names;
pub mod parse;
mod setup;
mod words;
