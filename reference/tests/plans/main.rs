//! Whole plans and their whole output.

mod arbitrary;
mod builder;
mod ends;
mod errors;
mod example;
mod known;
mod numbers;
mod refusals;
