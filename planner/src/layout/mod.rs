//! What happened, laid out: as text, as JSON, two plans side by side.

pub mod compare;
pub mod json;
pub mod print;
mod table;
