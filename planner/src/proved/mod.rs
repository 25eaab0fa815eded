//! The proved library: its calls, and the fields of a plan as its reader reads them.

pub mod field;
pub mod library;
