//! A plan carried out: which events its lines stand for, what came of them, what is told of it.

pub mod expand;
pub mod port;
mod refusal;
pub mod run;
pub mod story;
mod warning;
pub mod watch;
pub mod why;
