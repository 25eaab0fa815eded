//! The planner's program: text plans over the proved library. README.md explains it. Each folder uses those above it in this list only.

mod proved;

mod notation;

mod rehearsal;

mod layout;

mod translate;

mod command;

use std::process::ExitCode;

fn main() -> ExitCode {
    let arguments: Vec<_> = std::env::args_os().skip(1).collect();
    ExitCode::from(command::command(&arguments))
}
