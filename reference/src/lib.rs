//! Agreements between link state bridges: runs a plan and gives all that the program prints for it.
//!
//! Layers, from the lowest: `map` and `distances` (views), `records` (one bridge's agreement records),
//! `network`, `forwarding` and `reason` (the bench), `plan` and `program` (reading a plan, printing). The layers
//! below the plan are public, so that each can be compared by itself.

pub mod distances;
pub mod forwarding;
pub mod map;
pub mod network;
mod plan;
mod program;
pub mod reason;
pub mod records;
pub mod refusal;

/// All the bytes that the program prints for this plan.
pub fn output(plan: &[u8]) -> Vec<u8> {
    program::output(plan).into_bytes()
}
