//! Tests of the compiled bench from Rust. Nothing here is proved, and nothing here is used by the proved crates.

pub mod bridge_update;
pub mod call;
pub mod case;
pub mod case_expected;
pub mod count;
pub mod entry;
pub mod flaw;
pub mod guard;
pub mod list_call;
pub mod list_expected;
pub mod list_random;
pub mod model;
pub mod network_call;
pub mod network_entry;
pub mod network_event;
pub mod network_handed;
pub mod network_known;
pub mod network_numbers;
pub mod network_random;
pub mod network_run;
pub mod plan_bytes;
pub mod random;
pub mod random_case;
pub mod reading_call;
pub mod records_numbers;
pub mod slice_call;
pub mod verdict;
pub mod verdict_lists;
pub mod view;

use std::path::{Path, PathBuf};

/// The repository's folder.
pub fn root() -> PathBuf {
    Path::new(env!("CARGO_MANIFEST_DIR")).join("..")
}
