//! An interpreter of the V30's instructions, native and of the 8080 mode, written apart from the proved engine to judge it.

#![forbid(unsafe_code)]

mod execute;
pub mod gap_rule;
pub mod intel_hex;
pub mod judge;
pub mod listing;
pub mod machine;
pub mod memory;
mod operand;
pub mod play;
pub mod portlog;
pub mod refusal;
pub mod rom_listing;
pub mod state;
mod width;
