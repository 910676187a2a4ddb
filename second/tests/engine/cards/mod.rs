//! The 8080 mode: values from the uPD8080AF's description, modes and permission from the V30's papers.

mod arithmetic;
mod bytes;
mod generated;
mod jumps;
mod mode;
mod stack;
mod transfers;

use crate::bench::{bench, Bench};

/// Code of the 8080 mode at 2000:0000; data and its stack are at DS0, which is 0000.
fn card(code: &[u8]) -> Bench {
    bench(code).in_8080_mode()
}
