//! Tests computed by hand from the papers.

mod arithmetic;
mod bench;
mod bits;
mod blocks;
mod branches;
mod cards;
mod decimal;
mod drops;
mod generated;
mod log;
mod memory;
mod play;
mod ports;
mod prefixes;
mod refusals;
mod rom_listing;
mod segment_loads;
mod shifts;
mod small_table;
mod stack;
mod stream;
mod transfers;
mod traps;
