//! Case streams: made, answered and compared.

pub mod answer;
pub mod case;
pub mod diff;
pub mod generate;
pub mod names;
pub mod names_8080;
pub mod result;
