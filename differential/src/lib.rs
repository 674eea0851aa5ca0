//! Second implementations of document 01 and of document 02's requests 1, 2, 3 and 5 to 11, and what is
//! needed to compare an engine with them.
//!
//! - `second`: the documents restated; everything is computed anew after each command.
//! - `literal`: the definitions word for word, for small networks; `second` is tested against it.
//! - `incremental`: the method of the proved register, written by hand over ordinary arrays.
//! - `register`: the proved register itself, behind the feature of that name.
//! - `faults`: engines that are wrong on purpose.

#![deny(unsafe_code)]

pub mod cases;
pub mod compare;
pub mod ducts;
pub mod engine;
pub mod exchanges;
pub mod faults;
pub mod forecasts;
pub mod histories;
pub mod incremental;
pub mod joins;
pub mod journals;
pub mod kinds;
pub mod layouts;
pub mod literal;
pub mod names;
pub mod pairs;
pub mod program;
pub mod raising;
pub mod random;
pub mod records;
pub mod refusals;
#[cfg(feature = "register")]
pub mod register;
pub mod rewriting;
pub mod routes;
pub mod second;
pub mod sizes;
pub mod spans;
pub mod surveys;
pub mod to_the_byte;
