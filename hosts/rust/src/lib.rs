//! The lane supervisor for hosts in Rust.
//!
//! [`binding`] declares the C functions as `rondavitse.h` does; [`lane`] is
//! the safe way to call them.

pub mod binding;
pub mod lane;
pub mod refusal;

pub use lane::{Carrier, Cycled, Gap, Lane, Newcomer, Reading, Road, Stepped, Wish, MOST_CARRIERS};
pub use refusal::Refusal;
