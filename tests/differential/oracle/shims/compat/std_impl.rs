//! Ours. What the given files take from `std` through `crate::compat`.
#![allow(unused_imports)]

pub use std::vec::Vec;
