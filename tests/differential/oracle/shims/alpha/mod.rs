//! Ours. The way into the given files of this folder.
#![allow(unused_macros)]

#[macro_use]
pub(crate) mod common;
pub(crate) mod u16x4;
pub(crate) mod u8x4;
