//! Ours. The way into the given file of this folder.

pub(crate) mod native;
