//! Safe calls of the proved library, `libmirror.a` (include/mirror.h). Every function takes any numbers and lists; what document 01
//! refuses comes back as a [`Refusal`]. Nothing is allocated and nothing panics. `raw` is the C interface as it is.
#![no_std]
#![deny(unsafe_op_in_unsafe_fn)]

mod alpha;
mod book;
mod crops;
mod numbers;
mod passes;
pub mod raw;
mod readers;
mod refusal;
mod repairs;
mod sets;
mod sheets;
mod store;
mod stories;

pub use alpha::{divide_alpha, divide_alpha_inplace, multiply_alpha, multiply_alpha_inplace};
pub use alpha::{divide_alpha16, divide_alpha16_inplace, multiply_alpha16, multiply_alpha16_inplace};
pub use book::{book, Report};
pub use crops::{crop, fit, Centring, CropBox};
pub use numbers::{abs, ceil, clip8, filter, floor, narrow, round, widen, Filter, FilterType, Narrowed};
pub use passes::{horizontal_u16, vertical_f32, vertical_u16, vertical_u8, Frame, PixelFrame};
pub use readers::{read_sheet, read_sheet16, Head};
pub use refusal::Refusal;
pub use repairs::{accept16, accept32, offer16, offer32, Offer, Repairable};
pub use sets::{normalize16, normalize32, weights, Axis, Request, Set, Stored};
pub use sheets::{sheet16, sheet32};
pub use store::{Client, Store};
pub use stories::story;

/// The number of a line of the camera's image, from 0.
#[repr(transparent)]
#[derive(Clone, Copy, Debug, Default, PartialEq, Eq, PartialOrd, Ord)]
pub struct CameraLine(pub u32);

/// The number of a line of the display, from 0. Neither numbering is ever used for the other.
#[repr(transparent)]
#[derive(Clone, Copy, Debug, Default, PartialEq, Eq, PartialOrd, Ord)]
pub struct DisplayLine(pub u32);
