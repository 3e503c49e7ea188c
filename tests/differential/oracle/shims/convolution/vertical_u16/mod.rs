//! Ours. The way into the given file of this folder.

use crate::convolution::u8x4::normalizer_of;
use crate::convolution::optimisations::Normalizer32;
use crate::door::{Frame, FrameMut};
use crate::pixels::U16;

mod native;

/// The given pass over a frame of one-component pixels.
fn by_normalizer(src: &Frame<U16>, dst: &mut FrameMut<U16>, first: u32, weights: &Normalizer32) {
    native::vert_convolution(src, dst, first, weights);
}

/// The same, from a list of weights.
fn pass(
    src: &Frame<U16>, dst: &mut FrameMut<U16>, first: u32,
    precision: u32, window: usize, weights: &[i32], starts: &[u32], sizes: &[u32],
) {
    by_normalizer(src, dst, first, &normalizer_of(precision, window, weights, starts, sizes));
}

impl crate::door::Door {
    pub(crate) const PASS_U16_BY: fn(&Frame<U16>, &mut FrameMut<U16>, u32, &Normalizer32) = by_normalizer;
    #[allow(clippy::type_complexity)]
    pub(crate) const PASS_U16: fn(&Frame<U16>, &mut FrameMut<U16>, u32, u32, usize, &[i32], &[u32], &[u32]) = pass;
}
