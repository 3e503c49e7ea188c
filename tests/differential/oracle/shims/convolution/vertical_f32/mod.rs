//! Ours. The way into the given file of this folder.

use crate::convolution::u8x4::coefficients_of;
use crate::convolution::Coefficients;
use crate::door::{Frame, FrameMut, Weights};
use crate::pixels::F32;

mod native;

/// The given pass over a frame of one-component pixels.
fn by_coefficients(src: &Frame<F32>, dst: &mut FrameMut<F32>, first: u32, weights: &Coefficients) {
    native::vert_convolution(src, dst, first, weights);
}

/// The same, from a list of weights.
fn pass(src: &Frame<F32>, dst: &mut FrameMut<F32>, first: u32, set: &Weights) {
    by_coefficients(src, dst, first, &coefficients_of(set));
}

impl crate::door::Door {
    pub(crate) const PASS_F32_BY: fn(&Frame<F32>, &mut FrameMut<F32>, u32, &Coefficients) = by_coefficients;
    pub(crate) const PASS_F32: fn(&Frame<F32>, &mut FrameMut<F32>, u32, &Weights) = pass;
}
