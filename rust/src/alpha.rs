use crate::raw;
use crate::refusal::{judged, Refusal};

/// Colours times alpha, pixels of four bytes, alpha last and kept.
pub fn multiply_alpha(src: &[u8], dst: &mut [u8]) -> Result<(), Refusal> {
    judged(unsafe { raw::mirror_multiply_u8x4(src.as_ptr(), src.len(), dst.as_mut_ptr(), dst.len()) }, 0)
}

/// The same, of the list itself.
pub fn multiply_alpha_inplace(pixels: &mut [u8]) -> Result<(), Refusal> {
    judged(unsafe { raw::mirror_multiply_u8x4_inplace(pixels.as_mut_ptr(), pixels.len()) }, 0)
}

/// Colours over alpha, held to 255; 0 where alpha is 0.
pub fn divide_alpha(src: &[u8], dst: &mut [u8]) -> Result<(), Refusal> {
    judged(unsafe { raw::mirror_divide_u8x4(src.as_ptr(), src.len(), dst.as_mut_ptr(), dst.len()) }, 0)
}

/// The same, of the list itself.
pub fn divide_alpha_inplace(pixels: &mut [u8]) -> Result<(), Refusal> {
    judged(unsafe { raw::mirror_divide_u8x4_inplace(pixels.as_mut_ptr(), pixels.len()) }, 0)
}

/// Colours times alpha, pixels of four 16-bit components, alpha last and kept.
pub fn multiply_alpha16(src: &[u16], dst: &mut [u16]) -> Result<(), Refusal> {
    judged(unsafe { raw::mirror_multiply_u16x4(src.as_ptr(), src.len(), dst.as_mut_ptr(), dst.len()) }, 0)
}

/// The same, of the list itself.
pub fn multiply_alpha16_inplace(pixels: &mut [u16]) -> Result<(), Refusal> {
    judged(unsafe { raw::mirror_multiply_u16x4_inplace(pixels.as_mut_ptr(), pixels.len()) }, 0)
}

/// Colours over alpha, held to 65535; 0 where alpha is 0.
pub fn divide_alpha16(src: &[u16], dst: &mut [u16]) -> Result<(), Refusal> {
    judged(unsafe { raw::mirror_divide_u16x4(src.as_ptr(), src.len(), dst.as_mut_ptr(), dst.len()) }, 0)
}

/// The same, of the list itself.
pub fn divide_alpha16_inplace(pixels: &mut [u16]) -> Result<(), Refusal> {
    judged(unsafe { raw::mirror_divide_u16x4_inplace(pixels.as_mut_ptr(), pixels.len()) }, 0)
}
