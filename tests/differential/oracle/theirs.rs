//! Ours. Calls of the given Rust, one function each, with plain lists on both sides. No refusals here.

use crate::alpha::u16x4::native as native16;
use crate::alpha::u8x4::native;
use crate::convolution::{get_filter_func, precompute_coefficients, FilterType};
use crate::crop_box::{CropBox, CroppedSrcImageView};
use crate::door::{CropBoxError, Frame, FrameMut, Weights};
use crate::pixels::{InnerPixel, F32, U16, U16x4, U8, U8x4};

pub fn kind(word: &str) -> Option<FilterType> {
    match word {
        "box" => Some(FilterType::Box),
        "bilinear" => Some(FilterType::Bilinear),
        "catmullrom" => Some(FilterType::CatmullRom),
        "mitchell" => Some(FilterType::Mitchell),
        _ => None,
    }
}

/// The given filter function and its support.
pub fn filter(kind: FilterType) -> (fn(f64) -> f64, f64) {
    get_filter_func(kind)
}

/// The given checks of a crop, as the numbers that document 01 gives them.
pub fn crop(sides: [u32; 2], numbers: [f64; 4]) -> u32 {
    let view: Frame<U8> = Frame { width: sides[0], height: sides[1], pixels: Vec::new() };
    let [left, top, width, height] = numbers;
    match CroppedSrcImageView::crop(&view, CropBox { left, top, width, height }) {
        Ok(_) => 0,
        Err(CropBoxError::WidthOrHeightLessThanZero) => 3,
        Err(CropBoxError::PositionIsOutOfImageBoundaries) => 4,
        Err(CropBoxError::SizeIsOutOfImageBoundaries) => 5,
    }
}

/// The given fitting: left, top, width, height.
pub fn fit(sides: [u32; 4], centring: Option<(f64, f64)>) -> [f64; 4] {
    let made = CropBox::fit_src_into_dst_size(sides[0], sides[1], sides[2], sides[3], centring);
    [made.left, made.top, made.width, made.height]
}

/// The given weights, called as the given resizer calls them: the far edge is near + extent.
pub fn build(kind: FilterType, adapt: bool, side: u32, near: f64, extent: f64, out: u32) -> Weights {
    let (func, support) = filter(kind);
    let made = precompute_coefficients(side, near, near + extent, out, func, support, adapt);
    Weights {
        window: made.window_size,
        starts: made.bounds.iter().map(|b| b.start).collect(),
        sizes: made.bounds.iter().map(|b| b.size).collect(),
        slots: made.values,
    }
}

/// The given u16 pass into `out`, which is rows of `count`.
#[allow(clippy::too_many_arguments)]
pub fn u16pass(
    lines: u32, row: u32, first: u32, count: u32, window: u32, precision: u32,
    weights: &[i32], starts: &[u32], sizes: &[u32], samples: &[u16], out: &mut [u16],
) {
    let src = Frame { width: row, height: lines, pixels: samples.iter().map(|&s| U16::new(s)).collect() };
    let pixels = out.iter().map(|&s| U16::new(s)).collect();
    let mut dst = FrameMut { width: count, height: starts.len() as u32, pixels };
    crate::door::Door::PASS_U16(&src, &mut dst, first, precision, window as usize, weights, starts, sizes);
    for (to, from) in out.iter_mut().zip(&dst.pixels) {
        *to = from.0;
    }
}

/// The given f32 pass into `out`, which is rows of `count`.
pub fn f32pass(lines: u32, row: u32, first: u32, count: u32, set: &Weights, samples: &[f32], out: &mut [f32]) {
    let src = Frame { width: row, height: lines, pixels: samples.iter().map(|&s| F32::new(s)).collect() };
    let pixels = out.iter().map(|&s| F32::new(s)).collect();
    let mut dst = FrameMut { width: count, height: set.starts.len() as u32, pixels };
    crate::door::Door::PASS_F32(&src, &mut dst, first, set);
    for (to, from) in out.iter_mut().zip(&dst.pixels) {
        *to = from.0;
    }
}

fn pixels(list: &[u8]) -> Vec<U8x4> {
    list.chunks_exact(4).map(|p| U8x4::new([p[0], p[1], p[2], p[3]])).collect()
}

fn bytes(pixels: &[U8x4], out: &mut [u8]) {
    for (to, from) in out.chunks_exact_mut(4).zip(pixels) {
        to.copy_from_slice(&from.0);
    }
}

/// The given multiply or divide of one row into another.
pub fn alpha(divide: bool, src: &[u8], out: &mut [u8]) {
    let from = pixels(src);
    let to = pixels(out);
    let src = Frame { width: from.len() as u32, height: 1, pixels: from };
    let mut dst = FrameMut { width: to.len() as u32, height: 1, pixels: to };
    if divide {
        native::divide_alpha(&src, &mut dst);
    } else {
        native::multiply_alpha(&src, &mut dst);
    }
    bytes(&dst.pixels, out);
}

/// The given multiply or divide in place.
pub fn alpha_in_place(divide: bool, out: &mut [u8]) {
    let row = pixels(out);
    let mut view = FrameMut { width: row.len() as u32, height: 1, pixels: row };
    if divide {
        native::divide_alpha_inplace(&mut view);
    } else {
        native::multiply_alpha_inplace(&mut view);
    }
    bytes(&view.pixels, out);
}

fn pixels16(list: &[u16]) -> Vec<U16x4> {
    list.chunks_exact(4).map(|p| U16x4::new([p[0], p[1], p[2], p[3]])).collect()
}

fn words(pixels: &[U16x4], out: &mut [u16]) {
    for (to, from) in out.chunks_exact_mut(4).zip(pixels) {
        to.copy_from_slice(&from.0);
    }
}

/// The given multiply or divide of one row into another, 16 bits.
pub fn alpha16(divide: bool, src: &[u16], out: &mut [u16]) {
    let from = pixels16(src);
    let to = pixels16(out);
    let src = Frame { width: from.len() as u32, height: 1, pixels: from };
    let mut dst = FrameMut { width: to.len() as u32, height: 1, pixels: to };
    if divide {
        native16::divide_alpha(&src, &mut dst);
    } else {
        native16::multiply_alpha(&src, &mut dst);
    }
    words(&dst.pixels, out);
}

/// The given multiply or divide in place, 16 bits.
pub fn alpha16_in_place(divide: bool, out: &mut [u16]) {
    let row = pixels16(out);
    let mut view = FrameMut { width: row.len() as u32, height: 1, pixels: row };
    if divide {
        native16::divide_alpha_inplace(&mut view);
    } else {
        native16::multiply_alpha_inplace(&mut view);
    }
    words(&view.pixels, out);
}
