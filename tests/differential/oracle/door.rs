//! Ours. What stands between the given files and the protocol: plain frames that are image views, plain sets, and a
//! name, `Door`, through which private modules of the given tree hand out their functions.

use crate::pixels::InnerPixel;

pub struct Door;

/// Names for the two normalisers, whose module is private.
pub(crate) trait Named {
    type Normalizer16;
    type Normalizer32;
}

/// A set of windows. A window's weights are the first `sizes[i]` of its `window` slots.
pub struct Weights {
    pub window: usize,
    pub slots: Vec<f64>,
    pub starts: Vec<u32>,
    pub sizes: Vec<u32>,
}

/// A normaliser's answer: the weights in use of each window.
pub struct Integers<T> {
    pub precision: u32,
    pub windows: Vec<Vec<T>>,
}

/// The part of the given crate's view that the given files call. Rows are at least `width` pixels long.
///
/// # Safety
/// As in the given crate: every row is as long as the view is wide.
pub unsafe trait ImageView: Sync + Send + Sized {
    type Pixel: InnerPixel;
    fn width(&self) -> u32;
    fn height(&self) -> u32;
    fn iter_rows(&self, start_row: u32) -> impl Iterator<Item = &[Self::Pixel]>;
}

/// # Safety
/// As in the given crate: every row is as long as the view is wide.
pub unsafe trait ImageViewMut: ImageView {
    fn iter_rows_mut(&mut self, start_row: u32) -> impl Iterator<Item = &mut [Self::Pixel]>;
}

pub struct Frame<P> {
    pub width: u32,
    pub height: u32,
    pub pixels: Vec<P>,
}

pub struct FrameMut<P> {
    pub width: u32,
    pub height: u32,
    pub pixels: Vec<P>,
}

fn rows<P>(pixels: &[P], width: u32, start: u32) -> impl Iterator<Item = &[P]> {
    let width = width as usize;
    let from = (start as usize).saturating_mul(width);
    let whole = if width == 0 { &[] } else { pixels.get(from..).unwrap_or(&[]) };
    whole.chunks_exact(width.max(1))
}

unsafe impl<P: InnerPixel> ImageView for Frame<P> {
    type Pixel = P;
    fn width(&self) -> u32 {
        self.width
    }
    fn height(&self) -> u32 {
        self.height
    }
    fn iter_rows(&self, start_row: u32) -> impl Iterator<Item = &[P]> {
        rows(&self.pixels, self.width, start_row)
    }
}

unsafe impl<P: InnerPixel> ImageView for FrameMut<P> {
    type Pixel = P;
    fn width(&self) -> u32 {
        self.width
    }
    fn height(&self) -> u32 {
        self.height
    }
    fn iter_rows(&self, start_row: u32) -> impl Iterator<Item = &[P]> {
        rows(&self.pixels, self.width, start_row)
    }
}

unsafe impl<P: InnerPixel> ImageViewMut for FrameMut<P> {
    fn iter_rows_mut(&mut self, start_row: u32) -> impl Iterator<Item = &mut [P]> {
        let width = self.width as usize;
        let from = (start_row as usize).saturating_mul(width);
        let whole = if width == 0 { &mut [] } else { self.pixels.get_mut(from..).unwrap_or(&mut []) };
        whole.chunks_exact_mut(width.max(1))
    }
}

/// The three refusals of the given `crop`.
#[derive(Debug)]
pub enum CropBoxError {
    PositionIsOutOfImageBoundaries,
    SizeIsOutOfImageBoundaries,
    WidthOrHeightLessThanZero,
}

/// Named by the given convolution/mod.rs; nothing here looks at it.
#[derive(Clone, Copy)]
pub enum CpuExtensions {
    None,
}
