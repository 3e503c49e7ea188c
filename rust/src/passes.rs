use crate::raw;
use crate::refusal::{judged, Refusal};
use crate::sets::{Set, Stored};

/// Camera lines of `row` samples one after the other, and the range of columns that is asked for.
#[derive(Clone, Copy, Debug)]
pub struct Frame<'a, S> {
    pub samples: &'a [S],
    pub row: u32,
    pub first: u32,
    pub count: u32,
}

/// The value of every window at every column of the range: `count` samples of `out` for each window.
pub fn vertical_u16(frame: &Frame<u16>, stored: &Stored<i32>, out: &mut [u16]) -> Result<(), Refusal> {
    let set = &stored.set;
    let number = unsafe {
        raw::mirror_vertical_u16(
            frame.samples.as_ptr(), frame.samples.len(), set.lines, frame.row, frame.first, frame.count,
            set.weights.as_ptr(), set.weights.len(), set.starts(), set.starts.len(),
            set.sizes.as_ptr(), set.sizes.len(), stored.excesses.as_ptr(), stored.excesses.len(),
            set.window, stored.precision, out.as_mut_ptr(), out.len(),
        )
    };
    judged(number, 0)
}

/// The same of u8 samples, with weights of the 16-bit store: `WeightOutside` where a window's sums could leave 32 bits.
pub fn vertical_u8(frame: &Frame<u8>, stored: &Stored<i16>, out: &mut [u8]) -> Result<(), Refusal> {
    let set = &stored.set;
    let number = unsafe {
        raw::mirror_vertical_u8(
            frame.samples.as_ptr(), frame.samples.len(), set.lines, frame.row, frame.first, frame.count,
            set.weights.as_ptr(), set.weights.len(), set.starts(), set.starts.len(),
            set.sizes.as_ptr(), set.sizes.len(), stored.excesses.as_ptr(), stored.excesses.len(),
            set.window, stored.precision, out.as_mut_ptr(), out.len(),
        )
    };
    judged(number, 0)
}

/// The same of f32 samples, with weights as doubles; how many of the written samples are infinite.
pub fn vertical_f32(frame: &Frame<f32>, set: &Set<f64>, out: &mut [f32]) -> Result<u32, Refusal> {
    let mut infinite = 0;
    let number = unsafe {
        raw::mirror_vertical_f32(
            frame.samples.as_ptr(), frame.samples.len(), set.lines, frame.row, frame.first, frame.count,
            set.weights.as_ptr(), set.weights.len(), set.starts(), set.starts.len(),
            set.sizes.as_ptr(), set.sizes.len(), set.window, out.as_mut_ptr(), out.len(), &mut infinite,
        )
    };
    judged(number, 0).map(|()| infinite)
}

/// Rows of `row` samples one after the other, pixels of `components` samples, and the range of rows that is asked for.
#[derive(Clone, Copy, Debug)]
pub struct PixelFrame<'a> {
    pub samples: &'a [u16],
    pub components: u32,
    pub rows: u32,
    pub row: u32,
    pub first: u32,
    pub count: u32,
}

/// The value of every window at every row of the range and every component, the windows being over the pixels of a row: a pixel of `out` for each window, row by row.
pub fn horizontal_u16(frame: &PixelFrame, stored: &Stored<i32>, out: &mut [u16]) -> Result<(), Refusal> {
    let set = &stored.set;
    let number = unsafe {
        raw::mirror_horizontal_u16(
            frame.samples.as_ptr(), frame.samples.len(), frame.components, frame.rows, frame.row, frame.first, frame.count,
            set.weights.as_ptr(), set.weights.len(), set.starts(), set.starts.len(),
            set.sizes.as_ptr(), set.sizes.len(), stored.excesses.as_ptr(), stored.excesses.len(),
            set.window, stored.precision, out.as_mut_ptr(), out.len(),
        )
    };
    judged(number, 0)
}
