use crate::crops::CropBox;
use crate::numbers::FilterType;
use crate::raw;
use crate::refusal::{judged, Refusal};
use crate::CameraLine;

/// The axis that is built: left and width, or top and height.
#[repr(u32)]
#[derive(Clone, Copy, Debug, PartialEq, Eq)]
pub enum Axis {
    Horizontal = 0,
    Vertical = 1,
}

/// What is asked of the weight builder.
#[derive(Clone, Copy, Debug, PartialEq)]
pub struct Request {
    pub image_width: u32,
    pub image_height: u32,
    pub crop: CropBox,
    pub axis: Axis,
    pub out_side: u32,
    pub filter: FilterType,
    pub adapts: bool,
}

/// A weight set: of `lines` camera lines, a start and a size for each display line and `window` slots of weights.
#[derive(Clone, Copy, Debug)]
pub struct Set<'a, W> {
    pub lines: u32,
    pub window: u32,
    pub weights: &'a [W],
    pub starts: &'a [CameraLine],
    pub sizes: &'a [u32],
}

impl<W> Set<'_, W> {
    /// The starts as the C interface takes them: a `CameraLine` is a `u32`.
    pub(crate) fn starts(&self) -> *const u32 {
        self.starts.as_ptr().cast()
    }
}

/// A set as a store holds it: integer weights, the precision that they all have, and each window's excess, the total of its weights in
/// use less 2^precision.
#[derive(Clone, Copy, Debug)]
pub struct Stored<'a, W> {
    pub set: Set<'a, W>,
    pub precision: u32,
    pub excesses: &'a [i64],
}

/// The set of a request in the three lists, which may be longer than needed; its window size.
pub fn weights(request: &Request, weights: &mut [f64], starts: &mut [CameraLine], sizes: &mut [u32]) -> Result<u32, Refusal> {
    let (q, b) = (request, &request.crop);
    let (mut window, mut line) = (0, 0);
    let number = unsafe {
        raw::mirror_weights(
            q.image_width, q.image_height, b.left, b.top, b.width, b.height,
            q.axis as u32, q.out_side, q.filter as u32, q.adapts as u32,
            weights.as_mut_ptr(), weights.len(), starts.as_mut_ptr().cast(), starts.len(), sizes.as_mut_ptr(), sizes.len(),
            &mut window, &mut line,
        )
    };
    judged(number, line).map(|()| window)
}

/// The weights as integers of the 16-bit store, in the first slots of `out`, and each window's excess; their precision.
pub fn normalize16(set: &Set<f64>, out: &mut [i16], excesses: &mut [i64]) -> Result<u32, Refusal> {
    let mut precision = 0;
    let number = unsafe {
        raw::mirror_normalize16(
            set.lines, set.window, set.weights.as_ptr(), set.weights.len(), set.starts(), set.starts.len(),
            set.sizes.as_ptr(), set.sizes.len(), out.as_mut_ptr(), out.len(), excesses.as_mut_ptr(), excesses.len(), &mut precision,
        )
    };
    judged(number, 0).map(|()| precision)
}

/// The same in the 32-bit store.
pub fn normalize32(set: &Set<f64>, out: &mut [i32], excesses: &mut [i64]) -> Result<u32, Refusal> {
    let mut precision = 0;
    let number = unsafe {
        raw::mirror_normalize32(
            set.lines, set.window, set.weights.as_ptr(), set.weights.len(), set.starts(), set.starts.len(),
            set.sizes.as_ptr(), set.sizes.len(), out.as_mut_ptr(), out.len(), excesses.as_mut_ptr(), excesses.len(), &mut precision,
        )
    };
    judged(number, 0).map(|()| precision)
}
