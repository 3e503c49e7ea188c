use crate::raw;
use crate::refusal::{judged, Refusal};

/// In camera lines and columns, from the upper left corner.
#[derive(Clone, Copy, Debug, PartialEq)]
pub struct CropBox {
    pub left: f64,
    pub top: f64,
    pub width: f64,
    pub height: f64,
}

/// Where a fitted box lies in what is left over; absent means 0.5, 0.5.
#[derive(Clone, Copy, Debug, PartialEq)]
pub enum Centring {
    Absent,
    At(f64, f64),
}

/// Whether the box lies in the image: `BadSide` to `EndOutside`. Its ends are judged by exact sums.
pub fn crop(image_width: u32, image_height: u32, b: CropBox) -> Result<(), Refusal> {
    judged(unsafe { raw::mirror_crop(image_width, image_height, b.left, b.top, b.width, b.height) }, 0)
}

/// The part of the source that has the display's ratio of sides; sides are (width, height). It may be `EndOutside` to `crop`: left and width are rounded each by itself.
pub fn fit(source: (u32, u32), display: (u32, u32), centring: Centring) -> Result<CropBox, Refusal> {
    let (centred, cx, cy) = match centring {
        Centring::Absent => (0, 0.0, 0.0),
        Centring::At(x, y) => (1, x, y),
    };
    let mut b = CropBox { left: 0.0, top: 0.0, width: 0.0, height: 0.0 };
    let number = unsafe {
        raw::mirror_fit(
            source.0, source.1, display.0, display.1, centred, cx, cy, &mut b.left, &mut b.top, &mut b.width, &mut b.height,
        )
    };
    judged(number, 0).map(|()| b)
}
