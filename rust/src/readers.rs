use crate::numbers::FilterType;
use crate::raw;
use crate::refusal::{judged_at, Refusal};
use crate::CameraLine;

/// What the first six lines of a sheet say.
#[derive(Clone, Copy, Debug, PartialEq, Eq)]
pub struct Head {
    pub filter: FilterType,
    /// camera lines
    pub lines: u32,
    /// display lines: so many starts, sizes and excesses, and `window` slots of weights for each
    pub windows: u32,
    pub window: u32,
    /// 16 or 32 bits
    pub store: u32,
    pub precision: u32,
}

/// The places that a call fills.
#[derive(Default)]
struct Told {
    filter: u32,
    lines: u32,
    windows: u32,
    window: u32,
    store: u32,
    precision: u32,
    byte: u64,
}

impl Told {
    fn judged(self, number: u32) -> Result<Head, Refusal> {
        judged_at(number, 0, self.byte)?;
        Ok(Head {
            filter: FilterType::of_code(self.filter), lines: self.lines, windows: self.windows,
            window: self.window, store: self.store, precision: self.precision,
        })
    }
}

/// The set of a sheet of either store in the four lists, which may be longer than needed; what its head says.
pub fn read_sheet(text: &[u8], weights: &mut [i32], starts: &mut [CameraLine], sizes: &mut [u32], excesses: &mut [i64]) -> Result<Head, Refusal> {
    let mut h = Told::default();
    let number = unsafe {
        raw::mirror_read_sheet(
            text.as_ptr(), text.len(), weights.as_mut_ptr(), weights.len(), starts.as_mut_ptr().cast(), starts.len(), sizes.as_mut_ptr(), sizes.len(),
            excesses.as_mut_ptr(), excesses.len(), &mut h.filter, &mut h.lines, &mut h.windows, &mut h.window, &mut h.store, &mut h.precision, &mut h.byte,
        )
    };
    h.judged(number)
}

/// The same of the 16-bit store alone.
pub fn read_sheet16(text: &[u8], weights: &mut [i16], starts: &mut [CameraLine], sizes: &mut [u32], excesses: &mut [i64]) -> Result<Head, Refusal> {
    let mut h = Told::default();
    let number = unsafe {
        raw::mirror_read_sheet16(
            text.as_ptr(), text.len(), weights.as_mut_ptr(), weights.len(), starts.as_mut_ptr().cast(), starts.len(), sizes.as_mut_ptr(), sizes.len(),
            excesses.as_mut_ptr(), excesses.len(), &mut h.filter, &mut h.lines, &mut h.windows, &mut h.window, &mut h.store, &mut h.precision, &mut h.byte,
        )
    };
    h.judged(number)
}
