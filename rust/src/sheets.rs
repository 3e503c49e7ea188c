use crate::numbers::FilterType;
use crate::raw;
use crate::refusal::{judged, Refusal};
use crate::sets::Stored;

/// The sheet of a set of the 16-bit store at the beginning of `text`; how many bytes it has.
pub fn sheet16(filter: FilterType, stored: &Stored<i16>, text: &mut [u8]) -> Result<u64, Refusal> {
    let (set, mut written) = (&stored.set, 0);
    let number = unsafe {
        raw::mirror_sheet16(
            filter as u32, set.lines, set.window, stored.precision, set.weights.as_ptr(), set.weights.len(), set.starts(), set.starts.len(),
            set.sizes.as_ptr(), set.sizes.len(), stored.excesses.as_ptr(), stored.excesses.len(), text.as_mut_ptr(), text.len(), &mut written,
        )
    };
    judged(number, 0).map(|()| written)
}

/// The same of the 32-bit store.
pub fn sheet32(filter: FilterType, stored: &Stored<i32>, text: &mut [u8]) -> Result<u64, Refusal> {
    let (set, mut written) = (&stored.set, 0);
    let number = unsafe {
        raw::mirror_sheet32(
            filter as u32, set.lines, set.window, stored.precision, set.weights.as_ptr(), set.weights.len(), set.starts(), set.starts.len(),
            set.sizes.as_ptr(), set.sizes.len(), stored.excesses.as_ptr(), stored.excesses.len(), text.as_mut_ptr(), text.len(), &mut written,
        )
    };
    judged(number, 0).map(|()| written)
}
