use crate::raw;
use crate::refusal::{judged, Refusal};
use crate::sets::Stored;
use crate::DisplayLine;

/// Why one sample of the u16 pass has its number: the story of a display line at a column, at the beginning of `text`; how many bytes it has. The frame is `samples`, in
/// rows of `row`.
pub fn story(samples: &[u16], row: u32, stored: &Stored<i32>, line: DisplayLine, column: u32, text: &mut [u8]) -> Result<u64, Refusal> {
    let (set, mut written) = (&stored.set, 0);
    let number = unsafe {
        raw::mirror_story(
            samples.as_ptr(), samples.len(), set.lines, row, set.weights.as_ptr(), set.weights.len(), set.starts(), set.starts.len(),
            set.sizes.as_ptr(), set.sizes.len(), stored.excesses.as_ptr(), stored.excesses.len(), set.window, stored.precision, line.0, column,
            text.as_mut_ptr(), text.len(), &mut written,
        )
    };
    judged(number, 0).map(|()| written)
}
