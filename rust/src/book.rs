use crate::raw;
use crate::refusal::{judged, Refusal};

/// The numbers of a release book.
#[derive(Clone, Copy, Debug, Default, PartialEq, Eq)]
pub struct Report {
    pub sheets: u64,
    pub windows: u64,
    /// the smallest excess, 0 where there is no window
    pub least: i64,
    /// the largest
    pub most: i64,
    /// windows that fail the flat premise
    pub notflat: u64,
    /// windows with a negative weight
    pub negative: u64,
    /// 0, or 13: the numbers are those of the sheets before the first bad one
    pub stopped: u32,
    /// how many bytes of the text go on as sheets do
    pub byte: u64,
}

/// The numbers of a text of sheets, end to end.
pub fn book(text: &[u8]) -> Report {
    let mut r = Report::default();
    r.stopped = unsafe {
        raw::mirror_book(
            text.as_ptr(), text.len(), &mut r.sheets, &mut r.windows, &mut r.least, &mut r.most, &mut r.notflat, &mut r.negative, &mut r.byte,
        )
    };
    r
}

impl Report {
    /// The report's seven lines at the beginning of `out`; how many bytes they have, at most 188.
    pub fn write(&self, out: &mut [u8]) -> Result<u64, Refusal> {
        let mut written = 0;
        let number = unsafe {
            raw::mirror_book_lines(
                self.sheets, self.windows, self.least, self.most, self.notflat, self.negative, self.stopped, out.as_mut_ptr(), out.len(), &mut written,
            )
        };
        judged(number, 0).map(|()| written)
    }
}
