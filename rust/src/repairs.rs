use crate::raw;
use crate::refusal::{judged, Refusal};
use crate::sets::{Set, Stored};
use crate::CameraLine;

/// An offer of changed weights for a stored set: it must have that set's windows and precision. Weights in idle slots are not looked at.
#[derive(Clone, Copy, Debug)]
pub struct Offer<'a, W> {
    pub window: u32,
    pub precision: u32,
    pub starts: &'a [CameraLine],
    pub sizes: &'a [u32],
    pub weights: &'a [W],
}

/// A stored set that an accepted offer changes: its weights in use, and its excesses, which become 0.
#[derive(Debug)]
pub struct Repairable<'a, W> {
    /// camera lines
    pub lines: u32,
    pub window: u32,
    pub precision: u32,
    pub weights: &'a mut [W],
    pub starts: &'a [CameraLine],
    pub sizes: &'a [u32],
    pub excesses: &'a mut [i64],
}

impl<W> Repairable<'_, W> {
    /// The set as it is read.
    pub fn stored(&self) -> Stored<'_, W> {
        let set = Set { lines: self.lines, window: self.window, weights: self.weights, starts: self.starts, sizes: self.sizes };
        Stored { set, precision: self.precision, excesses: self.excesses }
    }
}

/// Takes an offer for a set of the 16-bit store over, where it is accepted; else nothing changes.
pub fn accept16(stored: &mut Repairable<i16>, offer: &Offer<i16>) -> Result<(), Refusal> {
    let (s, o) = (stored, offer);
    let number = unsafe {
        raw::mirror_accept16(
            s.lines, s.window, s.precision, s.weights.as_mut_ptr(), s.weights.len(), s.starts.as_ptr().cast(), s.starts.len(),
            s.sizes.as_ptr(), s.sizes.len(), s.excesses.as_mut_ptr(), s.excesses.len(), o.window, o.precision,
            o.starts.as_ptr().cast(), o.starts.len(), o.sizes.as_ptr(), o.sizes.len(), o.weights.as_ptr(), o.weights.len(),
        )
    };
    taken(number)
}

/// The same of the 32-bit store.
pub fn accept32(stored: &mut Repairable<i32>, offer: &Offer<i32>) -> Result<(), Refusal> {
    let (s, o) = (stored, offer);
    let number = unsafe {
        raw::mirror_accept32(
            s.lines, s.window, s.precision, s.weights.as_mut_ptr(), s.weights.len(), s.starts.as_ptr().cast(), s.starts.len(),
            s.sizes.as_ptr(), s.sizes.len(), s.excesses.as_mut_ptr(), s.excesses.len(), o.window, o.precision,
            o.starts.as_ptr().cast(), o.starts.len(), o.sizes.as_ptr(), o.sizes.len(), o.weights.as_ptr(), o.weights.len(),
        )
    };
    taken(number)
}

/// An offer of our own for a set of the 16-bit store in the first slots of `out`, which may be longer than needed.
pub fn offer16(stored: &Stored<i16>, out: &mut [i16]) -> Result<(), Refusal> {
    let (set, mut line) = (&stored.set, 0);
    let number = unsafe {
        raw::mirror_offer16(
            set.lines, set.window, stored.precision, set.weights.as_ptr(), set.weights.len(), set.starts(), set.starts.len(),
            set.sizes.as_ptr(), set.sizes.len(), stored.excesses.as_ptr(), stored.excesses.len(), out.as_mut_ptr(), out.len(), &mut line,
        )
    };
    judged(number, line)
}

/// The same of the 32-bit store.
pub fn offer32(stored: &Stored<i32>, out: &mut [i32]) -> Result<(), Refusal> {
    let (set, mut line) = (&stored.set, 0);
    let number = unsafe {
        raw::mirror_offer32(
            set.lines, set.window, stored.precision, set.weights.as_ptr(), set.weights.len(), set.starts(), set.starts.len(),
            set.sizes.as_ptr(), set.sizes.len(), stored.excesses.as_ptr(), stored.excesses.len(), out.as_mut_ptr(), out.len(), &mut line,
        )
    };
    judged(number, line)
}

/// The answer of a judge: its No. 14 has no line.
fn taken(number: u32) -> Result<(), Refusal> {
    match number {
        14 => Err(Refusal::NotAccepted),
        _ => judged(number, 0),
    }
}
