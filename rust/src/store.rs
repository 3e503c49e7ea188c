use crate::passes::Frame;
use crate::raw;
use crate::refusal::{judged, Refusal};
use crate::sets::Request;

/// A client of a store.
#[repr(u32)]
#[derive(Clone, Copy, Debug, PartialEq, Eq)]
pub enum Client {
    Left = 0,
    Right = 1,
}

/// Places for starts, sizes and excesses of one client.
const LINES: usize = 8192;

/// One weight store of `SLOTS` slots for two clients, with the lists that it is made of and those that a put works in. What one client gets back depends on
/// its own calls, its share and its own frames alone. It is large (about 12 x `SLOTS` bytes and 330 kB): keep it in a `static` or a box.
pub struct Store<const SLOTS: usize> {
    numbers: [u32; 10],
    slots: [i32; SLOTS],
    starts: [u32; 2 * LINES],
    sizes: [u32; 2 * LINES],
    excesses: [i64; 2 * LINES],
    doubles: [f64; SLOTS],
    firsts: [u32; LINES],
    counts: [u32; LINES],
}

impl<const SLOTS: usize> Store<SLOTS> {
    /// A store in which nobody has a share.
    pub const fn new() -> Self {
        Store {
            numbers: [0; 10],
            slots: [0; SLOTS],
            starts: [0; 2 * LINES],
            sizes: [0; 2 * LINES],
            excesses: [0; 2 * LINES],
            doubles: [0.0; SLOTS],
            firsts: [0; LINES],
            counts: [0; LINES],
        }
    }

    /// Empties both and sets the shares anew: `SharesDoNotFit`, and everything stays, where they are together more than the slots.
    pub fn restart(&mut self, left: u32, right: u32) -> Result<(), Refusal> {
        let number = unsafe {
            raw::mirror_store_restart(
                self.numbers.as_mut_ptr(), self.numbers.len(), self.slots.as_ptr(), SLOTS, self.starts.as_ptr(), self.starts.len(),
                self.sizes.as_ptr(), self.sizes.len(), self.excesses.as_ptr(), self.excesses.len(), left, right,
            )
        };
        judged(number, 0)
    }

    /// A set of the 32-bit store in the place of the client's former one; its window size. After any refusal the former set stays.
    pub fn put(&mut self, client: Client, request: &Request) -> Result<u32, Refusal> {
        let (q, b) = (request, &request.crop);
        let (mut window, mut line) = (0, 0);
        let number = unsafe {
            raw::mirror_store_put(
                self.numbers.as_mut_ptr(), self.numbers.len(), self.slots.as_mut_ptr(), SLOTS, self.starts.as_mut_ptr(), self.starts.len(),
                self.sizes.as_mut_ptr(), self.sizes.len(), self.excesses.as_mut_ptr(), self.excesses.len(), client as u32,
                q.image_width, q.image_height, b.left, b.top, b.width, b.height,
                q.axis as u32, q.out_side, q.filter as u32, q.adapts as u32,
                self.doubles.as_mut_ptr(), SLOTS, self.firsts.as_mut_ptr(), self.firsts.len(), self.counts.as_mut_ptr(), self.counts.len(),
                &mut window, &mut line,
            )
        };
        judged(number, line).map(|()| window)
    }

    /// The u16 pass with the client's set: `count` samples of `out` for each window.
    pub fn vertical_u16(&self, client: Client, frame: &Frame<u16>, out: &mut [u16]) -> Result<(), Refusal> {
        let number = unsafe {
            raw::mirror_store_u16(
                self.numbers.as_ptr(), self.numbers.len(), self.slots.as_ptr(), SLOTS, self.starts.as_ptr(), self.starts.len(),
                self.sizes.as_ptr(), self.sizes.len(), self.excesses.as_ptr(), self.excesses.len(), client as u32,
                frame.samples.as_ptr(), frame.samples.len(), frame.row, frame.first, frame.count, out.as_mut_ptr(), out.len(),
            )
        };
        judged(number, 0)
    }
}

impl<const SLOTS: usize> Default for Store<SLOTS> {
    fn default() -> Self {
        Self::new()
    }
}
