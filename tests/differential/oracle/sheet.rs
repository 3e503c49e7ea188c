//! Ours, from document 01's "The sheet" and document 02's W-207: the Rust has no counterpart.

use std::fmt::Write;

use crate::judge;
use crate::line::{decimals, hex_bytes, lent};

/// The text of a set.
#[allow(clippy::too_many_arguments)]
fn text<T: ToString>(
    kind: &str, lines: u32, window: u32, store: u32, precision: u32, weights: &[T], starts: &[u32], sizes: &[u32], excesses: &[i64],
) -> String {
    let mut text = format!(
        "kind={kind}\nin={lines}\nout={}\nwindow={window}\nstore={store}\nprecision={precision}\n",
        starts.len()
    );
    for (i, (start, &size)) in starts.iter().zip(sizes).enumerate() {
        let in_use = &weights[i * window as usize..][..size as usize];
        writeln!(text, "w{i}={start},{size}:{}", decimals(in_use)).expect("a string takes all");
    }
    writeln!(text, "excess={}", decimals(excesses)).expect("a string takes all");
    text
}

/// The answer line: 1, 10, 11, or the sheet laid over the lent bytes.
#[allow(clippy::too_many_arguments)]
pub fn answer<T: Copy + Into<i64> + ToString>(
    kind: &str, lines: u32, window: u32, store: u32, precision: u32,
    weights: &[T], starts: &[u32], sizes: &[u32], excesses: &[i64], room: usize,
) -> String {
    let mut out: Vec<u8> = lent(room);
    let most = if store == 16 { 21 } else { 45 };
    let mut length = 0;
    let no = if !judge::set_sides_fit(lines, starts) {
        1
    } else if !judge::windows_fit(lines, window, weights.len(), starts, sizes)
        || !judge::stored_fits(most, window, precision, weights, sizes, excesses)
    {
        10
    } else {
        let text = text(kind, lines, window, store, precision, weights, starts, sizes, excesses);
        if room < text.len() {
            11
        } else {
            length = text.len();
            out[..length].copy_from_slice(text.as_bytes());
            0
        }
    };
    format!("{no} {length} {}", hex_bytes(&out))
}
