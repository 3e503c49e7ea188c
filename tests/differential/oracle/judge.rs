//! Ours. The refusals of document 01, in its order, and of document 02: the Rust has only Nos. 3, 4 and 5, and those without their limits.
//! Nothing here computes a value that an answer shows but the refusal's number and the line of No. 8.

pub const SIDE: u64 = 8_192;
pub const ROW: u64 = 32_768;
pub const WINDOW: u64 = 32_769;

/// W-211: a name that no new set is built with, though the Rust has its function.
pub fn retired(kind: &str) -> bool {
    kind == "mitchell"
}

pub fn side_fits(side: u64) -> bool {
    (1..=SIDE).contains(&side)
}

/// The windows of a set, as a normaliser, a pass and the writer read No. 10.
pub fn windows_fit(lines: u32, window: u32, slots: usize, starts: &[u32], sizes: &[u32]) -> bool {
    (1..=WINDOW).contains(&(window as u64))
        && starts.len() == sizes.len()
        && slots as u64 == starts.len() as u64 * window as u64
        && starts.iter().zip(sizes).all(|(&start, &size)| {
            (1..=window).contains(&size) && start as u64 + size as u64 <= lines as u64
        })
}

/// The excess of a window (W-207): the total of its weights in use less 2^precision.
pub fn excess<T: Copy + Into<i64>>(in_use: &[T], precision: u32) -> i64 {
    in_use.iter().map(|&w| w.into()).sum::<i64>() - (1i64 << precision)
}

/// A stored set's precision and excesses, as a pass and the writer read No. 10, for windows that fit.
pub fn stored_fits<T: Copy + Into<i64>>(
    most: u32, window: u32, precision: u32, weights: &[T], sizes: &[u32], excesses: &[i64],
) -> bool {
    let right = |(i, &size): (usize, &u32)| excesses[i] == excess(&weights[i * window as usize..][..size as usize], precision);
    (4..=most).contains(&precision) && excesses.len() == sizes.len() && sizes.iter().enumerate().all(right)
}

/// The sides of a set: the counts of lines and of starts.
pub fn set_sides_fit(lines: u32, starts: &[u32]) -> bool {
    side_fits(lines as u64) && side_fits(starts.len() as u64)
}

/// 1 and 2 of a crop; 4 for a place below 0, which stands between the Rust's 3 and 4.
pub fn crop_before(sides: [u32; 2], numbers: [f64; 4]) -> u32 {
    if !sides.iter().all(|&s| side_fits(s as u64)) {
        return 1;
    }
    if !numbers.iter().all(|x| x.is_finite()) {
        return 2;
    }
    0
}

/// 5 by the exact sum, for numbers that the given checks let through: the rounded sum, and what rounding took from it, which is a double (Knuth's two-sum).
pub fn ends_past(start: f64, extent: f64, side: u32) -> bool {
    let sum = start + extent;
    let of_extent = sum - start;
    let lost = (start - (sum - of_extent)) + (extent - of_extent);
    sum > side as f64 || (sum == side as f64 && lost > 0.0)
}

/// 1 and 2 of a fitting.
pub fn fit_before(sides: [u32; 4], centring: Option<(f64, f64)>) -> u32 {
    if sides.iter().any(|&s| s as u64 > SIDE) {
        return 1;
    }
    match centring {
        Some((x, y)) if !(x.is_finite() && y.is_finite()) => 2,
        _ => 0,
    }
}

/// Whether line i's window has the running total 0, by document 01's own words.
pub fn blank(
    i: u32, side: u32, near: f64, scale: f64, radius: f64, filter_scale: f64, filter: fn(f64) -> f64,
) -> bool {
    let centre = near + (i as f64 + 0.5) * scale;
    let from = (centre - radius).floor().max(0.0) as u32;
    let to = (centre + radius).ceil().min(side as f64) as u32;
    let inverse = 1.0 / filter_scale;
    let total = (from..to).fold(0.0, |sum, x| sum + filter((x as f64 - (centre - 0.5)) * inverse));
    total == 0.0
}

/// Document 01's precision search; a product that overflows is at least 2^limit.
pub fn precision(slots: &[f64], bits: u32, limit: i32) -> u32 {
    let largest = slots.iter().copied().fold(f64::NEG_INFINITY, f64::max);
    let reaches = |p: &u32| (largest * 2f64.powi(*p as i32 + 1)).round() >= 2f64.powi(limit);
    (0..bits).find(reaches).unwrap_or(bits - 1)
}

/// A normaliser's 1, 7, 10 and 9, in that order.
#[allow(clippy::too_many_arguments)]
pub fn normalizer(
    lines: u32, window: u32, slots: &[f64], starts: &[u32], sizes: &[u32], lent: usize, places: usize, bits: u32, limit: i32,
) -> u32 {
    if !set_sides_fit(lines, starts) {
        return 1;
    }
    if (lent as u64) < starts.len() as u64 * window as u64 || places < starts.len() {
        return 7;
    }
    if !windows_fit(lines, window, slots.len(), starts, sizes) {
        return 10;
    }
    if !slots.iter().all(|w| w.is_finite()) {
        return 9;
    }
    let p = precision(slots, bits, limit);
    let top = 2f64.powi(limit);
    let stays = |w: f64| {
        let rounded = (w * 2f64.powi(p as i32)).round();
        -top <= rounded && rounded < top
    };
    let in_use = |(i, &size): (usize, &u32)| slots[i * window as usize..][..size as usize].iter().all(|&w| stays(w));
    if p < 4 || !sizes.iter().enumerate().all(in_use) {
        return 9;
    }
    0
}

/// What both passes share: 1 and 10.
#[allow(clippy::too_many_arguments)]
pub fn pass(
    lines: u32, row: u32, first: u32, count: u32, window: u32, slots: usize,
    starts: &[u32], sizes: &[u32], samples: usize, lent: usize,
) -> u32 {
    if !set_sides_fit(lines, starts) || !(1..=ROW).contains(&(row as u64)) {
        return 1;
    }
    let fits = samples as u64 == lines as u64 * row as u64
        && lent as u64 == starts.len() as u64 * count as u64
        && first as u64 + count as u64 <= row as u64
        && windows_fit(lines, window, slots, starts, sizes);
    if fits { 0 } else { 10 }
}

/// The f32 pass's 12, for lists that fit.
pub fn f32_in_use(
    row: u32, first: u32, count: u32, window: u32, slots: &[f64], starts: &[u32], sizes: &[u32], samples: &[f32],
) -> u32 {
    let limit = 2f64.powi(64);
    for (i, (&start, &size)) in starts.iter().zip(sizes).enumerate() {
        let weights = &slots[i * window as usize..][..size as usize];
        if !weights.iter().all(|w| w.is_finite() && w.abs() <= limit) {
            return 12;
        }
        for line in start..start + size {
            let from = line as usize * row as usize + first as usize;
            if !samples[from..from + count as usize].iter().all(|x| x.is_finite()) {
                return 12;
            }
        }
    }
    0
}

/// 9 of the u8 pass: the weights in use of some window, in their sizes, times 255 and with half of 2^precision, pass 2^31 - 1.
pub fn heavy(window: u32, weights: &[i16], sizes: &[u32], precision: u32) -> bool {
    sizes.iter().enumerate().any(|(i, &size)| {
        let from = i * window as usize;
        let total: i64 = weights[from..from + size as usize].iter().map(|&w| (w as i64).abs()).sum();
        255 * total + (1i64 << (precision - 1)) > i32::MAX as i64
    })
}

/// The u8 pass's rows, in 32 bits throughout: the checked build stops where a sum leaves them.
#[allow(clippy::too_many_arguments)]
pub fn u8_rows(
    row: u32, first: u32, count: u32, window: u32, precision: u32,
    weights: &[i16], starts: &[u32], sizes: &[u32], samples: &[u8], out: &mut [u8],
) {
    for i in 0..starts.len() {
        for j in 0..count as usize {
            let mut sum = 1i32 << (precision - 1);
            for k in 0..sizes[i] as usize {
                let at = (starts[i] as usize + k) * row as usize + first as usize + j;
                sum += weights[i * window as usize + k] as i32 * samples[at] as i32;
            }
            out[i * count as usize + j] = (sum >> precision).clamp(0, 255) as u8;
        }
    }
}
