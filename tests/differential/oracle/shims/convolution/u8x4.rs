//! Ours. Stands at the place of a file that is not given, and is a door to the private module `optimisations`.

use super::optimisations::{Normalizer16, Normalizer32};
use super::{Bound, Coefficients};
use crate::door::{Integers, Weights};

fn coefficients(set: &Weights) -> Coefficients {
    let bounds = set.starts.iter().zip(&set.sizes);
    Coefficients {
        values: set.slots.clone(),
        window_size: set.window,
        bounds: bounds.map(|(&start, &size)| Bound { start, size }).collect(),
    }
}

/// A given Normalizer16's precision and weights, window by window.
fn values16(made: &Normalizer16) -> Integers<i16> {
    Integers {
        precision: made.precision() as u32,
        windows: made.chunks().iter().map(|c| c.values().to_vec()).collect(),
    }
}

/// A given Normalizer32's precision and weights, window by window.
fn values32(made: &Normalizer32) -> Integers<i32> {
    Integers {
        precision: made.precision() as u32,
        windows: made.chunks().iter().map(|c| c.values().to_vec()).collect(),
    }
}

fn normalize16(set: &Weights) -> Integers<i16> {
    values16(&Normalizer16::new(coefficients(set)))
}

fn normalize32(set: &Weights) -> Integers<i32> {
    values32(&Normalizer32::new(coefficients(set)))
}

/// The given 8-bit clip of a shifted sum from -640 to 639. One weight 1.0 makes a normaliser of precision 14.
fn clip8(value: i32) -> u8 {
    assert!((-640..640).contains(&value));
    let one = Weights { window: 1, slots: vec![1.0], starts: vec![0], sizes: vec![1] };
    let made = Normalizer16::new(coefficients(&one));
    // SAFETY: the index is 640 + value, inside the table's 1,280 entries.
    unsafe { made.clip(value << made.precision()) }
}

/// The given pass takes its weights from a Normalizer32, whose fields are private. Weights k / 2^p with one slot
/// 2^(30 - p) more in each window, never in use, make it find the precision p and the weights k.
pub(crate) fn normalizer_of(precision: u32, window: usize, weights: &[i32], starts: &[u32], sizes: &[u32]) -> Normalizer32 {
    assert!(precision <= 45);
    let unit = (1u64 << precision) as f64;
    let idle = 2f64.powi(30 - precision as i32);
    let mut set = Weights { window: window + 1, slots: Vec::new(), starts: starts.to_vec(), sizes: Vec::new() };
    for (i, &size) in sizes.iter().enumerate() {
        let from = i * window;
        let Some(slots) = weights.get(from..from + window) else { break };
        set.slots.extend(slots.iter().map(|&k| k as f64 / unit));
        set.slots.push(idle);
        set.sizes.push(size.min(window as u32));
    }
    let made = Normalizer32::new(coefficients(&set));
    assert!(set.slots.is_empty() || made.precision() as u32 == precision);
    made
}

/// The given Coefficients, for the f32 pass.
pub(crate) fn coefficients_of(set: &Weights) -> Coefficients {
    coefficients(set)
}

impl crate::door::Named for crate::door::Door {
    type Normalizer16 = Normalizer16;
    type Normalizer32 = Normalizer32;
}

impl crate::door::Door {
    pub(crate) const NEW16: fn(Coefficients) -> Normalizer16 = Normalizer16::new;
    pub(crate) const NEW32: fn(Coefficients) -> Normalizer32 = Normalizer32::new;
    pub(crate) const VALUES16: fn(&Normalizer16) -> Integers<i16> = values16;
    pub(crate) const VALUES32: fn(&Normalizer32) -> Integers<i32> = values32;
    pub(crate) const NORMALIZE16: fn(&Weights) -> Integers<i16> = normalize16;
    pub(crate) const NORMALIZE32: fn(&Weights) -> Integers<i32> = normalize32;
    pub(crate) const CLIP8: fn(i32) -> u8 = clip8;
}
