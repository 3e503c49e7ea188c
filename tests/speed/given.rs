//! Ours. The given Rust as a library for C: a job is prepared once and then run as often as asked, so that what is counted is
//! the given function alone. THEIRS is what the oracle's tree has of it (tests/differential/oracle/tree).
#![allow(dead_code, unused_imports, unused_macros)]

use std::slice;

use convolution::*;
use crop_box::*;
use door::{CpuExtensions, CropBoxError, ImageView, ImageViewMut};

// THEIRS.
#[macro_use]
mod utils;
mod alpha;
mod compat;
mod convolution;
mod crop_box;
mod pixels;

// OURS.
mod door;

use alpha::u16x4::native as native16;
use alpha::u8x4::native;
use door::{Door, Frame, FrameMut, Named, Weights};
use pixels::{F32, U16, U16x4, U8x4};

type Normalizer16 = <Door as Named>::Normalizer16;
type Normalizer32 = <Door as Named>::Normalizer32;

/// Results are kept, so that no run pays for giving memory back; sets that a run consumes are made beforehand: for at least five runs, so
/// that three and four runs prepare the same.
fn room(runs: u32) -> usize {
    runs.max(5) as usize
}

pub enum Job {
    Alpha { divide: bool, src: Frame<U8x4>, dst: FrameMut<U8x4> },
    AlphaInPlace { divide: bool, view: FrameMut<U8x4> },
    Alpha16 { divide: bool, src: Frame<U16x4>, dst: FrameMut<U16x4> },
    Alpha16InPlace { divide: bool, view: FrameMut<U16x4> },
    U16 { src: Frame<U16>, dst: FrameMut<U16>, weights: Normalizer32 },
    U8 { src: Vec<u8>, row: usize, dst: Vec<u8>, precision: u32, rows: Vec<(usize, Vec<i16>)> },
    F32 { src: Frame<F32>, dst: FrameMut<F32>, weights: Coefficients },
    Build { kind: FilterType, side: u32, out: u32, made: Vec<Coefficients> },
    Normalize16 { sets: Vec<Coefficients>, made: Vec<Normalizer16> },
    Normalize32 { sets: Vec<Coefficients>, made: Vec<Normalizer32> },
}

fn kind_of(kind: u32) -> FilterType {
    [FilterType::Box, FilterType::Bilinear, FilterType::CatmullRom][kind as usize]
}

/// Adapting, whole side.
fn built(kind: FilterType, side: u32, out: u32) -> Coefficients {
    let (func, support) = get_filter_func(kind);
    precompute_coefficients(side, 0.0, side as f64, out, func, support, true)
}

/// One run of the given function.
///
/// # Safety
/// `job` comes from a function below.
#[no_mangle]
pub unsafe extern "C" fn given_run(job: *mut Job) {
    match &mut *job {
        Job::Alpha { divide: false, src, dst } => native::multiply_alpha(src, dst),
        Job::Alpha { divide: true, src, dst } => native::divide_alpha(src, dst),
        Job::AlphaInPlace { divide: false, view } => native::multiply_alpha_inplace(view),
        Job::AlphaInPlace { divide: true, view } => native::divide_alpha_inplace(view),
        Job::Alpha16 { divide: false, src, dst } => native16::multiply_alpha(src, dst),
        Job::Alpha16 { divide: true, src, dst } => native16::divide_alpha(src, dst),
        Job::Alpha16InPlace { divide: false, view } => native16::multiply_alpha_inplace(view),
        Job::Alpha16InPlace { divide: true, view } => native16::divide_alpha_inplace(view),
        Job::U16 { src, dst, weights } => Door::PASS_U16_BY(src, dst, 0, weights),
        Job::U8 { src, row, dst, precision, rows } => bytes(src, *row, dst, *precision, rows),
        Job::F32 { src, dst, weights } => Door::PASS_F32_BY(src, dst, 0, weights),
        Job::Build { kind, side, out, made } => made.push(built(*kind, *side, *out)),
        Job::Normalize16 { sets, made } => made.push(Door::NEW16(sets.pop().unwrap())),
        Job::Normalize32 { sets, made } => made.push(Door::NEW32(sets.pop().unwrap())),
    }
}

fn job(job: Job) -> *mut Job {
    Box::into_raw(Box::new(job))
}

fn pixels(bytes: &[u8]) -> Vec<U8x4> {
    bytes.chunks_exact(4).map(|p| U8x4::new([p[0], p[1], p[2], p[3]])).collect()
}

/// # Safety
/// `src` has `len` bytes.
#[no_mangle]
pub unsafe extern "C" fn given_alpha(divide: u32, in_place: u32, src: *const u8, len: usize) -> *mut Job {
    let pixels = pixels(slice::from_raw_parts(src, len));
    let (width, divide) = (pixels.len() as u32, divide == 1);
    let empty = vec![U8x4::new([0; 4]); pixels.len()];
    if in_place == 1 {
        return job(Job::AlphaInPlace { divide, view: FrameMut { width, height: 1, pixels } });
    }
    let src = Frame { width, height: 1, pixels };
    job(Job::Alpha { divide, src, dst: FrameMut { width, height: 1, pixels: empty } })
}

/// # Safety
/// `src` has `len` components.
#[no_mangle]
pub unsafe extern "C" fn given_alpha16(divide: u32, in_place: u32, src: *const u16, len: usize) -> *mut Job {
    let pixels: Vec<U16x4> = slice::from_raw_parts(src, len).chunks_exact(4).map(|p| U16x4::new([p[0], p[1], p[2], p[3]])).collect();
    let (width, divide) = (pixels.len() as u32, divide == 1);
    let empty = vec![U16x4::new([0; 4]); pixels.len()];
    if in_place == 1 {
        return job(Job::Alpha16InPlace { divide, view: FrameMut { width, height: 1, pixels } });
    }
    let src = Frame { width, height: 1, pixels };
    job(Job::Alpha16 { divide, src, dst: FrameMut { width, height: 1, pixels: empty } })
}

/// # Safety
/// `src` has `side * row` samples.
#[no_mangle]
pub unsafe extern "C" fn given_u16(kind: u32, side: u32, out: u32, row: u32, src: *const u16) -> *mut Job {
    let samples = slice::from_raw_parts(src, side as usize * row as usize);
    let src = Frame { width: row, height: side, pixels: samples.iter().map(|&s| U16::new(s)).collect() };
    let dst = FrameMut { width: row, height: out, pixels: vec![U16::new(0); out as usize * row as usize] };
    job(Job::U16 { src, dst, weights: Door::NEW32(built(kind_of(kind), side, out)) })
}

/// Not given: document 02's rule for bytes (W-205), written as the given u16 pass is, sixteen columns at a time.
fn bytes(src: &[u8], row: usize, dst: &mut [u8], precision: u32, rows: &[(usize, Vec<i16>)]) {
    let half = 1i32 << (precision - 1);
    for ((start, ks), to) in rows.iter().zip(dst.chunks_exact_mut(row)) {
        let mut x = 0;
        let mut chunks = to.chunks_exact_mut(16);
        for chunk in &mut chunks {
            let mut ss = [half; 16];
            for (&k, line) in ks.iter().zip(src[start * row..].chunks_exact(row)) {
                for (s, &c) in ss.iter_mut().zip(&line[x..x + 16]) {
                    *s += c as i32 * k as i32;
                }
            }
            for (d, s) in chunk.iter_mut().zip(ss) {
                *d = (s >> precision).clamp(0, 255) as u8;
            }
            x += 16;
        }
        for d in chunks.into_remainder() {
            let mut s = half;
            for (&k, line) in ks.iter().zip(src[start * row..].chunks_exact(row)) {
                s += line[x] as i32 * k as i32;
            }
            *d = (s >> precision).clamp(0, 255) as u8;
            x += 1;
        }
    }
}

/// # Safety
/// `src` has `side * row` samples; the set has `out` windows of `window` slots.
#[no_mangle]
pub unsafe extern "C" fn given_u8(
    side: u32, out: u32, row: u32, src: *const u8, window: u32, precision: u32, weights: *const i16, starts: *const u32, sizes: *const u32,
) -> *mut Job {
    let (row, out, window) = (row as usize, out as usize, window as usize);
    let (starts, sizes) = (slice::from_raw_parts(starts, out), slice::from_raw_parts(sizes, out));
    let weights = slice::from_raw_parts(weights, out * window);
    let rows = (0..out).map(|i| (starts[i] as usize, weights[i * window..i * window + sizes[i] as usize].to_vec())).collect();
    job(Job::U8 { src: slice::from_raw_parts(src, side as usize * row).to_vec(), row, dst: vec![0; out * row], precision, rows })
}

/// # Safety
/// `src` has `side * row` samples.
#[no_mangle]
pub unsafe extern "C" fn given_f32(kind: u32, side: u32, out: u32, row: u32, src: *const f32) -> *mut Job {
    let samples = slice::from_raw_parts(src, side as usize * row as usize);
    let src = Frame { width: row, height: side, pixels: samples.iter().map(|&s| F32::new(s)).collect() };
    let dst = FrameMut { width: row, height: out, pixels: vec![F32::new(0.0); out as usize * row as usize] };
    job(Job::F32 { src, dst, weights: built(kind_of(kind), side, out) })
}

#[no_mangle]
pub extern "C" fn given_build(kind: u32, side: u32, out: u32, runs: u32) -> *mut Job {
    job(Job::Build { kind: kind_of(kind), side, out, made: Vec::with_capacity(room(runs)) })
}

#[no_mangle]
pub extern "C" fn given_normalize(bits: u32, kind: u32, side: u32, out: u32, runs: u32) -> *mut Job {
    let sets = vec![built(kind_of(kind), side, out); room(runs)];
    if bits == 16 {
        return job(Job::Normalize16 { sets, made: Vec::with_capacity(room(runs)) });
    }
    job(Job::Normalize32 { sets, made: Vec::with_capacity(room(runs)) })
}

unsafe fn laid<T: Copy>(from: impl Iterator<Item = T>, to: *mut u8) -> usize {
    let to = to as *mut T;
    let mut n = 0;
    for x in from {
        to.add(n).write_unaligned(x);
        n += 1;
    }
    n * size_of::<T>()
}

/// What the last run wrote, as bytes: samples; slots, starts and sizes; or slots, 0 where not in use, and the precision.
///
/// # Safety
/// `to` has room for it.
#[no_mangle]
pub unsafe extern "C" fn given_written(job: *const Job, to: *mut u8) -> usize {
    fn slots<T: Clone + Default>(windows: Vec<Vec<T>>, window: usize) -> impl Iterator<Item = T> {
        windows.into_iter().flat_map(move |mut w| {
            w.resize(window, T::default());
            w
        })
    }
    match &*job {
        Job::Alpha { dst: view, .. } | Job::AlphaInPlace { view, .. } => laid(view.pixels.iter().map(|p| p.0), to),
        Job::Alpha16 { dst: view, .. } | Job::Alpha16InPlace { view, .. } => laid(view.pixels.iter().map(|p| p.0), to),
        Job::U16 { dst, .. } => laid(dst.pixels.iter().map(|p| p.0), to),
        Job::U8 { dst, .. } => laid(dst.iter().copied(), to),
        Job::F32 { dst, .. } => laid(dst.pixels.iter().map(|p| p.0), to),
        Job::Build { made, .. } => {
            let set = made.last().unwrap();
            let a = laid(set.values.iter().copied(), to);
            let b = a + laid(set.bounds.iter().map(|b| b.start), to.add(a));
            b + laid(set.bounds.iter().map(|b| b.size), to.add(b))
        }
        Job::Normalize16 { made, sets } => {
            let set = Door::VALUES16(made.last().unwrap());
            let window = sets.first().map_or(0, |s| s.window_size);
            let a = laid(slots(set.windows, window), to);
            a + laid([set.precision].into_iter(), to.add(a))
        }
        Job::Normalize32 { made, sets } => {
            let set = Door::VALUES32(made.last().unwrap());
            let window = sets.first().map_or(0, |s| s.window_size);
            let a = laid(slots(set.windows, window), to);
            a + laid([set.precision].into_iter(), to.add(a))
        }
    }
}

/// The weights of a set, for the other side of the comparison: f64 slots, starts and sizes. The answer is the window size.
///
/// # Safety
/// The lists have room.
#[no_mangle]
pub unsafe extern "C" fn given_set(kind: u32, side: u32, out: u32, slots: *mut f64, starts: *mut u32, sizes: *mut u32) -> u32 {
    let set = built(kind_of(kind), side, out);
    laid(set.values.iter().copied(), slots as *mut u8);
    laid(set.bounds.iter().map(|b| b.start), starts as *mut u8);
    laid(set.bounds.iter().map(|b| b.size), sizes as *mut u8);
    set.window_size as u32
}

/// The same set's integers of the 32-bit store, slots not in use 0. The answer is the precision.
///
/// # Safety
/// The list has room.
#[no_mangle]
pub unsafe extern "C" fn given_integers(kind: u32, side: u32, out: u32, weights: *mut i32) -> u32 {
    let set = built(kind_of(kind), side, out);
    let window = set.window_size;
    let made = Door::VALUES32(&Door::NEW32(set));
    for (i, list) in made.windows.iter().enumerate() {
        for k in 0..window {
            *weights.add(i * window + k) = list.get(k).copied().unwrap_or(0);
        }
    }
    made.precision
}
