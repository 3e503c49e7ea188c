use crate::raw;

/// The value with its sign bit cleared.
pub fn abs(x: f64) -> f64 {
    f64::from_bits(unsafe { raw::mirror_abs(x.to_bits()) })
}

/// The largest whole number at most x.
pub fn floor(x: f64) -> f64 {
    f64::from_bits(unsafe { raw::mirror_floor(x.to_bits()) })
}

/// The smallest whole number at least x.
pub fn ceil(x: f64) -> f64 {
    f64::from_bits(unsafe { raw::mirror_ceil(x.to_bits()) })
}

/// The nearest whole number, a half away from zero.
pub fn round(x: f64) -> f64 {
    f64::from_bits(unsafe { raw::mirror_round(x.to_bits()) })
}

/// The same value as a double.
pub fn widen(x: f32) -> f64 {
    f64::from_bits(unsafe { raw::mirror_widen(x.to_bits()) })
}

/// A narrowed value, and whether it is an infinity.
#[derive(Clone, Copy, Debug, PartialEq)]
pub struct Narrowed {
    pub value: f32,
    pub infinite: bool,
}

/// The nearest f32, ties to even, infinity where too large.
pub fn narrow(x: f64) -> Narrowed {
    let mut infinite = 0;
    let value = f32::from_bits(unsafe { raw::mirror_narrow(x.to_bits(), &mut infinite) });
    Narrowed { value, infinite: infinite != 0 }
}

/// A shifted sum clipped to 0..255.
pub fn clip8(value: i32) -> u8 {
    unsafe { raw::mirror_clip8(value) }
}

/// A name: what a sheet says, and what a request asks for. Mitchell is retired: its sheets are read, run and written as before, and a
/// request for it is refused.
#[repr(u32)]
#[derive(Clone, Copy, Debug, PartialEq, Eq)]
pub enum FilterType {
    Box = 0,
    Bilinear = 1,
    CatmullRom = 2,
    Mitchell = 3,
}

impl FilterType {
    /// The name of a code of the C interface, which has no code above 3.
    pub(crate) fn of_code(code: u32) -> FilterType {
        match code {
            0 => FilterType::Box,
            1 => FilterType::Bilinear,
            2 => FilterType::CatmullRom,
            _ => FilterType::Mitchell,
        }
    }
}

/// What a set is built with.
#[repr(u32)]
#[derive(Clone, Copy, Debug, PartialEq, Eq)]
pub enum Filter {
    Box = 0,
    Bilinear = 1,
    CatmullRom = 2,
}

impl From<Filter> for FilterType {
    fn from(filter: Filter) -> FilterType {
        FilterType::of_code(filter as u32)
    }
}

/// The filter's weight at the distance x.
pub fn filter(filter: Filter, x: f64) -> f64 {
    let mut weight = 0.0;
    // Every filter has a code and none is retired, so the answer is 0.
    unsafe { raw::mirror_filter(filter as u32, x, &mut weight) };
    weight
}
