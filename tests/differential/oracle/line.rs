//! Ours. The fields of a request line and of an answer line.

/// The largest list that is lent to be written.
const LARGEST: u64 = 1_048_576;

/// A whole number of digits alone.
pub fn number(word: &str, most: u64) -> Option<u64> {
    if word.is_empty() || !word.bytes().all(|b| b.is_ascii_digit()) {
        return None;
    }
    word.parse().ok().filter(|&n| n <= most)
}

pub fn u32_of(word: &str) -> Option<u32> {
    number(word, u32::MAX as u64).map(|n| n as u32)
}

/// The length of a list that is lent.
pub fn length(word: &str) -> Option<usize> {
    number(word, LARGEST).map(|n| n as usize)
}

/// A number that may have a minus sign. Minus zero is not a number.
fn signed(word: &str, least: i64, most: i64) -> Option<i64> {
    let Some(digits) = word.strip_prefix('-') else {
        return number(word, most as u64).map(|n| n as i64);
    };
    number(digits, least.unsigned_abs()).filter(|&n| n != 0).map(|n| (n as i64).wrapping_neg())
}

pub fn i32_of(word: &str) -> Option<i32> {
    signed(word, i32::MIN as i64, i32::MAX as i64).map(|n| n as i32)
}

fn hex(word: &str, digits: usize) -> Option<u64> {
    let good = |b: u8| b.is_ascii_digit() || (b'a'..=b'f').contains(&b);
    if word.len() != digits || !word.bytes().all(good) {
        return None;
    }
    u64::from_str_radix(word, 16).ok()
}

pub fn f64_of(word: &str) -> Option<f64> {
    hex(word, 16).map(f64::from_bits)
}

pub fn f32_of(word: &str) -> Option<f32> {
    hex(word, 8).map(|b| f32::from_bits(b as u32))
}

fn list<T>(word: &str, element: impl Fn(&str) -> Option<T>) -> Option<Vec<T>> {
    if word == "-" {
        return Some(Vec::new());
    }
    word.split(',').map(element).collect()
}

pub fn u8s(word: &str) -> Option<Vec<u8>> {
    list(word, |w| number(w, 255).map(|n| n as u8))
}

pub fn u16s(word: &str) -> Option<Vec<u16>> {
    list(word, |w| number(w, 65535).map(|n| n as u16))
}

pub fn u32s(word: &str) -> Option<Vec<u32>> {
    list(word, u32_of)
}

pub fn i16s(word: &str) -> Option<Vec<i16>> {
    list(word, |w| signed(w, i16::MIN as i64, i16::MAX as i64).map(|n| n as i16))
}

pub fn i32s(word: &str) -> Option<Vec<i32>> {
    list(word, i32_of)
}

pub fn i64s(word: &str) -> Option<Vec<i64>> {
    list(word, |w| signed(w, i64::MIN, i64::MAX))
}

pub fn f32s(word: &str) -> Option<Vec<f32>> {
    list(word, f32_of)
}

pub fn f64s(word: &str) -> Option<Vec<f64>> {
    list(word, f64_of)
}

/// What a lent list holds before the call.
pub fn lent<T: From<u8>>(length: usize) -> Vec<T> {
    (0..length).map(|i| T::from(((7 * i + 3) % 251) as u8)).collect()
}

/// A list as it is shown.
pub fn shown<T>(list: &[T], element: impl Fn(&T) -> String) -> String {
    if list.is_empty() {
        return "-".into();
    }
    list.iter().map(element).collect::<Vec<_>>().join(",")
}

pub fn decimals<T: ToString>(list: &[T]) -> String {
    shown(list, T::to_string)
}

pub fn hex64(x: &f64) -> String {
    format!("{:016x}", x.to_bits())
}

pub fn hex32(x: &f32) -> String {
    format!("{:08x}", x.to_bits())
}

pub fn hex_bytes(list: &[u8]) -> String {
    if list.is_empty() {
        return "-".into();
    }
    list.iter().map(|b| format!("{b:02x}")).collect()
}
