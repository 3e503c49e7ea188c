//! Ours. The protocol's table: each request is read, judged by document 01 (`judge`), answered by the given Rust
//! (`theirs`, `Door`). With `bare` nothing is judged, and a request at which the given Rust reads outside its lists, or
//! for which it has no counterpart, is answered by the word `undefined`.

use crate::door::{Door, Integers, Weights};
use crate::line::*;
use crate::{judge, sheet, theirs};

/// The answer, or none where the line is not a request.
pub fn answer(text: &str, bare: bool) -> Option<String> {
    let words: Vec<&str> = text.split(' ').collect();
    let fields = &words[1..];
    match (words[0], fields.len()) {
        ("abs" | "floor" | "ceil" | "round" | "narrow", 1) => helper(words[0], fields[0], bare),
        ("widen", 1) => widen(fields[0], bare),
        ("clip8", 1) => clip8(fields[0], bare),
        ("filter", 2) => filter(fields),
        ("crop", 6) => crop(fields, bare),
        ("fit", 5 | 6) => fit(fields, bare),
        ("build", 13) => build(fields, bare),
        ("norm16", 7) => normalize(fields, bare, 22, 15, Door::NORMALIZE16),
        ("norm32", 7) => normalize(fields, bare, 46, 31, Door::NORMALIZE32),
        ("u16pass", 12) => u16pass(fields, bare),
        ("u8pass", 12) => u8pass(fields, bare),
        ("f32pass", 10) => f32pass(fields, bare),
        ("mul8", 2) => alpha(false, fields, bare),
        ("div8", 2) => alpha(true, fields, bare),
        ("mul8in", 1) => alpha_in_place(false, fields, bare),
        ("div8in", 1) => alpha_in_place(true, fields, bare),
        ("mul16", 2) => alpha16(false, fields, bare),
        ("div16", 2) => alpha16(true, fields, bare),
        ("mul16in", 1) => alpha16_in_place(false, fields, bare),
        ("div16in", 1) => alpha16_in_place(true, fields, bare),
        ("sheet", 10) => sheet(fields, bare),
        _ => None,
    }
}

fn undefined() -> Option<String> {
    Some("undefined".into())
}

/// Document 01's NaN; `bare` leaves the processor's.
fn plain(x: f64, bare: bool) -> f64 {
    if x.is_nan() && !bare { f64::from_bits(0x7ff8_0000_0000_0000) } else { x }
}

/// Rust's own methods of f64 and its cast.
fn helper(name: &str, word: &str, bare: bool) -> Option<String> {
    let x = f64_of(word)?;
    Some(match name {
        "abs" => hex64(&x.abs()),
        "floor" => hex64(&plain(x.floor(), bare)),
        "ceil" => hex64(&plain(x.ceil(), bare)),
        "round" => hex64(&plain(x.round(), bare)),
        _ if x.is_nan() && !bare => format!("{} 0", hex32(&f32::from_bits(0x7fc0_0000))),
        _ => format!("{} {}", hex32(&(x as f32)), (x as f32).is_infinite() as u32),
    })
}

fn widen(word: &str, bare: bool) -> Option<String> {
    Some(hex64(&plain(f32_of(word)? as f64, bare)))
}

/// The given table inside its span, document 01's rule outside.
fn clip8(word: &str, bare: bool) -> Option<String> {
    let value = i32_of(word)?;
    if (-640..640).contains(&value) {
        return Some(Door::CLIP8(value).to_string());
    }
    if bare {
        return undefined();
    }
    Some(value.clamp(0, 255).to_string())
}

fn filter(fields: &[&str]) -> Option<String> {
    if judge::retired(fields[0]) {
        return None;
    }
    let (func, _) = theirs::filter(theirs::kind(fields[0])?);
    Some(hex64(&plain(func(f64_of(fields[1])?), false)))
}

fn four(fields: &[&str]) -> Option<[f64; 4]> {
    Some([f64_of(fields[0])?, f64_of(fields[1])?, f64_of(fields[2])?, f64_of(fields[3])?])
}

/// 1 and 2, then the given 3, then 4 for a place below 0, then the given 4 and 5, then 5 by the exact sums.
fn cropped(sides: [u32; 2], numbers: [f64; 4], bare: bool) -> u32 {
    let given = || theirs::crop(sides, numbers);
    if bare {
        return given();
    }
    match judge::crop_before(sides, numbers) {
        0 => match given() {
            3 => 3,
            _ if numbers[0] < 0.0 || numbers[1] < 0.0 => 4,
            0 if (0..2).any(|axis| judge::ends_past(numbers[axis], numbers[axis + 2], sides[axis])) => 5,
            no => no,
        },
        no => no,
    }
}

fn crop(fields: &[&str], bare: bool) -> Option<String> {
    let sides = [u32_of(fields[0])?, u32_of(fields[1])?];
    Some(cropped(sides, four(&fields[2..])?, bare).to_string())
}

fn fit(fields: &[&str], bare: bool) -> Option<String> {
    let sides = [u32_of(fields[0])?, u32_of(fields[1])?, u32_of(fields[2])?, u32_of(fields[3])?];
    let centring = match &fields[4..] {
        ["none"] => None,
        [x, y] => Some((f64_of(x)?, f64_of(y)?)),
        _ => return None,
    };
    let no = if bare { 0 } else { judge::fit_before(sides, centring) };
    let box_of = if no == 0 { theirs::fit(sides, centring) } else { [0.0; 4] };
    Some(format!("{no} {}", box_of.map(|x| hex64(&x)).join(" ")))
}

/// The first values of a lent list, which grows where the given Rust has more than was lent.
fn laid<T: Clone>(values: &[T], mut list: Vec<T>) -> Vec<T> {
    let shared = values.len().min(list.len());
    list[..shared].clone_from_slice(&values[..shared]);
    list.extend_from_slice(&values[shared..]);
    list
}

fn build(fields: &[&str], bare: bool) -> Option<String> {
    let kind = theirs::kind(fields[0])?;
    let adapt = number(fields[1], 1)? == 1;
    let axis = number(fields[2], 1)? as usize;
    let sides = [u32_of(fields[3])?, u32_of(fields[4])?];
    let out = u32_of(fields[5])?;
    let numbers = four(&fields[6..])?;
    let slots: Vec<f64> = lent(length(fields[10])?);
    let starts: Vec<u32> = lent(length(fields[11])?);
    let sizes: Vec<u32> = lent(length(fields[12])?);
    let (near, extent, side) = (numbers[axis], numbers[axis + 2], sides[axis]);
    let shown = |no: u32, line: u32, window: usize, slots: &[f64], starts: &[u32], sizes: &[u32]| {
        let lists = format!("{} {} {}", crate::line::shown(slots, hex64), decimals(starts), decimals(sizes));
        Some(format!("{no} {line} {window} {lists}"))
    };
    let refused = |no| shown(no, 0, 0, &slots, &starts, &sizes);

    if !bare && judge::retired(fields[0]) {
        return refused(16);
    }
    if !bare && !judge::side_fits(out as u64) {
        return refused(1);
    }
    let no = cropped(sides, numbers, bare);
    if no != 0 {
        return refused(no);
    }
    let (func, support) = theirs::filter(kind);
    let scale = ((near + extent) - near) / out as f64;
    let filter_scale = if adapt { scale.max(1.0) } else { 1.0 };
    let radius = support * filter_scale;
    // The given Rust takes any numbers here; a set that would not fit into memory is not asked for.
    if bare && (out as f64 * radius > 1e6 || (scale.is_nan() && side > 100_000)) {
        return undefined();
    }
    if !bare && scale <= 0.0 {
        return refused(6);
    }
    let set = theirs::build(kind, adapt, side, near, extent, out);
    if bare {
        return shown(0, 0, set.window, &laid(&set.slots, slots), &laid(&set.starts, starts), &laid(&set.sizes, sizes));
    }
    let lines = out as usize;
    if slots.len() < set.window * lines || starts.len() < lines || sizes.len() < lines {
        return refused(7);
    }
    let blank = |&i: &u32| judge::blank(i, side, near, scale, radius, filter_scale, func);
    if let Some(line) = (0..out).find(blank) {
        let zeros = vec![0.0; set.window * lines];
        let none = vec![0; lines];
        return shown(8, line, 0, &laid(&zeros, slots), &laid(&none, starts), &laid(&none, sizes));
    }
    shown(0, 0, set.window, &laid(&set.slots, slots), &laid(&set.starts, starts), &laid(&set.sizes, sizes))
}

/// The Rust has no excesses: they are worked out here, from its weights.
fn normalize<T: Copy + Default + From<u8> + Into<i64> + ToString>(
    fields: &[&str], bare: bool, bits: u32, limit: i32, given: fn(&Weights) -> Integers<T>,
) -> Option<String> {
    let (lines, window) = (u32_of(fields[0])?, u32_of(fields[1])?);
    let slots = f64s(fields[2])?;
    let starts = u32s(fields[3])?;
    let sizes = u32s(fields[4])?;
    let mut out: Vec<T> = lent_of(length(fields[5])?);
    let mut excesses: Vec<i64> = lent(length(fields[6])?);
    if !bare {
        let no = judge::normalizer(lines, window, &slots, &starts, &sizes, out.len(), excesses.len(), bits, limit);
        if no != 0 {
            return Some(format!("{no} 0 {} {}", decimals(&out), decimals(&excesses)));
        }
    }
    let window = window as usize;
    let made = given(&Weights { window, slots, starts, sizes });
    let found: Vec<i64> = made.windows.iter().map(|weights| judge::excess(weights, made.precision)).collect();
    let mut values = Vec::new();
    for mut weights in made.windows {
        weights.resize(window, T::default());
        values.append(&mut weights);
    }
    out = laid(&values, out);
    excesses = laid(&found, excesses);
    Some(format!("0 {} {} {}", made.precision, decimals(&out), decimals(&excesses)))
}

fn lent_of<T: From<u8>>(length: usize) -> Vec<T> {
    lent(length)
}

fn u16pass(fields: &[&str], bare: bool) -> Option<String> {
    let (lines, row) = (u32_of(fields[0])?, u32_of(fields[1])?);
    let (first, count) = (u32_of(fields[2])?, u32_of(fields[3])?);
    let (window, precision) = (u32_of(fields[4])?, u32_of(fields[5])?);
    let weights = i32s(fields[6])?;
    let starts = u32s(fields[7])?;
    let sizes = u32s(fields[8])?;
    let excesses = i64s(fields[9])?;
    let samples = u16s(fields[10])?;
    let mut out: Vec<u16> = lent(length(fields[11])?);
    if bare && precision > 45 {
        return undefined();
    }
    if !bare {
        let lists = judge::pass(
            lines, row, first, count, window, weights.len(), &starts, &sizes, samples.len(), out.len(),
        );
        let no = if lists == 0 && !judge::stored_fits(45, window, precision, &weights, &sizes, &excesses) { 10 } else { lists };
        if no != 0 {
            return Some(format!("{no} {}", decimals(&out)));
        }
    }
    theirs::u16pass(lines, row, first, count, window, precision, &weights, &starts, &sizes, &samples, &mut out);
    Some(format!("0 {}", decimals(&out)))
}

/// Ours, whole: the given Rust's u8 pass was not given, and the rule is the customer's (document 02, W-205).
fn u8pass(fields: &[&str], bare: bool) -> Option<String> {
    let (lines, row) = (u32_of(fields[0])?, u32_of(fields[1])?);
    let (first, count) = (u32_of(fields[2])?, u32_of(fields[3])?);
    let (window, precision) = (u32_of(fields[4])?, u32_of(fields[5])?);
    let weights = i16s(fields[6])?;
    let starts = u32s(fields[7])?;
    let sizes = u32s(fields[8])?;
    let excesses = i64s(fields[9])?;
    let samples = u8s(fields[10])?;
    let mut out: Vec<u8> = lent(length(fields[11])?);
    if bare {
        return undefined();
    }
    let lists = judge::pass(
        lines, row, first, count, window, weights.len(), &starts, &sizes, samples.len(), out.len(),
    );
    let no = match lists {
        0 if !judge::stored_fits(21, window, precision, &weights, &sizes, &excesses) => 10,
        0 if judge::heavy(window, &weights, &sizes, precision) => 9,
        no => no,
    };
    if no == 0 {
        judge::u8_rows(row, first, count, window, precision, &weights, &starts, &sizes, &samples, &mut out);
    }
    Some(format!("{no} {}", decimals(&out)))
}

fn f32pass(fields: &[&str], bare: bool) -> Option<String> {
    let (lines, row) = (u32_of(fields[0])?, u32_of(fields[1])?);
    let (first, count) = (u32_of(fields[2])?, u32_of(fields[3])?);
    let window = u32_of(fields[4])?;
    let slots = f64s(fields[5])?;
    let starts = u32s(fields[6])?;
    let sizes = u32s(fields[7])?;
    let samples = f32s(fields[8])?;
    let mut out: Vec<f32> = lent(length(fields[9])?);
    if bare && (first as u64 + count as u64 > row as u64) {
        return undefined();
    }
    if !bare {
        let lists = judge::pass(
            lines, row, first, count, window, slots.len(), &starts, &sizes, samples.len(), out.len(),
        );
        let no = match lists {
            0 => judge::f32_in_use(row, first, count, window, &slots, &starts, &sizes, &samples),
            no => no,
        };
        if no != 0 {
            return Some(format!("{no} 0 {}", shown(&out, hex32)));
        }
    }
    let set = Weights { window: window as usize, slots, starts, sizes };
    theirs::f32pass(lines, row, first, count, &set, &samples, &mut out);
    let infinite = out.iter().filter(|x| x.is_infinite()).count();
    Some(format!("0 {infinite} {}", shown(&out, hex32)))
}

fn alpha(divide: bool, fields: &[&str], bare: bool) -> Option<String> {
    let src = u8s(fields[0])?;
    let mut out: Vec<u8> = lent(length(fields[1])?);
    if !bare && (src.len() != out.len() || src.len() % 4 != 0) {
        return Some(format!("10 {}", decimals(&out)));
    }
    theirs::alpha(divide, &src, &mut out);
    Some(format!("0 {}", decimals(&out)))
}

fn alpha_in_place(divide: bool, fields: &[&str], bare: bool) -> Option<String> {
    let mut list = u8s(fields[0])?;
    if !bare && list.len() % 4 != 0 {
        return Some(format!("10 {}", decimals(&list)));
    }
    theirs::alpha_in_place(divide, &mut list);
    Some(format!("0 {}", decimals(&list)))
}

fn alpha16(divide: bool, fields: &[&str], bare: bool) -> Option<String> {
    let src = u16s(fields[0])?;
    let mut out: Vec<u16> = lent(length(fields[1])?);
    if !bare && (src.len() != out.len() || src.len() % 4 != 0) {
        return Some(format!("10 {}", decimals(&out)));
    }
    theirs::alpha16(divide, &src, &mut out);
    if divide && !bare {
        unwrapped(&src, &mut out);
    }
    Some(format!("0 {}", decimals(&out)))
}

fn alpha16_in_place(divide: bool, fields: &[&str], bare: bool) -> Option<String> {
    let src = u16s(fields[0])?;
    let mut list = src.clone();
    if !bare && list.len() % 4 != 0 {
        return Some(format!("10 {}", decimals(&list)));
    }
    theirs::alpha16_in_place(divide, &mut list);
    if divide && !bare {
        unwrapped(&src, &mut list);
    }
    Some(format!("0 {}", decimals(&list)))
}

/// Document 02's answer at the one pair where the given product wraps: colour 32769, alpha 1.
fn unwrapped(src: &[u16], out: &mut [u16]) {
    for (from, to) in src.chunks_exact(4).zip(out.chunks_exact_mut(4)) {
        for k in 0..3 {
            if from[3] == 1 && from[k] == 32769 {
                to[k] = 65535;
            }
        }
    }
}

fn sheet(fields: &[&str], bare: bool) -> Option<String> {
    theirs::kind(fields[0])?;
    let (lines, window) = (u32_of(fields[1])?, u32_of(fields[2])?);
    let precision = u32_of(fields[4])?;
    let starts = u32s(fields[6])?;
    let sizes = u32s(fields[7])?;
    let excesses = i64s(fields[8])?;
    let room = length(fields[9])?;
    let answer = match fields[3] {
        "16" => sheet::answer(fields[0], lines, window, 16, precision, &i16s(fields[5])?, &starts, &sizes, &excesses, room),
        "32" => sheet::answer(fields[0], lines, window, 32, precision, &i32s(fields[5])?, &starts, &sizes, &excesses, room),
        _ => return None,
    };
    if bare { undefined() } else { Some(answer) }
}
