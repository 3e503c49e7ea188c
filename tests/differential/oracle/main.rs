//! Ours. The oracle: the given Rust behind the lines of the protocol (tests/differential/README.md).
//!
//! THEIRS, copied byte for byte by `build`: alpha/common.rs, alpha/u8x4/native.rs, alpha/u16x4/native.rs, compat/mod.rs, convolution/mod.rs,
//! convolution/filters.rs, convolution/optimisations.rs, convolution/vertical_u16/native.rs,
//! convolution/vertical_f32/native.rs, crop_box.rs, pixels.rs, utils.rs. OURS: every other file of the build folder.
#![allow(dead_code, unused_imports, unused_macros)]

use std::io::{BufRead, Write};

use convolution::*;
use crop_box::*;
use door::{CpuExtensions, CropBoxError, ImageView, ImageViewMut};

// THEIRS, reached through folders whose mod.rs is ours where it was not given.
#[macro_use]
mod utils;
mod alpha;
mod compat;
mod convolution;
mod crop_box;
mod pixels;

// OURS.
mod door;
mod judge;
mod line;
mod operations;
mod sheet;
mod theirs;

/// A longer line is answered by `bad`.
const LONGEST: usize = 262_143;

fn main() {
    let bare = match std::env::args().nth(1).as_deref() {
        None => false,
        Some("--bare") => true,
        Some(_) => {
            eprintln!("usage: oracle [--bare] < requests > answers");
            std::process::exit(2);
        }
    };
    std::panic::set_hook(Box::new(|_| {}));
    let mut input = std::io::BufReader::with_capacity(1 << 20, std::io::stdin().lock());
    let mut output = std::io::BufWriter::with_capacity(1 << 20, std::io::stdout().lock());
    let mut bytes = Vec::new();
    loop {
        bytes.clear();
        if input.read_until(b'\n', &mut bytes).expect("standard input") == 0 {
            break;
        }
        if bytes.last() == Some(&b'\n') {
            bytes.pop();
        }
        let answer = answer(&bytes, bare);
        output.write_all(answer.as_bytes()).expect("standard output");
        output.write_all(b"\n").expect("standard output");
    }
}

/// One line's answer. A panic of the given Rust is answered by the word `panic`.
fn answer(bytes: &[u8], bare: bool) -> String {
    if bytes.is_empty() {
        return String::new();
    }
    let Some(text) = std::str::from_utf8(bytes).ok().filter(|_| bytes.len() <= LONGEST) else {
        return "bad".into();
    };
    match std::panic::catch_unwind(|| operations::answer(text, bare)) {
        Ok(Some(answer)) => answer,
        Ok(None) => "bad".into(),
        Err(_) => "panic".into(),
    }
}
