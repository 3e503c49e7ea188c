//! The functions of include/mirror.h, in its order. A list is a pointer and a count of elements: the pointer has to be good for that
//! many, and what a call may write overlaps nothing else that is handed to it.
#[link(name = "mirror", kind = "static")]
extern "C" {
    pub fn mirror_abs(x: u64) -> u64;
    pub fn mirror_floor(x: u64) -> u64;
    pub fn mirror_ceil(x: u64) -> u64;
    pub fn mirror_round(x: u64) -> u64;
    pub fn mirror_widen(x: u32) -> u64;
    pub fn mirror_narrow(x: u64, infinite: *mut u32) -> u32;

    pub fn mirror_filter(filter: u32, x: f64, weight: *mut f64) -> u32;

    pub fn mirror_crop(image_width: u32, image_height: u32, left: f64, top: f64, width: f64, height: f64) -> u32;

    pub fn mirror_fit(
        src_width: u32, src_height: u32, dst_width: u32, dst_height: u32,
        centred: u32, cx: f64, cy: f64,
        left: *mut f64, top: *mut f64, width: *mut f64, height: *mut f64,
    ) -> u32;

    pub fn mirror_weights(
        image_width: u32, image_height: u32, left: f64, top: f64, width: f64, height: f64,
        axis: u32, out_side: u32, filter: u32, adapts: u32,
        weights: *mut f64, weights_len: usize, starts: *mut u32, starts_len: usize, sizes: *mut u32, sizes_len: usize,
        window: *mut u32, line: *mut u32,
    ) -> u32;

    pub fn mirror_normalize16(
        lines: u32, window: u32, weights: *const f64, weights_len: usize, starts: *const u32, starts_len: usize,
        sizes: *const u32, sizes_len: usize, out: *mut i16, out_len: usize, excesses: *mut i64, excesses_len: usize, precision: *mut u32,
    ) -> u32;
    pub fn mirror_normalize32(
        lines: u32, window: u32, weights: *const f64, weights_len: usize, starts: *const u32, starts_len: usize,
        sizes: *const u32, sizes_len: usize, out: *mut i32, out_len: usize, excesses: *mut i64, excesses_len: usize, precision: *mut u32,
    ) -> u32;

    pub fn mirror_clip8(value: i32) -> u8;

    pub fn mirror_vertical_u16(
        src: *const u16, src_len: usize, lines: u32, row: u32, first: u32, count: u32,
        weights: *const i32, weights_len: usize, starts: *const u32, starts_len: usize,
        sizes: *const u32, sizes_len: usize, excesses: *const i64, excesses_len: usize, window: u32, precision: u32, out: *mut u16, out_len: usize,
    ) -> u32;
    pub fn mirror_vertical_u8(
        src: *const u8, src_len: usize, lines: u32, row: u32, first: u32, count: u32,
        weights: *const i16, weights_len: usize, starts: *const u32, starts_len: usize,
        sizes: *const u32, sizes_len: usize, excesses: *const i64, excesses_len: usize, window: u32, precision: u32, out: *mut u8, out_len: usize,
    ) -> u32;
    pub fn mirror_vertical_f32(
        src: *const f32, src_len: usize, lines: u32, row: u32, first: u32, count: u32,
        weights: *const f64, weights_len: usize, starts: *const u32, starts_len: usize,
        sizes: *const u32, sizes_len: usize, window: u32, out: *mut f32, out_len: usize, infinite: *mut u32,
    ) -> u32;
    pub fn mirror_horizontal_u16(
        src: *const u16, src_len: usize, components: u32, rows: u32, row: u32, first: u32, count: u32,
        weights: *const i32, weights_len: usize, starts: *const u32, starts_len: usize,
        sizes: *const u32, sizes_len: usize, excesses: *const i64, excesses_len: usize, window: u32, precision: u32, out: *mut u16, out_len: usize,
    ) -> u32;

    pub fn mirror_multiply_u8x4(src: *const u8, src_len: usize, dst: *mut u8, dst_len: usize) -> u32;
    pub fn mirror_multiply_u8x4_inplace(pixels: *mut u8, len: usize) -> u32;
    pub fn mirror_divide_u8x4(src: *const u8, src_len: usize, dst: *mut u8, dst_len: usize) -> u32;
    pub fn mirror_divide_u8x4_inplace(pixels: *mut u8, len: usize) -> u32;

    pub fn mirror_multiply_u16x4(src: *const u16, src_len: usize, dst: *mut u16, dst_len: usize) -> u32;
    pub fn mirror_multiply_u16x4_inplace(pixels: *mut u16, len: usize) -> u32;
    pub fn mirror_divide_u16x4(src: *const u16, src_len: usize, dst: *mut u16, dst_len: usize) -> u32;
    pub fn mirror_divide_u16x4_inplace(pixels: *mut u16, len: usize) -> u32;

    pub fn mirror_sheet16(
        filter: u32, lines: u32, window: u32, precision: u32, weights: *const i16, weights_len: usize, starts: *const u32, starts_len: usize,
        sizes: *const u32, sizes_len: usize, excesses: *const i64, excesses_len: usize, text: *mut u8, text_len: usize, written: *mut u64,
    ) -> u32;
    pub fn mirror_sheet32(
        filter: u32, lines: u32, window: u32, precision: u32, weights: *const i32, weights_len: usize, starts: *const u32, starts_len: usize,
        sizes: *const u32, sizes_len: usize, excesses: *const i64, excesses_len: usize, text: *mut u8, text_len: usize, written: *mut u64,
    ) -> u32;

    pub fn mirror_story(
        src: *const u16, src_len: usize, lines: u32, row: u32, weights: *const i32, weights_len: usize, starts: *const u32, starts_len: usize,
        sizes: *const u32, sizes_len: usize, excesses: *const i64, excesses_len: usize, window: u32, precision: u32, line: u32, column: u32,
        text: *mut u8, text_len: usize, written: *mut u64,
    ) -> u32;

    pub fn mirror_read_sheet(
        text: *const u8, text_len: usize, weights: *mut i32, weights_len: usize, starts: *mut u32, starts_len: usize, sizes: *mut u32, sizes_len: usize,
        excesses: *mut i64, excesses_len: usize, filter: *mut u32, lines: *mut u32, windows: *mut u32, window: *mut u32, store: *mut u32, precision: *mut u32, byte: *mut u64,
    ) -> u32;
    pub fn mirror_read_sheet16(
        text: *const u8, text_len: usize, weights: *mut i16, weights_len: usize, starts: *mut u32, starts_len: usize, sizes: *mut u32, sizes_len: usize,
        excesses: *mut i64, excesses_len: usize, filter: *mut u32, lines: *mut u32, windows: *mut u32, window: *mut u32, store: *mut u32, precision: *mut u32, byte: *mut u64,
    ) -> u32;

    pub fn mirror_book(
        text: *const u8, text_len: usize, sheets: *mut u64, windows: *mut u64, least: *mut i64, most: *mut i64, notflat: *mut u64, negative: *mut u64, byte: *mut u64,
    ) -> u32;
    pub fn mirror_book_lines(
        sheets: u64, windows: u64, least: i64, most: i64, notflat: u64, negative: u64, stopped: u32, out: *mut u8, out_len: usize, written: *mut u64,
    ) -> u32;

    pub fn mirror_accept16(
        lines: u32, window: u32, precision: u32, weights: *mut i16, weights_len: usize, starts: *const u32, starts_len: usize,
        sizes: *const u32, sizes_len: usize, excesses: *mut i64, excesses_len: usize, offered_window: u32, offered_precision: u32,
        offered_starts: *const u32, offered_starts_len: usize, offered_sizes: *const u32, offered_sizes_len: usize, offered_weights: *const i16, offered_weights_len: usize,
    ) -> u32;
    pub fn mirror_accept32(
        lines: u32, window: u32, precision: u32, weights: *mut i32, weights_len: usize, starts: *const u32, starts_len: usize,
        sizes: *const u32, sizes_len: usize, excesses: *mut i64, excesses_len: usize, offered_window: u32, offered_precision: u32,
        offered_starts: *const u32, offered_starts_len: usize, offered_sizes: *const u32, offered_sizes_len: usize, offered_weights: *const i32, offered_weights_len: usize,
    ) -> u32;
    pub fn mirror_offer16(
        lines: u32, window: u32, precision: u32, weights: *const i16, weights_len: usize, starts: *const u32, starts_len: usize,
        sizes: *const u32, sizes_len: usize, excesses: *const i64, excesses_len: usize, out: *mut i16, out_len: usize, line: *mut u32,
    ) -> u32;
    pub fn mirror_offer32(
        lines: u32, window: u32, precision: u32, weights: *const i32, weights_len: usize, starts: *const u32, starts_len: usize,
        sizes: *const u32, sizes_len: usize, excesses: *const i64, excesses_len: usize, out: *mut i32, out_len: usize, line: *mut u32,
    ) -> u32;

    pub fn mirror_store_restart(
        numbers: *mut u32, numbers_len: usize, slots: *const i32, slots_len: usize, starts: *const u32, starts_len: usize, sizes: *const u32, sizes_len: usize,
        excesses: *const i64, excesses_len: usize, first: u32, second: u32,
    ) -> u32;
    pub fn mirror_store_put(
        numbers: *mut u32, numbers_len: usize, slots: *mut i32, slots_len: usize, starts: *mut u32, starts_len: usize, sizes: *mut u32, sizes_len: usize,
        excesses: *mut i64, excesses_len: usize, client: u32,
        image_width: u32, image_height: u32, left: f64, top: f64, width: f64, height: f64,
        axis: u32, out_side: u32, filter: u32, adapts: u32,
        doubles: *mut f64, doubles_len: usize, firsts: *mut u32, firsts_len: usize, counts: *mut u32, counts_len: usize,
        window: *mut u32, line: *mut u32,
    ) -> u32;
    pub fn mirror_store_u16(
        numbers: *const u32, numbers_len: usize, slots: *const i32, slots_len: usize, starts: *const u32, starts_len: usize, sizes: *const u32, sizes_len: usize,
        excesses: *const i64, excesses_len: usize, client: u32,
        src: *const u16, src_len: usize, row: u32, first: u32, count: u32, out: *mut u16, out_len: usize,
    ) -> u32;
}
