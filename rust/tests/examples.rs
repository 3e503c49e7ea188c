//! Document 01's examples and refusals through the safe wrapper, and a number for every refusal.
use mirror::*;

const WHOLE: CropBox = CropBox { left: 0.0, top: 0.0, width: 4.0, height: 1.0 };
const REQUEST: Request =
    Request { image_width: 4, image_height: 1, crop: WHOLE, axis: Axis::Horizontal, out_side: 2, filter: FilterType::Box, adapts: true };

fn set<'a, W>(lines: u32, weights: &'a [W], sizes: &'a [u32]) -> Set<'a, W> {
    Set { lines, window: weights.len() as u32, weights, starts: &[CameraLine(0)], sizes }
}

fn stored<'a, W>(set: Set<'a, W>, precision: u32, excesses: &'a [i64]) -> Stored<'a, W> {
    Stored { set, precision, excesses }
}

#[test]
fn helpers_round_as_rows_13_and_14() {
    assert_eq!([round(2.5), round(-2.5), round(-0.5)], [3.0, -3.0, -1.0]);
    assert_eq!(narrow(1.0 + 2f64.powi(-24)), Narrowed { value: 1.0, infinite: false });
    assert_eq!(narrow(1.0 + 3.0 * 2f64.powi(-24)), Narrowed { value: 1.0 + 2f32.powi(-22), infinite: false });
    assert_eq!(narrow(-1e39), Narrowed { value: f32::NEG_INFINITY, infinite: true });
    assert_eq!((floor(-0.5), ceil(0.5), abs(-2.0), widen(0.5)), (-1.0, 1.0, 2.0, 0.5));
    assert_eq!(floor(f64::NAN).to_bits(), 0x7ff8_0000_0000_0000);
    assert_eq!((clip8(-1), clip8(77), clip8(i32::MAX)), (0, 77, 255));
    assert_eq!((filter(Filter::Box, -0.5), filter(Filter::Box, 0.5), filter(Filter::Bilinear, 0.25)), (0.0, 1.0, 0.75));
}

#[test]
fn crop_gives_numbers_1_to_5() {
    let of = |b: CropBox| crop(4, 1, b).map_err(Refusal::number);
    assert_eq!(of(WHOLE), Ok(()));
    assert_eq!(crop(0, 1, WHOLE), Err(Refusal::BadSide));
    assert_eq!(of(CropBox { left: f64::NAN, ..WHOLE }), Err(2));
    assert_eq!(of(CropBox { width: -1.0, ..WHOLE }), Err(3));
    assert_eq!(of(CropBox { left: -1.0, ..WHOLE }), Err(4));
    assert_eq!(of(CropBox { left: 1.0, ..WHOLE }), Err(5));
}

#[test]
fn crop_judges_the_exact_end() {
    let quarter = |width| crop(1, 1, CropBox { left: 0.75, top: 0.0, width, height: 1.0 });
    assert_eq!((quarter(0.25), quarter(0.25 + f64::EPSILON / 4.0)), (Ok(()), Err(Refusal::EndOutside)));
    let fitted = fit((1, 1), (1, 3), Centring::At(1.0, 1.0)).unwrap();
    assert_eq!(crop(1, 1, fitted), Err(Refusal::EndOutside));
}

#[test]
fn fit_centres_unless_told() {
    assert_eq!(fit((200, 100), (100, 100), Centring::Absent), Ok(CropBox { left: 50.0, top: 0.0, width: 100.0, height: 100.0 }));
    assert_eq!(fit((200, 100), (100, 100), Centring::At(0.0, 0.0)).map(|b| b.left), Ok(0.0));
    assert_eq!(fit((8193, 1), (1, 1), Centring::Absent), Err(Refusal::BadSide));
    assert_eq!(fit((0, 1), (1, 1), Centring::At(0.0, f64::INFINITY)), Err(Refusal::NotFinite));
}

#[test]
fn the_sheets_set_is_built_and_its_spare_slots_kept() {
    let (mut slots, mut starts, mut sizes) = ([7.0; 7], [CameraLine(7); 3], [7; 3]);
    assert_eq!(weights(&REQUEST, &mut slots, &mut starts, &mut sizes), Ok(3));
    assert_eq!(slots, [0.5, 0.5, 0.0, 0.5, 0.5, 0.0, 7.0]);
    assert_eq!((starts, sizes), ([CameraLine(0), CameraLine(2), CameraLine(7)], [2, 2, 7]));
    let built = Set { lines: 4, window: 3, weights: &slots[..6], starts: &starts[..2], sizes: &sizes[..2] };
    let (mut integers, mut excesses) = ([7; 6], [7; 3]);
    assert_eq!(normalize32(&built, &mut integers, &mut excesses), Ok(31));
    assert_eq!((integers, excesses), ([1 << 30, 1 << 30, 0, 1 << 30, 1 << 30, 0], [0, 0, 7]));
}

#[test]
fn a_blank_window_names_its_display_line() {
    let sliver = CropBox { left: 1.0 - 2f64.powi(-53), width: 2f64.powi(-53), ..WHOLE };
    let request = Request { image_width: 1, crop: sliver, out_side: 1, ..REQUEST };
    let (mut slots, mut starts, mut sizes) = ([7.0; 3], [CameraLine(7)], [7]);
    assert_eq!(weights(&request, &mut slots, &mut starts, &mut sizes), Err(Refusal::BlankWindow(DisplayLine(0))));
    assert_eq!((slots, starts, sizes), ([0.0; 3], [CameraLine(0)], [0]));
    assert_eq!(weights(&Request { filter: FilterType::Bilinear, ..request }, &mut slots, &mut starts, &mut sizes), Ok(3));
}

#[test]
fn a_refused_request_writes_nothing() {
    let refused = |request: Request| {
        let (mut slots, mut starts, mut sizes) = ([7.0; 6], [CameraLine(7); 2], [7; 2]);
        let answer = weights(&request, &mut slots, &mut starts, &mut sizes);
        assert_eq!((slots, starts, sizes), ([7.0; 6], [CameraLine(7); 2], [7; 2]));
        answer
    };
    assert_eq!(refused(Request { out_side: 0, ..REQUEST }), Err(Refusal::BadSide));
    assert_eq!(refused(Request { out_side: 8193, ..REQUEST }), Err(Refusal::BadSide));
    assert_eq!(refused(Request { out_side: 8192, ..REQUEST }), Err(Refusal::TooFewSlots));
    assert_eq!(refused(Request { crop: CropBox { width: 0.0, ..WHOLE }, ..REQUEST }), Err(Refusal::NoScale));
    assert_eq!(refused(Request { filter: FilterType::CatmullRom, axis: Axis::Vertical, ..REQUEST }), Err(Refusal::TooFewSlots));
    assert_eq!(refused(Request { filter: FilterType::Mitchell, axis: Axis::Vertical, ..REQUEST }), Err(Refusal::RetiredFilter));
    assert_eq!(refused(Request { filter: FilterType::Mitchell, image_width: 0, out_side: 0, ..REQUEST }), Err(Refusal::RetiredFilter));
}

#[test]
fn normalisers_give_rows_7_to_9() {
    let (mut out, mut over) = ([7; 4], [7; 2]);
    assert_eq!(normalize16(&set(1, &[1.0], &[1]), &mut out, &mut over), Ok(14));
    assert_eq!((out, over), ([16384, 7, 7, 7], [0, 7]));
    assert_eq!(normalize16(&set(3, &[1.0 / 3.0; 3], &[3]), &mut out, &mut over), Ok(16));
    assert_eq!((out, over), ([21845, 21845, 21845, 7], [-1, 7]));
    assert_eq!(normalize16(&set(1, &[f64::NAN], &[1]), &mut out, &mut over), Err(Refusal::WeightOutside));
    assert_eq!(normalize16(&set(1, &[1.0], &[1]), &mut [], &mut over), Err(Refusal::TooFewSlots));
    assert_eq!(normalize16(&set(1, &[1.0], &[1]), &mut out, &mut []), Err(Refusal::TooFewSlots));
    assert_eq!(normalize32(&set(1, &[1.0], &[2]), &mut [0], &mut over), Err(Refusal::DoesNotFit));
    assert_eq!((out, over), ([21845, 21845, 21845, 7], [-1, 7]));
}

#[test]
fn passes_give_rows_10_to_12() {
    let column = |weights: &[i32], samples: &[u16]| {
        let (lines, mut out) = (samples.len() as u32, [7]);
        let frame = Frame { samples, row: 1, first: 0, count: 1 };
        let over = [weights.iter().map(|&w| w as i64).sum::<i64>() - 16];
        vertical_u16(&frame, &stored(set(lines, weights, &[lines]), 4, &over), &mut out).map(|()| out[0])
    };
    assert_eq!(column(&[-4, 24, -4], &[100, 200, 100]), Ok(250));
    assert_eq!((column(&[-4, 24, -4], &[65535, 0, 65535]), column(&[-4, 24, -4], &[0, 65535, 0])), (Ok(0), Ok(65535)));
    assert_eq!((column(&[8, 8], &[1, 0]), column(&[8, 8], &[0, 1]), column(&[8, 8], &[1, 1])), (Ok(1), Ok(1), Ok(1)));
    assert_eq!(column(&[8], &[1, 1]), Err(Refusal::DoesNotFit));
    let wrong = |excesses: &[i64]| {
        let frame = Frame { samples: &[1, 0], row: 1, first: 0, count: 1 };
        vertical_u16(&frame, &stored(set(2, &[8, 8], &[2]), 4, excesses), &mut [7])
    };
    assert_eq!((wrong(&[0]), wrong(&[1]), wrong(&[]), wrong(&[0, 0])), (Ok(()), Err(Refusal::DoesNotFit), Err(Refusal::DoesNotFit), Err(Refusal::DoesNotFit)));

    let frame = |samples| Frame { samples, row: 2, first: 1, count: 1 };
    let mut out = [7.0];
    assert_eq!(vertical_f32(&frame(&[f32::NAN, 2.0, f32::NAN, 4.0]), &set(2, &[0.5, 0.5], &[2]), &mut out), Ok(0));
    assert_eq!(out, [3.0]);
    assert_eq!(vertical_f32(&frame(&[0.0, f32::MAX, 0.0, f32::MAX]), &set(2, &[0.5, 1.0], &[2]), &mut out), Ok(1));
    assert_eq!(out, [f32::INFINITY]);
    assert_eq!(vertical_f32(&frame(&[0.0, 2.0, 0.0, f32::NAN]), &set(2, &[0.5, 0.5], &[2]), &mut out), Err(Refusal::SampleOutside));
    assert_eq!(out, [f32::INFINITY]);
}

#[test]
fn the_byte_pass_clips_and_judges_its_weights() {
    let column = |weights: &[i16], samples: &[u8], precision| {
        let (lines, mut out) = (samples.len() as u32, [7]);
        let frame = Frame { samples, row: 1, first: 0, count: 1 };
        let over = [weights.iter().map(|&w| w as i64).sum::<i64>() - (1i64 << precision)];
        vertical_u8(&frame, &stored(set(lines, weights, &[lines]), precision, &over), &mut out).map(|()| out[0])
    };
    assert_eq!(column(&[-4, 24, -4], &[100, 200, 100], 4), Ok(250));
    assert_eq!((column(&[-4, 24, -4], &[255, 0, 255], 4), column(&[-4, 24, -4], &[0, 255, 0], 4)), (Ok(0), Ok(255)));
    assert_eq!((column(&[-32768; 257], &[255; 257], 15), column(&[-32768; 257], &[0; 257], 16)), (Ok(0), Err(Refusal::WeightOutside)));
    assert_eq!(column(&[-32768; 257], &[255; 257], 22), Err(Refusal::DoesNotFit));
}

#[test]
fn alpha_gives_rows_1_to_6() {
    let with = |f: fn(&[u8], &mut [u8]) -> Result<(), Refusal>, colour, alpha| {
        let mut out = [7; 4];
        f(&[colour, 0, colour, alpha], &mut out).map(|()| out[0])
    };
    assert_eq!((with(multiply_alpha, 128, 128), with(multiply_alpha, 193, 253)), (Ok(64), Ok(191)));
    assert_eq!((with(divide_alpha, 191, 253), with(multiply_alpha, 192, 253)), (Ok(192), Ok(190)));
    assert_eq!((with(divide_alpha, 200, 0), with(divide_alpha, 200, 100), with(divide_alpha, 50, 100)), (Ok(0), Ok(255), Ok(128)));
    let mut pixels = [193, 0, 0, 253];
    assert_eq!((multiply_alpha_inplace(&mut pixels), pixels[0]), (Ok(()), 191));
    assert_eq!((divide_alpha_inplace(&mut pixels), pixels[0]), (Ok(()), 192));
    assert_eq!(multiply_alpha(&[0; 4], &mut [0; 8]), Err(Refusal::DoesNotFit));
    assert_eq!((divide_alpha_inplace(&mut pixels[..3]), divide_alpha_inplace(&mut [])), (Err(Refusal::DoesNotFit), Ok(())));
}

#[test]
fn alpha_of_16_bits() {
    let with = |f: fn(&[u16], &mut [u16]) -> Result<(), Refusal>, colour, alpha| {
        let mut out = [9; 4];
        f(&[colour, 0, colour, alpha], &mut out).map(|()| (out[0], out[3]))
    };
    assert_eq!((with(multiply_alpha16, 32768, 32768), with(multiply_alpha16, 65535, 65535)), (Ok((16384, 32768)), Ok((65535, 65535))));
    assert_eq!((with(divide_alpha16, 1, 2), with(divide_alpha16, 13, 26)), (Ok((32768, 2)), Ok((32767, 26))));
    assert_eq!((with(divide_alpha16, 32769, 1), with(divide_alpha16, 200, 0)), (Ok((65535, 1)), Ok((0, 0))));
    let mut pixels = [13, 0, 65535, 26];
    assert_eq!((divide_alpha16_inplace(&mut pixels), pixels), (Ok(()), [32767, 0, 65535, 26]));
    assert_eq!((multiply_alpha16_inplace(&mut pixels), pixels), (Ok(()), [13, 0, 26, 26]));
    assert_eq!(multiply_alpha16(&[0; 4], &mut [0; 8]), Err(Refusal::DoesNotFit));
    assert_eq!((divide_alpha16_inplace(&mut pixels[..3]), divide_alpha16_inplace(&mut [])), (Err(Refusal::DoesNotFit), Ok(())));
}

const SHEET: &[u8] = b"kind=box\nin=4\nout=2\nwindow=3\nstore=32\nprecision=31\nw0=0,2:1073741824,1073741824\nw1=2,2:1073741824,1073741824\nexcess=0,0\n";
const SMALL: &[u8] = b"kind=mitchell\nin=1\nout=1\nwindow=1\nstore=16\nprecision=4\nw0=0,1:-5\nexcess=-21\n";

#[test]
fn the_sheet_is_document_01s() {
    let half = 1 << 30;
    let (weights, starts, sizes) = ([half, half, 0, half, half, 0], [CameraLine(0), CameraLine(2)], [2, 2]);
    let set32 = Set { lines: 4, window: 3, weights: &weights, starts: &starts, sizes: &sizes };
    let (right, wrong) = (stored(set32, 31, &[0, 0]), stored(set32, 31, &[0, 1]));
    let mut text = [7; SHEET.len() + 1];
    assert_eq!(sheet32(FilterType::Box, &right, &mut text[..SHEET.len() - 1]), Err(Refusal::NoRoom));
    assert_eq!(sheet32(FilterType::Box, &wrong, &mut text), Err(Refusal::DoesNotFit));
    assert_eq!(text, [7; SHEET.len() + 1]);
    assert_eq!(sheet32(FilterType::Box, &right, &mut text), Ok(SHEET.len() as u64));
    assert_eq!((&text[..SHEET.len()], text[SHEET.len()]), (SHEET, 7));
    assert_eq!(sheet16(FilterType::Mitchell, &stored(set(1, &[-5], &[1]), 4, &[-21]), &mut text), Ok(SMALL.len() as u64));
    assert!(text.starts_with(SMALL));
    assert_eq!(sheet16(FilterType::Box, &stored(set(1, &[-5], &[1]), 22, &[-5 - (1 << 22)]), &mut text), Err(Refusal::DoesNotFit));
}

#[test]
fn a_sheet_is_read_back_and_written_again() {
    let half = 1 << 30;
    let (mut slots, mut starts, mut sizes, mut excesses) = ([7; 7], [CameraLine(7); 3], [7; 3], [7; 3]);
    let head = Head { filter: FilterType::Box, lines: 4, windows: 2, window: 3, store: 32, precision: 31 };
    assert_eq!(read_sheet(SHEET, &mut slots, &mut starts, &mut sizes, &mut excesses), Ok(head));
    assert_eq!((slots, starts, sizes), ([half, half, 0, half, half, 0, 7], [CameraLine(0), CameraLine(2), CameraLine(7)], [2, 2, 7]));
    assert_eq!(excesses, [0, 0, 7]);
    let set32 = Set { lines: head.lines, window: head.window, weights: &slots[..6], starts: &starts[..2], sizes: &sizes[..2] };
    let mut text = [7; SHEET.len()];
    assert_eq!(sheet32(head.filter, &stored(set32, head.precision, &excesses[..2]), &mut text), Ok(SHEET.len() as u64));
    assert_eq!(text, SHEET);

    let (mut narrow, mut one, mut size, mut over) = ([7i16; 1], [CameraLine(7)], [7], [7]);
    let head16 = Head { filter: FilterType::Mitchell, lines: 1, windows: 1, window: 1, store: 16, precision: 4 };
    assert_eq!(read_sheet16(SMALL, &mut narrow, &mut one, &mut size, &mut over), Ok(head16));
    assert_eq!((narrow, one, size, over), ([-5], [CameraLine(0)], [1], [-21]));
}

#[test]
fn a_text_that_is_no_sheet_is_refused_at_its_byte() {
    let (mut slots, mut starts, mut sizes, mut excesses) = ([7; 6], [CameraLine(7); 2], [7; 2], [7; 2]);
    let mut read = |text: &[u8]| {
        let answer = read_sheet(text, &mut slots, &mut starts, &mut sizes, &mut excesses);
        assert_eq!((slots, starts, sizes, excesses), ([7; 6], [CameraLine(7); 2], [7; 2], [7; 2]));
        answer
    };
    let line = SHEET.len() - b"excess=0,0\n".len();
    assert_eq!(read(b""), Err(Refusal::NotASheet(0)));
    assert_eq!(read(&SHEET[..SHEET.len() - 1]), Err(Refusal::NotASheet(SHEET.len() as u64 - 1)));
    assert_eq!(read(&SHEET[..line]), Err(Refusal::NotASheet(line as u64)));
    assert_eq!(read(&[&SHEET[..line], b"excess=0,1\n"].concat()), Err(Refusal::NotASheet(line as u64 + 9)));
    assert_eq!(read(b"kind=box\nin=04\n"), Err(Refusal::NotASheet(12)));
    assert_eq!(read(b"kind=box\nin=4\nout=3\nwindow=3\n"), Err(Refusal::TooFewSlots));
    assert_eq!(read(b"kind=box\nin=4\nout=3\nwindow=3"), Err(Refusal::NotASheet(28)));
    assert_eq!(read_sheet16(SHEET, &mut [7; 6], &mut starts, &mut sizes, &mut excesses).map_err(Refusal::number), Err(13));
}

#[test]
fn offers_are_made_judged_and_taken_over() {
    let (starts, sizes, third) = ([CameraLine(0)], [3], [21845; 3]);
    let mut own = [7; 4];
    let thirds = stored(Set { lines: 3, window: 3, weights: &third, starts: &starts, sizes: &sizes }, 16, &[-1]);
    assert_eq!(offer16(&thirds, &mut own[..2]), Err(Refusal::TooFewSlots));
    assert_eq!(offer16(&stored(thirds.set, 16, &[0]), &mut own), Err(Refusal::DoesNotFit));
    assert_eq!(own, [7; 4]);
    assert_eq!((offer16(&thirds, &mut own), own), (Ok(()), [21846, 21845, 21845, 7]));

    let (mut weights, mut excesses) = (third, [-1]);
    let mut set = Repairable { lines: 3, window: 3, precision: 16, weights: &mut weights, starts: &starts, sizes: &sizes, excesses: &mut excesses };
    let offer = |weights, precision| Offer { window: 3, precision, starts: &starts, sizes: &sizes, weights };
    let wrong = [([21847, 21844, 21845], 16), (third, 16), ([21846, 21845, 21845], 15)];
    for (weights, precision) in &wrong {
        assert_eq!(accept16(&mut set, &offer(weights, *precision)), Err(Refusal::NotAccepted));
    }
    assert_eq!(accept16(&mut set, &offer(&own[..2], 16)).map_err(Refusal::number), Err(14));
    assert_eq!((set.stored().set.weights, set.stored().excesses), (&third[..], &[-1][..]));
    assert_eq!(accept16(&mut set, &offer(&own[..3], 16)), Ok(()));
    assert_eq!((weights, excesses), ([21846, 21845, 21845], [0]));
    let (mut grey, wide) = ([7], weights.map(i32::from));
    let repaired = stored(Set { lines: 3, window: 3, weights: &wide, starts: &starts, sizes: &sizes }, 16, &excesses);
    assert_eq!((vertical_u16(&Frame { samples: &[65535; 3], row: 1, first: 0, count: 1 }, &repaired, &mut grey), grey), (Ok(()), [65535]));
}

#[test]
fn the_first_line_without_an_offer_is_told() {
    let (weights, starts, sizes) = ([8, 9, 9, 10], [CameraLine(0); 2], [2, 2]);
    let mut out = [7; 4];
    let set = |weights| Set { lines: 2, window: 2, weights, starts: &starts, sizes: &sizes };
    assert_eq!((offer32(&stored(set(&weights), 4, &[1, 3]), &mut out), out), (Err(Refusal::NoOffer(DisplayLine(1))), [7; 4]));
    assert_eq!((offer32(&stored(set(&[8, 9, 9, 9]), 4, &[1, 2]), &mut out), out), (Ok(()), [7, 9, 8, 8]));
    let (mut weights, mut excesses) = ([8, 9, 9, 9], [1, 2]);
    let mut held = Repairable { lines: 2, window: 2, precision: 4, weights: &mut weights, starts: &starts, sizes: &sizes, excesses: &mut excesses };
    assert_eq!(accept32(&mut held, &Offer { window: 2, precision: 4, starts: &starts, sizes: &sizes, weights: &[9, 7, 8, 8] }), Err(Refusal::NotAccepted));
    assert_eq!(accept32(&mut held, &Offer { window: 2, precision: 4, starts: &starts, sizes: &sizes, weights: &[8, 8, 8, 8] }), Ok(()));
    held.lines = 0;
    assert_eq!(accept32(&mut held, &Offer { window: 2, precision: 4, starts: &starts, sizes: &sizes, weights: &[8, 8, 8, 8] }), Err(Refusal::BadSide));
    assert_eq!((weights, excesses), ([8, 8, 8, 8], [0, 0]));
}

#[test]
fn two_clients_share_a_store() {
    let mut store = Store::<30>::new();
    let frame = Frame { samples: &[7, 8, 9], row: 1, first: 0, count: 1 };
    let set = Request { image_width: 3, crop: CropBox { width: 3.0, ..WHOLE }, out_side: 3, adapts: false, ..REQUEST };
    let mut out = [0; 3];
    assert_eq!(store.restart(16, 15), Err(Refusal::SharesDoNotFit));
    assert_eq!(store.restart(9, 21), Ok(()));
    assert_eq!(store.put(Client::Left, &set), Ok(3));
    assert_eq!(store.put(Client::Left, &Request { image_width: 4, crop: WHOLE, out_side: 4, ..set }), Err(Refusal::TooFewSlots));
    assert_eq!((store.vertical_u16(Client::Left, &frame, &mut out), out), (Ok(()), [7, 8, 9]));
    assert_eq!(store.vertical_u16(Client::Right, &frame, &mut out), Err(Refusal::DoesNotFit));
    assert_eq!(store.put(Client::Right, &Request { image_width: 4, crop: WHOLE, out_side: 4, ..set }), Ok(3));
    assert_eq!(store.vertical_u16(Client::Left, &frame, &mut out), Ok(()));
    assert_eq!((store.restart(0, 30), store.vertical_u16(Client::Left, &frame, &mut out)), (Ok(()), Err(Refusal::DoesNotFit)));
}

#[test]
fn a_pixel_tells_its_story() {
    const STORY: &[u8] = b"line=0,8,1,8\nline=1,8,0,0\ntotal=8\nhalf=8\nshifted=1\nclip=none\nfinal=1\n";
    let halves = stored(set(2, &[8, 8], &[2]), 4, &[0]);
    let mut text = [7; 80];
    assert_eq!(story(&[1, 0], 1, &halves, DisplayLine(0), 0, &mut text), Ok(STORY.len() as u64));
    assert_eq!((&text[..STORY.len()], &text[STORY.len()..]), (STORY, &[7; 80][STORY.len()..]));
    text = [7; 80];
    assert_eq!(story(&[1, 0], 1, &halves, DisplayLine(0), 0, &mut text[..STORY.len() - 1]), Err(Refusal::NoRoom));
    assert_eq!(story(&[1, 0], 1, &halves, DisplayLine(1), 0, &mut text), Err(Refusal::DoesNotFit));
    assert_eq!(story(&[1, 0], 1, &halves, DisplayLine(0), 1, &mut text), Err(Refusal::DoesNotFit));
    assert_eq!(story(&[1, 0], 0, &halves, DisplayLine(0), 0, &mut text), Err(Refusal::BadSide));
    assert_eq!(text, [7; 80]);
}

#[test]
fn sheets_are_counted_for_the_release_book() {
    const SHEET: &[u8] = b"kind=box\nin=3\nout=1\nwindow=3\nstore=16\nprecision=16\nw0=0,3:21845,21845,21845\nexcess=-1\n";
    const LINES: &[u8] = b"sheets=2\nwindows=2\nleast=-1\nmost=-1\nnotflat=2\nnegative=0\nstopped=0\n";
    let twice = [SHEET, SHEET].concat();
    let r = book(&twice);
    assert_eq!(r, Report { sheets: 2, windows: 2, least: -1, most: -1, notflat: 2, negative: 0, stopped: 0, byte: twice.len() as u64 });
    assert_eq!(book(&twice[..twice.len() - 1]), Report { sheets: 1, windows: 1, notflat: 1, stopped: 13, byte: twice.len() as u64 - 1, ..r });
    assert_eq!(book(b""), Report::default());
    let mut text = [7; 80];
    assert_eq!(r.write(&mut text), Ok(LINES.len() as u64));
    assert_eq!((&text[..LINES.len()], &text[LINES.len()..]), (LINES, &[7; 80][LINES.len()..]));
    text = [7; 80];
    assert_eq!(r.write(&mut text[..LINES.len() - 1]), Err(Refusal::NoRoom));
    assert_eq!(text, [7; 80]);
}

#[test]
fn sideways_goes_along_the_rows() {
    let samples = [1, 2, 30, 40, 500, 600, 7, 8, 90, 100, 1100, 1200];
    let over = [0, 0];
    let (starts, sizes) = ([CameraLine(0), CameraLine(1)], [2, 2]);
    let both = Stored { set: Set { lines: 3, window: 2, weights: &[8, 8, -4, 20], starts: &starts, sizes: &sizes }, precision: 4, excesses: &over };
    let frame = |components, first, count| PixelFrame { samples: &samples, components, rows: 2, row: 6, first, count };
    let (mut whole, mut second) = ([7; 8], [7; 4]);
    assert_eq!((horizontal_u16(&frame(2, 0, 2), &both, &mut whole), whole), (Ok(()), [16, 21, 618, 740, 49, 54, 1353, 1475]));
    assert_eq!((horizontal_u16(&frame(2, 1, 1), &both, &mut second), second), (Ok(()), [49, 54, 1353, 1475]));
    assert_eq!((horizontal_u16(&frame(5, 0, 2), &both, &mut whole), horizontal_u16(&frame(4, 0, 2), &both, &mut whole)), (Err(Refusal::BadSide), Err(Refusal::BadSide)));
    assert_eq!((horizontal_u16(&frame(2, 2, 1), &both, &mut second), second), (Err(Refusal::DoesNotFit), [49, 54, 1353, 1475]));
}
