/* The C interface of the proved library: target/staticlib/libmirror.a, built by `./mirror archive`.
 *
 * Every function takes any numbers and any lists, answers, and writes only what the table below allows. Nothing is allocated or kept
 * between calls. A list is a pointer and a count of elements; of an empty list the pointer is not followed, but must not be null.
 * What one call may write overlaps nothing else that is handed to it. The functions are those of the crates mirror_*, each proved against
 * a contract that decides every answer; docs/CONTRACTS.md has it in a sentence.
 *
 * Numbers beside the answer (weight, left, top, width, height, window, line, precision, infinite, written, filter, lines, windows, store, byte) are
 * always written, and are 0 on every refusal, but for the line of No. 8, the byte of No. 13 and the numbers of a release book.
 *
 * The contracts know one NaN. So of a NaN in a list of doubles or floats, "unchanged" promises that it stays a NaN, not that it keeps its
 * sign and payload; the compiled code does not touch such a slot, which tests/c shows bit by bit.
 */
#ifndef MIRROR_H
#define MIRROR_H

#include <stddef.h>
#include <stdint.h>

#ifdef __cplusplus
extern "C" {
#endif

/* The answers: document 01's numbers and those of document 02, each given exactly when its line says. Where several hold, the smallest is
 * given, save that a normaliser judges 10 before 9, and that 16 comes before every other number. On a refusal other than No. 8 every lent
 * list is unchanged. */
enum {
    MIRROR_DONE = 0,             /* done; slots past those asked for are unchanged */
    MIRROR_BAD_SIDE = 1,         /* a side outside 1 to 8,192 (fitting: above 8,192), or a row length outside 1 to 32,768 */
    MIRROR_NOT_FINITE = 2,       /* a crop or centring number is NaN or infinite */
    MIRROR_NEGATIVE_EXTENT = 3,  /* crop width or height below 0 */
    MIRROR_START_OUTSIDE = 4,    /* left or top below 0, or at or past the image side */
    MIRROR_END_OUTSIDE = 5,      /* left + width, or top + height, past the image side: the exact sum, nothing rounded */
    MIRROR_NO_SCALE = 6,         /* scale is 0 or less */
    MIRROR_TOO_FEW_SLOTS = 7,    /* fewer slots, starts, sizes or excesses lent than needed */
    MIRROR_BLANK_WINDOW = 8,     /* a window has no weight other than 0, or its weight total is 0; the first such display line is given,
                                    and the asked slots, starts and sizes are all 0 */
    MIRROR_WEIGHT_OUTSIDE = 9,   /* a weight in any slot of the set is not finite, the precision found is below 4, or a rounded weight in
                                    use leaves its integer type */
    MIRROR_DOES_NOT_FIT = 10,    /* list lengths, a column range, a window or an excess do not fit (at each function) */
    MIRROR_NO_ROOM = 11,         /* sheet room too small */
    MIRROR_SAMPLE_OUTSIDE = 12,  /* f32 pass: a sample in use or weight in use not finite, or a weight above 2^64 in size */
    MIRROR_NOT_A_SHEET = 13,     /* a text that is not of a sheet's form; the byte where its longest acceptable beginning ends is given */
    MIRROR_NO_OFFER = 14,        /* an offer of weights that is not accepted, or of which there is none; of the latter the first line is given */
    MIRROR_SHARES_DO_NOT_FIT = 15, /* a restart of a shared store: the two shares together are more than its slots */
    MIRROR_RETIRED_FILTER = 16,  /* a filter that no new set is built with: MIRROR_MITCHELL, in a build and for a filter's weight */
    MIRROR_BAD_CODE = 100        /* a filter above 3, an axis above 1 or a flag above 1; judged before anything but 16, nothing is written but
                                    the zeros beside the answer. It exists at this interface only, where a choice has become a number. */
};

/* The names of sheets. A set is built with the first three; MIRROR_MITCHELL is retired, and its sheets are read, run and written as before. */
enum { MIRROR_BOX = 0, MIRROR_BILINEAR = 1, MIRROR_CATMULLROM = 2, MIRROR_MITCHELL = 3 };
enum { MIRROR_HORIZONTAL = 0, MIRROR_VERTICAL = 1 }; /* the axis that is built: left and width, or top and height */

/* Number helpers on bit patterns: binary64 in and out, but for the two casts. Infinity gives infinity, a zero keeps the argument's sign,
 * a NaN gives the quiet one with sign and payload 0. The absolute value clears the sign bit and nothing else. */
uint64_t mirror_abs(uint64_t x);
uint64_t mirror_floor(uint64_t x);
uint64_t mirror_ceil(uint64_t x);
uint64_t mirror_round(uint64_t x);   /* half away from zero */
uint64_t mirror_widen(uint32_t x);   /* binary32 to binary64 */
/* binary64 to binary32, ties to even, infinity where too large; *infinite is 1 where the result is an infinity, else 0 */
uint32_t mirror_narrow(uint64_t x, uint32_t *infinite);

/* One filter's weight at the distance x; 0 where x is infinite or a NaN. 0, 16, 100. */
uint32_t mirror_filter(uint32_t filter, double x, double *weight);

/* Whether a crop box lies in the image; its ends are judged by exact sums. 0 to 5. */
uint32_t mirror_crop(uint32_t image_width, uint32_t image_height, double left, double top, double width, double height);

/* The part of the source that has the display's ratio of sides. centred 0: centring is absent and means 0.5, 0.5, cx and cy are not
 * looked at; 1: it is (cx, cy), clamped to 0..1. A zero side gives the whole source. The box may be No. 5 to mirror_crop, since left and width are
 * rounded each by itself. 0, 1, 2, 100. */
uint32_t mirror_fit(uint32_t src_width, uint32_t src_height, uint32_t dst_width, uint32_t dst_height,
                    uint32_t centred, double cx, double cy,
                    double *left, double *top, double *width, double *height);

/* The weight set of one axis: for each display line the window's first camera line in starts, its size in sizes, and its weights in
 * the line's `window` slots of weights. adapts 1: the kernel widens with the scale; 0: it does not. 0 to 8, 16, 100. */
uint32_t mirror_weights(uint32_t image_width, uint32_t image_height, double left, double top, double width, double height,
                        uint32_t axis, uint32_t out_side, uint32_t filter, uint32_t adapts,
                        double *weights, size_t weights_len, uint32_t *starts, size_t starts_len, uint32_t *sizes, size_t sizes_len,
                        uint32_t *window, uint32_t *line);

/* The weights of a set as integers of 2^-precision, and each window's excess: the total of its weights in use less 2^precision.
 * lines: camera lines; starts_len: display lines. 0, 1, 7, 9, 10.
 * No. 10: a window size outside 1 to 32,769; a window of size 0, larger than the window size or past the last line; weight slots not
 * windows x window size; starts and sizes of different counts. No. 7: out_len below windows x window size, or excesses_len below windows. */
uint32_t mirror_normalize16(uint32_t lines, uint32_t window,
                            const double *weights, size_t weights_len, const uint32_t *starts, size_t starts_len,
                            const uint32_t *sizes, size_t sizes_len, int16_t *out, size_t out_len,
                            int64_t *excesses, size_t excesses_len, uint32_t *precision);
uint32_t mirror_normalize32(uint32_t lines, uint32_t window,
                            const double *weights, size_t weights_len, const uint32_t *starts, size_t starts_len,
                            const uint32_t *sizes, size_t sizes_len, int32_t *out, size_t out_len,
                            int64_t *excesses, size_t excesses_len, uint32_t *precision);

/* A sum already shifted, clipped to 0..255. */
uint8_t mirror_clip8(int32_t value);

/* The vertical passes over columns first .. first + count - 1 of rows of `row` samples; out has count samples for each window. 0, 1, 10,
 * for u8 9, and for f32 12. No. 10: as for a normaliser; a source length that is not lines x row; first + count past the row; an output
 * length that is not windows x count; for u16 and u8 a precision outside 4 to 45, for u8 4 to 21, an excess that is not its window's, or
 * not one for each window. No. 9, after 10: 255 times the sizes of a window's weights in use, and 2^(precision - 1), pass 2^31 - 1.
 * *infinite is how many of the samples that the call wrote are infinite. */
uint32_t mirror_vertical_u16(const uint16_t *src, size_t src_len, uint32_t lines, uint32_t row, uint32_t first, uint32_t count,
                             const int32_t *weights, size_t weights_len, const uint32_t *starts, size_t starts_len,
                             const uint32_t *sizes, size_t sizes_len, const int64_t *excesses, size_t excesses_len,
                             uint32_t window, uint32_t precision, uint16_t *out, size_t out_len);
uint32_t mirror_vertical_u8(const uint8_t *src, size_t src_len, uint32_t lines, uint32_t row, uint32_t first, uint32_t count,
                            const int16_t *weights, size_t weights_len, const uint32_t *starts, size_t starts_len,
                            const uint32_t *sizes, size_t sizes_len, const int64_t *excesses, size_t excesses_len,
                            uint32_t window, uint32_t precision, uint8_t *out, size_t out_len);
uint32_t mirror_vertical_f32(const float *src, size_t src_len, uint32_t lines, uint32_t row, uint32_t first, uint32_t count,
                             const double *weights, size_t weights_len, const uint32_t *starts, size_t starts_len,
                             const uint32_t *sizes, size_t sizes_len, uint32_t window,
                             float *out, size_t out_len, uint32_t *infinite);

/* The pass along the rows, for pixels of 1 to 4 samples: rows first .. first + count - 1 of `rows` rows of `row` samples. The set's windows are
 * over the row / components pixels of a row; out has, row by row, a pixel for each window, so component k of window i in the y-th row of the range is
 * out[((y x windows) + i) x components + k]. 0, 1, 10. No. 1: components outside 1 to 4, or a row that is no whole number of pixels. Else 1 and 10 as for
 * mirror_vertical_u16 over the frame with rows and columns exchanged: lines row / components, row rows x components (at most 32768), columns
 * first x components and count x components. */
uint32_t mirror_horizontal_u16(const uint16_t *src, size_t src_len, uint32_t components, uint32_t rows, uint32_t row, uint32_t first,
                               uint32_t count, const int32_t *weights, size_t weights_len, const uint32_t *starts, size_t starts_len,
                               const uint32_t *sizes, size_t sizes_len, const int64_t *excesses, size_t excesses_len,
                               uint32_t window, uint32_t precision, uint16_t *out, size_t out_len);

/* Colours times or over alpha, pixels of four bytes, alpha last and kept. 0, 10: lengths not equal, or no multiple of 4. */
uint32_t mirror_multiply_u8x4(const uint8_t *src, size_t src_len, uint8_t *dst, size_t dst_len);
uint32_t mirror_multiply_u8x4_inplace(uint8_t *pixels, size_t len);
uint32_t mirror_divide_u8x4(const uint8_t *src, size_t src_len, uint8_t *dst, size_t dst_len);
uint32_t mirror_divide_u8x4_inplace(uint8_t *pixels, size_t len);

/* The same of pixels of four 16-bit components; lengths are counts of components. */
uint32_t mirror_multiply_u16x4(const uint16_t *src, size_t src_len, uint16_t *dst, size_t dst_len);
uint32_t mirror_multiply_u16x4_inplace(uint16_t *pixels, size_t len);
uint32_t mirror_divide_u16x4(const uint16_t *src, size_t src_len, uint16_t *dst, size_t dst_len);
uint32_t mirror_divide_u16x4_inplace(uint16_t *pixels, size_t len);

/* The sheet of a set of the 16-bit or the 32-bit store, into text; written is its bytes. 0, 1, 10, 11, 100. No. 10: as for a normaliser,
 * a precision outside 4 to 21 or 4 to 45, and excesses as for a pass. */
uint32_t mirror_sheet16(uint32_t filter, uint32_t lines, uint32_t window, uint32_t precision,
                        const int16_t *weights, size_t weights_len, const uint32_t *starts, size_t starts_len,
                        const uint32_t *sizes, size_t sizes_len, const int64_t *excesses, size_t excesses_len,
                        uint8_t *text, size_t text_len, uint64_t *written);
uint32_t mirror_sheet32(uint32_t filter, uint32_t lines, uint32_t window, uint32_t precision,
                        const int32_t *weights, size_t weights_len, const uint32_t *starts, size_t starts_len,
                        const uint32_t *sizes, size_t sizes_len, const int64_t *excesses, size_t excesses_len,
                        uint8_t *text, size_t text_len, uint64_t *written);

/* Why one sample of the u16 pass has its number: the story of a display line at a column, into text; written is its bytes. A line
 * line=NUMBER,WEIGHT,SAMPLE,PRODUCT for each camera line of the window, in line order, then total=, half=, shifted=, clip= (low, high or none) and
 * final=, which is the pass's own number. 0, 1, 10, 11. No. 1 and 10 as for mirror_vertical_u16, but for the range and its output; No. 10 also for a
 * display line or a column that does not exist; then No. 11. */
uint32_t mirror_story(const uint16_t *src, size_t src_len, uint32_t lines, uint32_t row,
                      const int32_t *weights, size_t weights_len, const uint32_t *starts, size_t starts_len,
                      const uint32_t *sizes, size_t sizes_len, const int64_t *excesses, size_t excesses_len,
                      uint32_t window, uint32_t precision, uint32_t line, uint32_t column,
                      uint8_t *text, size_t text_len, uint64_t *written);

/* The set of a sheet's text in the four lists, and what its head says beside the answer: the filter's code, camera lines, display lines
 * (windows), window size, bits of the store, precision. mirror_read_sheet takes sheets of both stores, mirror_read_sheet16 those of the
 * 16-bit store alone. Exactly the texts that the writers write for a set that the u16 pass takes are accepted, byte for byte; slots past a
 * window's size become 0. The whole text is judged before anything is written. 0, 7, 13. No. 7: the kind line and the three size lines
 * are right, and fewer than windows x window size slots, or than windows starts, sizes or excesses, are lent. No. 13: byte is how many bytes of the
 * text begin some sheet. */
uint32_t mirror_read_sheet(const uint8_t *text, size_t text_len, int32_t *weights, size_t weights_len,
                           uint32_t *starts, size_t starts_len, uint32_t *sizes, size_t sizes_len,
                           int64_t *excesses, size_t excesses_len, uint32_t *filter, uint32_t *lines, uint32_t *windows,
                           uint32_t *window, uint32_t *store, uint32_t *precision, uint64_t *byte);
uint32_t mirror_read_sheet16(const uint8_t *text, size_t text_len, int16_t *weights, size_t weights_len,
                             uint32_t *starts, size_t starts_len, uint32_t *sizes, size_t sizes_len,
                             int64_t *excesses, size_t excesses_len, uint32_t *filter, uint32_t *lines, uint32_t *windows,
                             uint32_t *window, uint32_t *store, uint32_t *precision, uint64_t *byte);

/* The numbers of a release book, over one text of sheets of either store, end to end (docs/BOOK.md): sheets, their windows, the smallest and the largest
 * excess (0 where there is no window), windows that fail the flat premise (131070 times the excess's size is not below 2^precision), windows with a negative
 * weight in use. No set is kept and no slots are lent. 0, 13. No. 13: the text is not sheets to its end; the numbers are those of the sheets before the first
 * bad one. byte is how many bytes of the text go on as sheets do: all of them where the answer is 0. */
uint32_t mirror_book(const uint8_t *text, size_t text_len, uint64_t *sheets, uint64_t *windows, int64_t *least, int64_t *most,
                     uint64_t *notflat, uint64_t *negative, uint64_t *byte);
/* Any such numbers as key=value lines, into out: sheets=, windows=, least=, most=, notflat=, negative= and stopped=, which is the answer of mirror_book;
 * written is their bytes, at most 188. 0, 11. */
uint32_t mirror_book_lines(uint64_t sheets, uint64_t windows, int64_t least, int64_t most, uint64_t notflat, uint64_t negative, uint32_t stopped,
                           uint8_t *out, size_t out_len, uint64_t *written);

/* Offered repairs of a stored set (docs/REPAIRS.md). The judges take an offer of changed weights for it: accepted exactly where window size,
 * precision, starts and sizes are the stored ones, every weight in use is within 1 of the stored one, and every window's offered weights in
 * use total 2^precision. The offered weights in use then replace the stored ones and every excess becomes 0; idle slots of the offer are not
 * looked at, and stored ones are kept. 0, 1, 10, 14; 1 and 10 as for a sheet, of the stored set; 14 of the offer, lists of other lengths
 * included. Refused, nothing is written. */
uint32_t mirror_accept16(uint32_t lines, uint32_t window, uint32_t precision, int16_t *weights, size_t weights_len,
                         const uint32_t *starts, size_t starts_len, const uint32_t *sizes, size_t sizes_len, int64_t *excesses, size_t excesses_len,
                         uint32_t offered_window, uint32_t offered_precision, const uint32_t *offered_starts, size_t offered_starts_len,
                         const uint32_t *offered_sizes, size_t offered_sizes_len, const int16_t *offered_weights, size_t offered_weights_len);
uint32_t mirror_accept32(uint32_t lines, uint32_t window, uint32_t precision, int32_t *weights, size_t weights_len,
                         const uint32_t *starts, size_t starts_len, const uint32_t *sizes, size_t sizes_len, int64_t *excesses, size_t excesses_len,
                         uint32_t offered_window, uint32_t offered_precision, const uint32_t *offered_starts, size_t offered_starts_len,
                         const uint32_t *offered_sizes, size_t offered_sizes_len, const int32_t *offered_weights, size_t offered_weights_len);
/* An offer of our own for a stored set, in the first windows x window size slots of out: in each window as many weights as its excess
 * moved by 1, all the same way, the first in line order that stay inside their type; 0 in idle slots. Where a window has no offer, *line is the
 * first such display line; else it is 0. 0, 1, 7, 10, 14; No. 7: out_len below windows x window size. */
uint32_t mirror_offer16(uint32_t lines, uint32_t window, uint32_t precision, const int16_t *weights, size_t weights_len,
                        const uint32_t *starts, size_t starts_len, const uint32_t *sizes, size_t sizes_len,
                        const int64_t *excesses, size_t excesses_len, int16_t *out, size_t out_len, uint32_t *line);
uint32_t mirror_offer32(uint32_t lines, uint32_t window, uint32_t precision, const int32_t *weights, size_t weights_len,
                        const uint32_t *starts, size_t starts_len, const uint32_t *sizes, size_t sizes_len,
                        const int64_t *excesses, size_t excesses_len, int32_t *out, size_t out_len, uint32_t *line);

/* One weight store for two clients, 0 and 1 (docs/SHARED_STORE.md). The store is five lists that the caller keeps and lends with every call: numbers
 * (exactly MIRROR_STORE_NUMBERS), slots (any count), and starts, sizes and excesses (exactly MIRROR_STORE_LINES each). Lists full of zeros are a store
 * with no share and no set. Whatever state is handed in is judged: No. 10 for lists of other lengths, shares that are together more than the slots, or a
 * client above 1; then nothing is touched. What one client gets back depends on its own calls, its share and its own frames alone.
 *
 * restart: the shares of client 0 and client 1, and no set. 0, 10, 15.
 * put: a set as mirror_weights and mirror_normalize32 make it, in the place of the client's former one. 0 to 10, 16, 100. No. 7 is judged against the share; after any
 * refusal, No. 8 included, the former set stays. doubles (at least the share), firsts and counts (at least MIRROR_STORE_LINES / 2 each) are room to work in, else No. 10;
 * what they hold afterwards is the builder's.
 * u16: the vertical pass with the client's set. 0, 1, 10; No. 10 also for a client without a set, or with one that is not inside its share. */
enum { MIRROR_STORE_NUMBERS = 10, MIRROR_STORE_LINES = 16384 };
uint32_t mirror_store_restart(uint32_t *numbers, size_t numbers_len, const int32_t *slots, size_t slots_len,
                              const uint32_t *starts, size_t starts_len, const uint32_t *sizes, size_t sizes_len,
                              const int64_t *excesses, size_t excesses_len, uint32_t first, uint32_t second);
uint32_t mirror_store_put(uint32_t *numbers, size_t numbers_len, int32_t *slots, size_t slots_len,
                          uint32_t *starts, size_t starts_len, uint32_t *sizes, size_t sizes_len,
                          int64_t *excesses, size_t excesses_len, uint32_t client,
                          uint32_t image_width, uint32_t image_height, double left, double top, double width, double height,
                          uint32_t axis, uint32_t out_side, uint32_t filter, uint32_t adapts,
                          double *doubles, size_t doubles_len, uint32_t *firsts, size_t firsts_len, uint32_t *counts, size_t counts_len,
                          uint32_t *window, uint32_t *line);
uint32_t mirror_store_u16(const uint32_t *numbers, size_t numbers_len, const int32_t *slots, size_t slots_len,
                          const uint32_t *starts, size_t starts_len, const uint32_t *sizes, size_t sizes_len,
                          const int64_t *excesses, size_t excesses_len, uint32_t client,
                          const uint16_t *src, size_t src_len, uint32_t row, uint32_t first, uint32_t count,
                          uint16_t *out, size_t out_len);

#ifdef __cplusplus
}
#endif
#endif
