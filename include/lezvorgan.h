/* Lezvorgan: seven questions about the sheet of a synchronous core. Link with liblez.a (x86-64).
 *
 * Every function returns the answer's number and writes its place and value through the last two pointers, on every
 * call. For all inputs, damaged ones too, it is proved that an answer comes, which one, and what stands in every list
 * afterwards. Nothing is kept between calls and nothing is allocated; calls from several threads do not disturb each
 * other.
 *
 * The sheet, little-endian: a header of 16 bytes (blocks n as u16, 1 to 64; wires m as u16, 0 to 256; offset of the
 * block table as u32, 16; offset of the wire table as u32, 16 + 8 n; total length as u32, 16 + 8 n + 8 m), then n blocks
 * of 8 bytes (delay u32, 0 to 10,000; lower and upper lag i16, each -1,000 to 1,000, lower not above upper, upper minus
 * lower at most 1,000), then m wires of 8 bytes (from u16, to u16, registers u16, 0 to 2,000, and a u16 that is zero).
 * Block 0 is the host, the outside world: delay 0, both lags 0. sheet_len is the whole length in bytes.
 *
 * Lengths of lists are in entries. A list may be longer than needed; entries past those named below stay unchanged.
 *
 * Outside the proof, for the caller to see to:
 *   - each pointer with its length names memory that may be read, and written where it is not const;
 *   - NULL only with length 0; place and value are never NULL;
 *   - lists and pointers that are written (place and value too) overlap nothing else of the same call;
 *   - nobody else changes that memory during the call;
 *   - the stack has room: as built today a call uses less than 64 KiB (lez_lags_at 52, lez_best 43, lez_path_table 11,
 *     lez_period 9, the others 6).
 */
#ifndef LEZVORGAN_H
#define LEZVORGAN_H

#include <stddef.h>
#include <stdint.h>

#ifdef __cplusplus
extern "C" {
#endif

/* The numbers that come back. They are tried in this order and the first that applies is given. The place is 0 where
 * none is named; the value is 0 except the period with LEZ_DONE (lez_period, lez_best) and the word count with 10, 11. */
enum {
    LEZ_DONE = 0,            /* done */
    LEZ_TOO_SHORT = 1,       /* fewer than 16 bytes */
    LEZ_COUNTS = 2,          /* n outside 1 to 64, or m above 256 */
    LEZ_LENGTHS = 3,         /* an offset, the total or sheet_len is wrong */
    LEZ_LIST_TOO_SHORT = 4,  /* a lent list is too short; place 0 if the first list is, else 1 */
    LEZ_BLOCK = 5,           /* a block entry breaks its rule; place: the first such block */
    LEZ_WIRE = 6,            /* a wire entry breaks its rule, or an end is n or more; place: the first such wire */
    LEZ_LOOP = 7,            /* a register-free loop; place: the smallest block on any */
    LEZ_LAG_OUTSIDE = 8,     /* move: a lag outside its range; place: the first such block */
    LEZ_WIRE_OUTSIDE = 9,    /* move: a wire would leave 0 to 2,000 registers; place: the first such wire */
    LEZ_NONE_PERMITTED = 10, /* lez_lags_at, lez_best: no permitted lags exist; value: words of the loop written */
    LEZ_NONE_MEETS = 11,     /* lez_lags_at: permitted lags exist, none meets c; value: words of the loop written */
    LEZ_NO_VALID_LOOP = 12   /* lez_check_loop: the words are no valid loop */
};

/* An entry of the register table where there is no path; the delay is 0 there. */
#define LEZ_NO_PATH UINT32_C(4294967295)

/* Check a sheet: 0 to 3, 5 to 7. */
uint32_t lez_check(const uint8_t *sheet, size_t sheet_len, uint32_t *place, uint32_t *value);

/* Period as it stands: 0 to 3, 5 to 7. With 0 the value is the largest delay of a register-free path. */
uint32_t lez_period(const uint8_t *sheet, size_t sheet_len, uint32_t *place, uint32_t *value);

/* Path table: 0 to 7. Both lists need n * n entries. With 0, entry u * n + v of registers is the fewest registers on
 * any path from u to v and that of delays the largest delay among paths with exactly that many; LEZ_NO_PATH and 0
 * without a path. A refusal writes neither list. */
uint32_t lez_path_table(const uint8_t *sheet, size_t sheet_len, uint32_t *registers, size_t registers_len,
                        uint32_t *delays, size_t delays_len, uint32_t *place, uint32_t *value);

/* Move by lags: 0 to 9. lags needs n entries (further ones are not read), moved sheet_len bytes. With 0 the first
 * sheet_len bytes of moved are the moved sheet: a wire from u to v with w registers has w + lag(v) - lag(u), both lag
 * limits of each block are less by its lag, all else is copied. A refusal writes nothing to moved. */
uint32_t lez_move(const uint8_t *sheet, size_t sheet_len, const int16_t *lags, size_t lags_len,
                  uint8_t *moved, size_t moved_len, uint32_t *place, uint32_t *value);

/* Lags at period c: 0 to 7, 10, 11. lags needs n entries, words n * (n + 2). With 0 the first n lags are the largest
 * permitted ones that meet c, block by block, and words is unchanged. With 10 and 11 the first value words are a loop
 * that lez_check_loop accepts (11: at c; 10: at every period) and lags is unchanged. Other refusals write neither. */
uint32_t lez_lags_at(const uint8_t *sheet, size_t sheet_len, uint32_t c, int16_t *lags, size_t lags_len,
                     uint16_t *words, size_t words_len, uint32_t *place, uint32_t *value);

/* Best period: 0 to 7, 10. Lists as in lez_lags_at. With 0 the value is the least period that permitted lags meet and
 * the first n lags are the largest that meet it. */
uint32_t lez_best(const uint8_t *sheet, size_t sheet_len, int16_t *lags, size_t lags_len,
                  uint16_t *words, size_t words_len, uint32_t *place, uint32_t *value);

/* Check a loop at period c: 0 to 3, 5 to 7, 12. 0 means that no permitted lags meet c; without a link of kind 2, that
 * none are permitted at all. A link stands for lag(a) - lag(b) <= k, its words and (a, b, k) are one of
 *   1, wire                                      (from, to, its registers)
 *   2, start, number of wires, wires in order    (start, end, registers - 1), the path's delay above c
 *   3, block                                     (block, 0, upper lag)
 *   4, block                                     (0, block, minus the lower lag)
 *   5, wire                                      (to, from, 2,000 - its registers)
 * The b of each is the a of the next, the last b the first a, and the sum of the k below 0. 1 to 4,224 words. */
uint32_t lez_check_loop(const uint8_t *sheet, size_t sheet_len, uint32_t c, const uint16_t *words, size_t words_len,
                        uint32_t *place, uint32_t *value);

#ifdef __cplusplus
}
#endif

#endif
