/* The ring of four blocks: checks it, asks its period and its best one, moves it there, and checks a loop which proves
 * that 6 is out of reach. */
#include "lezvorgan.h"

#include <stdio.h>

#define BLOCKS 4
#define WIRES 4
#define BYTES (16 + 8 * BLOCKS + 8 * WIRES)

static uint8_t *put16(uint8_t *at, unsigned number) {
    at[0] = (uint8_t)number;
    at[1] = (uint8_t)(number >> 8);
    return at + 2;
}

static uint8_t *put32(uint8_t *at, uint32_t number) {
    return put16(put16(at, number & 65535), number >> 16);
}

/* Delays 0, 3, 4, 5; one wire to the next block and one back to the host; lags from -2 to 2. */
static void write_ring(uint8_t *sheet) {
    static const unsigned delays[BLOCKS] = {0, 3, 4, 5};
    static const unsigned registers[WIRES] = {1, 0, 0, 1};
    uint8_t *at = put16(put16(sheet, BLOCKS), WIRES);
    at = put32(put32(put32(at, 16), 16 + 8 * BLOCKS), BYTES);
    for (int b = 0; b < BLOCKS; b++) {
        int reach = b == 0 ? 0 : 2;
        at = put16(put16(put32(at, delays[b]), (unsigned)-reach), (unsigned)reach);
    }
    for (unsigned w = 0; w < WIRES; w++)
        at = put16(put16(put16(put16(at, w), (w + 1) % BLOCKS), registers[w]), 0);
}

static unsigned registers_of(const uint8_t *sheet, int wire) {
    const uint8_t *at = sheet + 16 + 8 * BLOCKS + 8 * wire + 4;
    return at[0] + 256u * at[1];
}

static void show_move(const uint8_t *before, const uint8_t *after) {
    for (int w = 0; w < WIRES; w++)
        printf("wire %d: registers %u, then %u\n", w, registers_of(before, w), registers_of(after, w));
}

int main(void) {
    static const uint16_t loop[] = {2, 1, 1, 1, 2, 2, 1, 2, 2, 3, 2, 3, 0};
    uint8_t sheet[BYTES], moved[BYTES] = {0};
    int16_t lags[BLOCKS] = {0};
    uint16_t words[BLOCKS * (BLOCKS + 2)];
    uint32_t place, value, number;

    write_ring(sheet);
    number = lez_check(sheet, BYTES, &place, &value);
    printf("check: %u\n", number);
    number = lez_period(sheet, BYTES, &place, &value);
    printf("period as it stands: %u (answer %u)\n", value, number);
    number = lez_best(sheet, BYTES, lags, BLOCKS, words, BLOCKS * (BLOCKS + 2), &place, &value);
    printf("best period: %u (answer %u), lags %d %d %d %d\n", value, number, lags[0], lags[1], lags[2], lags[3]);
    number = lez_move(sheet, BYTES, lags, BLOCKS, moved, BYTES, &place, &value);
    printf("move: %u\n", number);
    if (number == LEZ_DONE)
        show_move(sheet, moved);
    number = lez_period(moved, BYTES, &place, &value);
    printf("period of the moved sheet: %u (answer %u)\n", value, number);
    number = lez_check_loop(sheet, BYTES, 6, loop, sizeof loop / sizeof *loop, &place, &value);
    printf("the loop rules out 6: answer %u\n", number);
    number = lez_check_loop(sheet, BYTES, 7, loop, sizeof loop / sizeof *loop, &place, &value);
    printf("and 7: answer %u\n", number);
    return 0;
}
