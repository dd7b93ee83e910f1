// How much stack each question uses: the stack below is painted, the question asked, and the paint that is gone counted.
#include <stdint.h>
#include <stdio.h>
#include <string.h>
#include "lezvorgan.h"

#define DEPTH (512 * 1024)
#define PAINT 0xA5

static uint8_t sheet[4096];
static size_t length;
static uint32_t registers[4096], delays[4096], place, value;
static int16_t lags[64];
static uint16_t words[4224];
static uint8_t moved[4096];

static void ask_check(void) { lez_check(sheet, length, &place, &value); }
static void ask_period(void) { lez_period(sheet, length, &place, &value); }
static void ask_table(void) { lez_path_table(sheet, length, registers, 4096, delays, 4096, &place, &value); }
static void ask_move(void) { lez_move(sheet, length, lags, 64, moved, sizeof moved, &place, &value); }
static void ask_lags(void) { lez_lags_at(sheet, length, 0, lags, 64, words, 4224, &place, &value); }
static void ask_best(void) { lez_best(sheet, length, lags, 64, words, 4224, &place, &value); }
static void ask_loop(void) { lez_check_loop(sheet, length, 0, words, 12, &place, &value); }

static __attribute__((noinline)) void paint(void) {
    volatile uint8_t below[DEPTH];
    for (size_t i = 0; i < DEPTH; i++) below[i] = PAINT;
}

static __attribute__((noinline)) size_t gone(void) {
    volatile uint8_t below[DEPTH];
    size_t i = 0;
    while (i < DEPTH && below[i] == PAINT) i++;
    return DEPTH - i;
}

static void measure(const char *name, void (*ask)(void)) {
    ask(); // once before, so that nothing is loaded on the way
    paint();
    ask();
    printf("%s %zu bytes\n", name, gone());
}

int main(void) {
    length = fread(sheet, 1, sizeof sheet, stdin);
    measure("check", ask_check);
    measure("period", ask_period);
    measure("path table", ask_table);
    measure("move", ask_move);
    measure("lags at c", ask_lags);
    measure("best", ask_best);
    measure("check a loop", ask_loop);
    return 0;
}
