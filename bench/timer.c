/* Times the library: reads sheets, one record after another in the second program's form, and prints for each the
 * nanoseconds of check, period, path table, best, and of check, period and best together, each the quickest of several
 * runs. Full-size sheets, or smaller ones. */
#define _POSIX_C_SOURCE 199309L
#include "lezvorgan.h"

#include <stdio.h>
#include <stdlib.h>
#include <time.h>

#define RUNS 5
#define BLOCKS 64
#define MOST_BYTES 65536

static uint8_t sheet[MOST_BYTES];
static size_t sheet_len;
static uint32_t registers[BLOCKS * BLOCKS], delays[BLOCKS * BLOCKS], place, value;
static int16_t lags[BLOCKS];
static uint16_t words[BLOCKS * (BLOCKS + 2)];
static volatile uint32_t kept; /* so that no call is left out */

static void check(void) {
    kept = lez_check(sheet, sheet_len, &place, &value);
}

static void period(void) {
    kept = lez_period(sheet, sheet_len, &place, &value);
}

static void table(void) {
    kept = lez_path_table(sheet, sheet_len, registers, BLOCKS * BLOCKS, delays, BLOCKS * BLOCKS, &place, &value);
}

static void best(void) {
    kept = lez_best(sheet, sheet_len, lags, BLOCKS, words, BLOCKS * (BLOCKS + 2), &place, &value);
}

static void together(void) {
    check();
    period();
    best();
}

static long long now(void) {
    struct timespec t;
    clock_gettime(CLOCK_MONOTONIC, &t);
    return t.tv_sec * 1000000000LL + t.tv_nsec;
}

static long long quickest(void (*run)(void)) {
    long long least = 0;
    for (int i = 0; i < RUNS; i++) {
        long long start = now();
        run();
        long long took = now() - start;
        if (i == 0 || took < least)
            least = took;
    }
    return least;
}

static int take_sheet(void) {
    uint8_t head[12];
    if (fread(head, 1, sizeof head, stdin) != sizeof head)
        return 0;
    sheet_len = head[2] + 256u * head[3];
    return fread(sheet, 1, sheet_len, stdin) == sheet_len;
}

int main(void) {
    static void (*const stages[])(void) = {check, period, table, best, together};
    while (take_sheet()) {
        for (size_t i = 0; i < sizeof stages / sizeof *stages; i++)
            printf("%lld ", quickest(stages[i]));
        printf("%u\n", kept);
    }
    return 0;
}
