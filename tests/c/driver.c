/* Asks the questions that standard input holds, one record after another in the second program's form, on lent memory
 * with guard values around every list, and prints for each: question, number, place, value; every written list, whole;
 * and `guards ok`, or which memory was touched that must not be. */
#include "lezvorgan.h"

#include <stdio.h>
#include <stdlib.h>
#include <string.h>

#define GUARD 64     /* bytes before and after each list */
#define MOST 65536   /* entries of a list, of at most 4 bytes each */
#define UNWRITTEN 0xdeadbeefu /* place and value before the call */

enum { CHECK = 1, PERIOD, TABLE, MOVE, LAGS, BEST, LOOP };

/* A list between two guards, at any distance from an aligned address. */
typedef struct {
    uint8_t room[GUARD + 8 + 4 * MOST + GUARD];
    size_t start, bytes;
    uint8_t copy[4 * MOST]; /* what a list holds that is only read */
} Lent;

typedef struct {
    unsigned question;
    size_t sheet_len, a, b;
    uint32_t c;
} Record;

typedef struct {
    uint32_t before, written, after;
} Number;

static Lent sheet, first, second;
static Number place, value;

static uint8_t guard_at(size_t i) {
    return (uint8_t)(0xa5 ^ (i * 29));
}

static void *lend(Lent *l, size_t bytes, size_t shift) {
    l->start = GUARD + shift;
    l->bytes = bytes;
    for (size_t i = 0; i < l->start; i++)
        l->room[i] = guard_at(i);
    for (size_t i = l->start + bytes; i < l->start + bytes + GUARD; i++)
        l->room[i] = guard_at(i);
    return l->room + l->start;
}

static int guarded(const Lent *l) {
    for (size_t i = 0; i < l->start; i++)
        if (l->room[i] != guard_at(i))
            return 0;
    for (size_t i = l->start + l->bytes; i < l->start + l->bytes + GUARD; i++)
        if (l->room[i] != guard_at(i))
            return 0;
    return 1;
}

/* An empty list has no address. */
static void *list(Lent *l) {
    return l->bytes == 0 ? NULL : l->room + l->start;
}

static void stop(const char *why) {
    fprintf(stderr, "driver: %s\n", why);
    exit(2);
}

static void take(void *to, size_t bytes) {
    if (fread(to, 1, bytes, stdin) != bytes)
        stop("a record ends too early");
}

/* Bytes of the record into a list that the question only reads. */
static void take_lent(Lent *l, size_t bytes, size_t shift) {
    uint8_t *to = lend(l, bytes, shift);
    take(to, bytes);
    memcpy(l->copy, to, bytes);
}

static unsigned word(const uint8_t *at) {
    return at[0] + 256u * at[1];
}

static int take_record(Record *r) {
    uint8_t head[12];
    size_t got = fread(head, 1, sizeof head, stdin);
    if (got == 0)
        return 0;
    if (got != sizeof head)
        stop("a record ends too early");
    r->question = head[0];
    r->sheet_len = word(head + 2);
    r->a = word(head + 4);
    r->b = word(head + 6);
    r->c = word(head + 8) + 65536u * word(head + 10);
    return 1;
}

static void lend_numbers(Lent *l, size_t count) {
    uint32_t *to = lend(l, 4 * count, 0);
    for (size_t i = 0; i < count; i++)
        to[i] = 3000000000u + (uint32_t)i;
}

static void lend_words(Lent *l, size_t count, unsigned from) {
    uint16_t *to = lend(l, 2 * count, 0);
    for (size_t i = 0; i < count; i++)
        to[i] = (uint16_t)(from + i);
}

static void lend_bytes(Lent *l, size_t count, size_t shift) {
    uint8_t *to = lend(l, count, shift);
    for (size_t i = 0; i < count; i++)
        to[i] = (uint8_t)(7 * i + 3);
}

/* Every list as the record wants it; a list that the question lacks is empty. Bytes may lie anywhere. */
static void lend_all(const Record *r, size_t shift) {
    take_lent(&sheet, r->sheet_len, shift);
    lend(&first, 0, 0);
    lend(&second, 0, 0);
    if (r->question == TABLE) {
        lend_numbers(&first, r->a);
        lend_numbers(&second, r->b);
    } else if (r->question == MOVE) {
        take_lent(&first, 2 * r->a, 0);
        lend_bytes(&second, r->b, 7 - shift);
    } else if (r->question == LOOP) {
        take_lent(&first, 2 * r->a, 0);
    } else if (r->question == LAGS || r->question == BEST) {
        lend_words(&first, r->a, 20000);
        lend_words(&second, r->b, 50000);
    }
    place = value = (Number){UNWRITTEN, UNWRITTEN, UNWRITTEN};
}

static uint32_t ask(const Record *r) {
    const uint8_t *s = list(&sheet);
    size_t n = r->sheet_len;
    uint32_t *p = &place.written, *v = &value.written;
    switch (r->question) {
    case CHECK:
        return lez_check(s, n, p, v);
    case PERIOD:
        return lez_period(s, n, p, v);
    case TABLE:
        return lez_path_table(s, n, list(&first), r->a, list(&second), r->b, p, v);
    case MOVE:
        return lez_move(s, n, list(&first), r->a, list(&second), r->b, p, v);
    case LAGS:
        return lez_lags_at(s, n, r->c, list(&first), r->a, list(&second), r->b, p, v);
    case BEST:
        return lez_best(s, n, list(&first), r->a, list(&second), r->b, p, v);
    case LOOP:
        return lez_check_loop(s, n, r->c, list(&first), r->a, p, v);
    }
    stop("no such question");
    return 0;
}

static void show_number(uint32_t number) {
    char digits[10];
    int count = 0;
    do {
        digits[count++] = (char)('0' + number % 10);
        number /= 10;
    } while (number > 0);
    putchar(' ');
    while (count > 0)
        putchar(digits[--count]);
}

/* Entries of so many bytes; lags are shown as the words that hold them. */
static void show_list(const char *name, Lent *l, size_t size) {
    fputs(name, stdout);
    for (size_t at = 0; at < l->bytes; at += size) {
        uint32_t number = 0;
        memcpy(&number, (uint8_t *)list(l) + at, size);
        show_number(number);
    }
    putchar('\n');
}

static void show_lists(const Record *r) {
    if (r->question == TABLE) {
        show_list("registers", &first, 4);
        show_list("delays", &second, 4);
    } else if (r->question == MOVE) {
        show_list("moved", &second, 1);
    } else if (r->question == LAGS || r->question == BEST) {
        show_list("lags", &first, 2);
        show_list("words", &second, 2);
    }
}

static int number_guarded(const Number *n) {
    return n->before == UNWRITTEN && n->after == UNWRITTEN;
}

static int unchanged(const Lent *l) {
    return memcmp(l->copy, l->room + l->start, l->bytes) == 0;
}

/* The memory that was touched and must not be, or none. */
static const char *touched(const Record *r) {
    if (!guarded(&sheet) || !unchanged(&sheet))
        return "sheet";
    if (!guarded(&first) || ((r->question == MOVE || r->question == LOOP) && !unchanged(&first)))
        return "the first list";
    if (!guarded(&second))
        return "the second list";
    if (!number_guarded(&place))
        return "place";
    return number_guarded(&value) ? NULL : "value";
}

int main(void) {
    Record r;
    size_t count = 0;
    while (take_record(&r)) {
        lend_all(&r, count++ % 8);
        uint32_t number = ask(&r);
        const char *bad = touched(&r);
        printf("%u %u %u %u\n", r.question, number, place.written, value.written);
        show_lists(&r);
        printf("guards %s%s\n", bad ? "broken at " : "ok", bad ? bad : "");
        /* Should the next question end the program, this answer is known. */
        fflush(stdout);
    }
    return 0;
}
