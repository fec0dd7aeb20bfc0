/* Builds the largest image for a sheet, and checks it REPEAT times by the one named: `c` or `rattle`. */
#include "check.h"
#include <stdio.h>
#include <stdlib.h>
#include <string.h>

/* the checks of the library, exported by crates/capi_c */
extern uint8_t pitch_check(const uint8_t *image, size_t len, const uint8_t *budgets, size_t count);
extern uint8_t wide_check(const uint8_t *image, size_t len, const uint8_t *budgets, size_t count);

static const struct sheet pitch = {
    8, 3, 2, 1, { 0x08, 0x04, 0x10 }, { 0x01, 0x40, 0x20 }, { 0x20, 0xc0 }, { 0x04, 0x08 },
};

/* eight tasks: task t owns port 16 + t and reads port t, driver t copies 16 + t to t */
static struct sheet wide_sheet(void) {
    struct sheet s = { 24, 8, 8, 1, { 0 }, { 0 }, { 0 }, { 0 } };
    for (int t = 0; t < 8; t++) {
        s.writes[t] = 1u << t;
        s.reads[t] = 1u << (16 + t);
        s.owns[t] = 1u << (16 + t);
        s.sees[t] = 1u << t;
    }
    return s;
}

static uint8_t image[4008];

static void put(unsigned a, int op, int x, int y, int z, const uint8_t row[16]) {
    uint8_t *r = image + 20 * a;
    r[0] = op, r[1] = x, r[2] = y, r[3] = z;
    memcpy(r + 4, row, 16);
}

/* Periods of calls, releases, an if and a future, over and over, to 200 records: each period calls every driver, releases
   every task, looks at the condition, and waits for the end of the window. */
static size_t largest(const struct sheet *s) {
    uint8_t row[16], none[16];
    unsigned tasks = s->tasks, period = 2 * tasks + 3, a = 0;
    for (int t = 0; t < 8; t++)
        none[2 * t] = 255, none[2 * t + 1] = 0;
    while (a + period <= 200) {
        unsigned next = a + period;
        int last = next + period > 200;
        memcpy(row, none, 16);
        for (unsigned t = 0; t < tasks; t++)
            row[2 * t] = 100, row[2 * t + 1] = 0;
        for (unsigned t = 0; t < tasks; t++) {
            /* the driver that shares with task t and no other: 2, 1 on the pitch drive */
            int d = tasks == 2 ? 2 - (int)t : (int)t;
            put(a++, 1, d, 0, 0, row);
            row[2 * t] = 254, row[2 * t + 1] = 0;
        }
        for (unsigned t = 0; t < tasks; t++) {
            put(a++, 2, t, 100, 0, row);
            row[2 * t] = 0, row[2 * t + 1] = 100;
        }
        put(a, 4, 0, a + 1, 0, row), a++;
        put(a, 3, 100, last ? 0 : next, 0, row), a++;
        put(a++, 6, 0, 0, 0, none);
    }
    while (a < 200)
        put(a++, 6, 0, 0, 0, none);
    uint8_t trailer[8] = { 4000 >> 8, 4000 & 255, 0, s->tasks, s->drivers, s->conditions, 1, 0xe5 };
    memcpy(image + 4000, trailer, 8);
    return sizeof image;
}

int main(int argc, char **argv) {
    if (argc != 4)
        return fprintf(stderr, "usage: %s c|rattle pitch|wide REPEAT\n", argv[0]), 2;
    int by_c = !strcmp(argv[1], "c"), is_wide = !strcmp(argv[2], "wide"), repeat = atoi(argv[3]);
    struct sheet s = is_wide ? wide_sheet() : pitch;
    uint8_t budgets[8] = { 12, 12, 12, 12, 12, 12, 12, 12 };
    size_t len = largest(&s);
    unsigned sum = 0;
    for (int i = 0; i < repeat; i++) {
        unsigned number;
        if (by_c)
            number = check(&s, image, len, budgets, s.tasks).number;
        else
            number = (is_wide ? wide_check : pitch_check)(image, len, budgets, s.tasks);
        sum += number;
        if (number != 0)
            return fprintf(stderr, "the image is refused with %u\n", number), 1;
    }
    return sum != 0;
}
