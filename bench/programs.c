/* Programs for the wide drive. Each record is put with the row that the typing rules ask for, worked out as it goes. */
#include "programs.h"
#include "sheets.h"
#include <string.h>

enum { CALL = 1, RELEASE, FUTURE, IF, JUMP, RETURN };
enum { IDLE = 254, NOT_HELD = 255, TASKS = 8, SAMPLE = 8 };

/* what a row says of a task, as in the image */
struct pair {
    uint8_t consumed, remaining;
};

/* an image in the making; `row` is that of the next record */
struct maker {
    uint8_t *image;
    unsigned count;
    struct pair row[TASKS];
};

/* the windows of the tasks, in each of the two modes */
static const uint8_t MODE_ONE[TASKS] = { 12, 15, 20, 24, 30, 40, 60, 120 };
static const uint8_t MODE_TWO[TASKS] = { 32, 32, 32, 32, 24, 24, 24, 24 };

static void put(struct maker *m, unsigned operation, unsigned x, unsigned y, unsigned z) {
    uint8_t *record = m->image + 20 * m->count++;
    record[0] = operation, record[1] = x, record[2] = y, record[3] = z;
    for (unsigned t = 0; t < TASKS; t++) {
        record[4 + 2 * t] = m->row[t].consumed;
        record[5 + 2 * t] = m->row[t].remaining;
    }
}

static void call(struct maker *m, unsigned driver) {
    const struct sheet *s = &wide_sheet;
    put(m, CALL, driver, 0, 0);
    for (unsigned t = 0; t < TASKS; t++)
        if ((s->reads[driver] & s->owns[t]) | (s->writes[driver] & s->sees[t]))
            m->row[t] = (struct pair){ IDLE, 0 };
}

static void release(struct maker *m, unsigned task, unsigned window) {
    put(m, RELEASE, task, window, 0);
    m->row[task] = (struct pair){ 0, window };
}

/* A future that keeps the tasks of the set `kept`. `there` becomes the row where it wakes. */
static void future(struct maker *m, unsigned wait, unsigned address, unsigned kept, struct pair there[TASKS]) {
    put(m, FUTURE, wait, address, kept);
    for (unsigned t = 0; t < TASKS; t++) {
        there[t] = (struct pair){ NOT_HELD, 0 };
        if (kept >> t & 1)
            continue;
        there[t] = m->row[t];
        if (there[t].consumed < IDLE)
            there[t].consumed += wait, there[t].remaining -= wait;
        m->row[t] = (struct pair){ NOT_HELD, 0 };
    }
}

/* A future that keeps nothing, and a return. What is put next is what wakes then. */
static void rest(struct maker *m, unsigned wait, unsigned address) {
    struct pair there[TASKS];
    future(m, wait, address, 0, there);
    put(m, RETURN, 0, 0, 0);
    memcpy(m->row, there, sizeof there);
}

static size_t finish(struct maker *m) {
    unsigned len = 20 * m->count;
    uint8_t trailer[8] = { len >> 8, len & 255, 0, wide_sheet.tasks, wide_sheet.drivers, wide_sheet.conditions, 1, 0xe5 };
    memcpy(m->image + len, trailer, 8);
    return len + 8;
}

static void start(struct maker *m, uint8_t *image) {
    m->image = image, m->count = 0;
    for (unsigned t = 0; t < TASKS; t++)
        m->row[t] = (struct pair){ IDLE, 0 };
}

static int window_ends(const uint8_t windows[TASKS], unsigned time) {
    for (unsigned t = 0; t < TASKS; t++)
        if (time % windows[t] == 0)
            return 1;
    return 0;
}

/* All tasks are released; then, up to but not at the time `length`, each at the end of its window is called and released again.
   With `skips`, task 0 is not released again while the condition says yes. Answers the ticks that are left to `length`. */
static unsigned cycle(struct maker *m, const uint8_t windows[TASKS], unsigned length, int skips) {
    unsigned time = 0, slept = 0;
    for (unsigned t = 0; t < TASKS; t++)
        release(m, t, windows[t]);
    for (;;) {
        do
            time++;
        while (!window_ends(windows, time));
        if (time >= length)
            return length - slept;
        rest(m, time - slept, m->count + 2);
        slept = time;
        for (unsigned t = 0; t < TASKS; t++)
            if (time % windows[t] == 0)
                call(m, t);
        for (unsigned t = 0; t < TASKS; t++) {
            if (time % windows[t] != 0)
                continue;
            if (skips && t == 0)
                put(m, IF, 0, m->count + 2, 0);
            release(m, t, windows[t]);
        }
    }
}

/* 200 instructions. At address 0, where every window has ended, all drivers are called, and the condition chooses between two
   modes: in one every task has a period of its own, and all meet again after 120 ticks; in the other four tasks have a window
   of 32 and four of 24, and after 96 ticks all are at rest for a tick. */
size_t wide_program(uint8_t image[MOST_IMAGE]) {
    struct maker m;
    struct pair met[TASKS];
    start(&m, image);
    for (unsigned t = 0; t < TASKS; t++)
        m.row[t] = (struct pair){ MODE_ONE[t], 0 };
    for (unsigned t = 0; t < TASKS; t++)
        call(&m, t);
    call(&m, SAMPLE);
    put(&m, IF, 0, m.count + 2, 0);
    unsigned jump = m.count;
    put(&m, JUMP, 0, 0, 0);
    memcpy(met, m.row, sizeof met);

    unsigned left = cycle(&m, MODE_TWO, 96, 0);
    rest(&m, left, m.count + 2);
    for (unsigned t = 0; t < TASKS; t++)
        call(&m, t);
    rest(&m, 1, 0);

    image[20 * jump + 2] = m.count;
    memcpy(m.row, met, sizeof met);
    left = cycle(&m, MODE_ONE, 120, 1);
    rest(&m, left, 0);
    return finish(&m);
}

/* 50 instructions: a thread for each task, which calls it and releases it again at the end of its window, so that eight
   bindings wait. The sample is taken once. */
size_t threads_program(uint8_t image[MOST_IMAGE]) {
    struct maker m;
    struct pair there[TASKS][TASKS];
    start(&m, image);
    call(&m, SAMPLE);
    for (unsigned t = 0; t < TASKS; t++) {
        release(&m, t, MODE_ONE[t]);
        future(&m, MODE_ONE[t], 18 + 4 * t, 0xff & ~0u << (t + 1), there[t]);
    }
    put(&m, RETURN, 0, 0, 0);
    for (unsigned t = 0; t < TASKS; t++) {
        memcpy(m.row, there[t], sizeof there[t]);
        call(&m, t);
        release(&m, t, MODE_ONE[t]);
        rest(&m, MODE_ONE[t], 18 + 4 * t);
    }
    return finish(&m);
}
