/* The machine of docs/RUNNER.md in plain C, over one host. It is a yardstick for bench/ticks.c: no proof stands behind it.
   Include it once for each host, after these, so that the host's functions are compiled into it:
     HOST(name)                       the name with the host's prefix, as pitch_name
     PORTS, DRIVERS, TASKS, SENSORS   how many of each the host has
     HOST(sheet)                      its sheet
     HOST(sensors)[SENSORS]           its sensor ports
     HOST(drive)(ports, d)            driver d, on the ports
     HOST(work)(ports, t)             task t, on the ports
     HOST(test)(ports, q)             condition q
   The image is taken as checked for the host's sheet. */
#ifndef MACHINE_H
#define MACHINE_H

#include "check.h"
#include <string.h>

enum { MOST_TASKS = 8, MOST_CODE = 200, NO_TASK = 255 };
enum { CALL = 1, RELEASE, FUTURE, IF, JUMP, RETURN };
enum { WRONG_READINGS = 12, NOT_RUNNING, BUDGET_USED_UP, TOUCHED, STOPPED, NO_SUCH_PORT };

/* x is a driver, task, wait or condition, y a window or an address */
struct instruction {
    uint8_t operation, x, y;
};

/* Times are ticks modulo 256. Waits and windows are at most 240, so that two times in use differ by less. */
struct binding {
    uint8_t due, address;
};

/* number 0 is no stop */
struct stop {
    uint8_t number, task, address;
};

/* number 0 is no refusal; only then do instructions and running say something */
struct tick_answer {
    unsigned number, place, instructions, running;
};

struct port_answer {
    unsigned number, place;
    int32_t value;
};

#endif

struct HOST(run) {
    int32_t ports[PORTS];
    uint8_t now;
    unsigned waiting;                   /* how many bindings are in the queue */
    unsigned pending;                   /* bit t for task t */
    unsigned running;                   /* a task or NO_TASK */
    struct stop stop;
    struct binding queue[MOST_TASKS];
    uint8_t deadline[MOST_TASKS];       /* of a pending task: when its window ends, its slots used, the ports at its release */
    uint8_t used[MOST_TASKS];
    int32_t taken[MOST_TASKS][PORTS];
    uint8_t budgets[MOST_TASKS];
    uint8_t shares[DRIVERS];            /* the tasks that a driver shares with, bit t for task t */
    struct instruction code[MOST_CODE];
};

static inline void HOST(begin)(struct HOST(run) *r, const uint8_t *image, size_t len, const uint8_t *budgets) {
    memset(r, 0, sizeof *r);
    for (size_t a = 0; a < (len - 8) / 20; a++) {
        const uint8_t *record = image + 20 * a;
        r->code[a] = (struct instruction){ record[0], record[1], record[2] };
    }
    memcpy(r->budgets, budgets, TASKS);
    for (unsigned d = 0; d < DRIVERS; d++)
        for (unsigned t = 0; t < TASKS; t++)
            if ((HOST(sheet).reads[d] & HOST(sheet).owns[t]) | (HOST(sheet).writes[d] & HOST(sheet).sees[t]))
                r->shares[d] |= 1u << t;
    r->running = NO_TASK;
    r->queue[r->waiting++] = (struct binding){ 1, image[len - 6] };
}

static inline struct tick_answer HOST(refused)(unsigned number, unsigned place) {
    return (struct tick_answer){ number, place, 0, NO_TASK };
}

/* A pending task with the earliest deadline, the lower number on a tie. With a checked program no deadline has passed
   when this is asked: in the tick of its deadline a pending task is touched. */
static inline unsigned HOST(earliest)(const struct HOST(run) *r) {
    unsigned chosen = NO_TASK, fewest = 256;
    for (unsigned rest = r->pending; rest != 0; rest &= rest - 1) {
        unsigned t = __builtin_ctz(rest);
        uint8_t left = r->deadline[t] - r->now;
        if (left < fewest)
            fewest = left, chosen = t;
    }
    return chosen;
}

static inline int HOST(touches)(struct HOST(run) *r, unsigned tasks, unsigned address) {
    unsigned touched = r->pending & tasks;
    if (touched != 0)
        r->stop = (struct stop){ TOUCHED, __builtin_ctz(touched), address };
    return touched != 0;
}

/* Runs from an address to a return, or to a touch, which stops the run. Answers how many instructions it ran.
   Most ticks run no code, so it is kept out of the tick's own. */
__attribute__((noinline)) static unsigned HOST(thread)(struct HOST(run) *r, unsigned address) {
    for (unsigned instructions = 1;; instructions++) {
        struct instruction i = r->code[address];
        switch (i.operation) {
        case CALL:
            if (HOST(touches)(r, r->shares[i.x], address))
                return instructions;
            HOST(drive)(r->ports, i.x);
            address++;
            break;
        case RELEASE:
            if (HOST(touches)(r, 1u << i.x, address))
                return instructions;
            r->pending |= 1u << i.x;
            r->deadline[i.x] = r->now + i.y;
            r->used[i.x] = 0;
            memcpy(r->taken[i.x], r->ports, sizeof r->ports);
            address++;
            break;
        case FUTURE:
            r->queue[r->waiting++] = (struct binding){ r->now + i.x, i.y };
            address++;
            break;
        case IF:
            address = HOST(test)(r->ports, i.x) ? i.y : address + 1;
            break;
        case JUMP:
            address = i.y;
            break;
        default:
            return instructions;
        }
    }
}

static inline struct tick_answer HOST(tick)(struct HOST(run) *r, const int32_t *readings, size_t count) {
    if (r->stop.number != 0)
        return HOST(refused)(STOPPED, r->stop.task);
    if (count != SENSORS)
        return HOST(refused)(WRONG_READINGS, count);

    /* the slot that ended is charged */
    unsigned running = r->running;
    if (running != NO_TASK && ++r->used[running] == r->budgets[running]) {
        r->stop = (struct stop){ BUDGET_USED_UP, running, 0 };
        return HOST(refused)(BUDGET_USED_UP, running);
    }

    /* time passes */
    r->now++;
    for (unsigned i = 0; i < SENSORS; i++)
        r->ports[HOST(sensors)[i]] = readings[i];

    /* due code runs; what it adds to the queue is due later */
    unsigned instructions = 0;
    for (unsigned b = 0; b < r->waiting;) {
        if (r->queue[b].due != r->now) {
            b++;
            continue;
        }
        unsigned address = r->queue[b].address;
        r->waiting--;
        for (unsigned i = b; i < r->waiting; i++)
            r->queue[i] = r->queue[i + 1];
        instructions += HOST(thread)(r, address);
        if (r->stop.number != 0)
            return HOST(refused)(TOUCHED, r->stop.task);
    }

    r->running = HOST(earliest)(r);
    return (struct tick_answer){ 0, 0, instructions, r->running };
}

/* The task works on the ports taken at its release, and only the ports that it owns are put back. */
static inline struct refusal HOST(done)(struct HOST(run) *r, unsigned task) {
    if (r->stop.number != 0)
        return (struct refusal){ STOPPED, r->stop.task };
    if (task == NO_TASK || task != r->running)
        return (struct refusal){ NOT_RUNNING, task };
    int32_t *taken = r->taken[task];
    HOST(work)(taken, task);
    for (uint32_t rest = HOST(sheet).owns[task]; rest != 0; rest &= rest - 1) {
        unsigned p = __builtin_ctz(rest);
        r->ports[p] = taken[p];
    }
    r->pending &= ~(1u << task);
    r->running = NO_TASK;
    return (struct refusal){ 0, 0 };
}

static inline struct stop HOST(state)(const struct HOST(run) *r) { return r->stop; }

static inline struct port_answer HOST(port)(const struct HOST(run) *r, unsigned port) {
    if (port >= PORTS)
        return (struct port_answer){ NO_SUCH_PORT, port, 0 };
    return (struct port_answer){ 0, 0, r->ports[port] };
}

/* The pending tasks, and then 255. */
static inline void HOST(end)(const struct HOST(run) *r, uint8_t pending[8]) {
    unsigned n = 0;
    for (unsigned rest = r->pending; rest != 0; rest &= rest - 1)
        pending[n++] = __builtin_ctz(rest);
    memset(pending + n, 255, 8 - n);
}

static inline uint64_t HOST(mix)(uint64_t h, uint64_t x) { return h * 31 + x; }

/* The loop that bench/ticks.h tells. */
static inline uint64_t HOST(loop)(const uint8_t *image, size_t len, const uint8_t *budgets, uint32_t count) {
    struct HOST(run) run;
    uint8_t slots[MOST_TASKS] = { 0 }, pending[8];
    uint64_t h = 0;
    HOST(begin)(&run, image, len, budgets);
    for (uint32_t k = 0; k < count; k++) {
        int32_t readings[2] = { (int32_t)((uint64_t)k * 37 % 18000) - 9000, k / 64 % 2 };
        struct tick_answer answer = HOST(tick)(&run, readings, 2);
        if (answer.number != 0) {
            h = HOST(mix)(h, answer.number * 256 + answer.place);
        } else {
            h = HOST(mix)(h, answer.instructions);
            h = HOST(mix)(h, answer.running == NO_TASK ? 0 : answer.running + 1);
            if (answer.running != NO_TASK && ++slots[answer.running] == 2) {
                HOST(done)(&run, answer.running);
                slots[answer.running] = 0;
            }
        }
        h = HOST(mix)(h, (uint32_t)HOST(port)(&run, k % PORTS).value);
    }
    HOST(end)(&run, pending);
    for (int i = 0; i < 8; i++)
        h = HOST(mix)(h, pending[i]);
    return h;
}
