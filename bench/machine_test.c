/* The machine in C on figures that are known: the worked run of docs/RUNNER.md, its stops, the refusals, and the images that
   bench/ticks.c runs, by both checks. Started in the repository's folder; prints the first figure that is wrong. */
#include "hosts.h"
#include "programs.h"
#include <stdio.h>
#include <stdlib.h>

/* the checks of the library, exported by crates/capi_c */
extern uint8_t pitch_check(const uint8_t *image, size_t len, const uint8_t *budgets, size_t count);
extern uint8_t wide_check(const uint8_t *image, size_t len, const uint8_t *budgets, size_t count);

static void expect_at(int line, const char *what, long got, long wanted) {
    if (got == wanted)
        return;
    fprintf(stderr, "machine_test.c:%d: %s is %ld and not %ld\n", line, what, got, wanted);
    exit(1);
}

#define EXPECT(got, wanted) expect_at(__LINE__, #got, (long)(got), (long)(wanted))

static uint8_t image[MOST_IMAGE];
static const uint8_t BUDGETS[2] = { 12, 4 }, TWO_EACH[8] = { 2, 2, 2, 2, 2, 2, 2, 2 };
static const int32_t READINGS[2] = { 9200, 0 };

static size_t two_rate(void) {
    FILE *file = fopen("crates/pitchbox/data/two-rate.img", "rb");
    if (file == NULL)
        exit((perror("two-rate.img"), 1));
    size_t n = fread(image, 1, sizeof image, file);
    fclose(file);
    return n;
}

static void expect_tick(struct pitch_run *run, unsigned instructions, unsigned running) {
    struct tick_answer answer = pitch_tick(run, READINGS, 2);
    EXPECT(answer.number, 0);
    EXPECT(answer.instructions, instructions);
    EXPECT(answer.running, running);
}

static void expect_ports(const struct pitch_run *run, const int32_t wanted[8]) {
    for (unsigned p = 0; p < 8; p++)
        EXPECT(pitch_port(run, p).value, wanted[p]);
}

/* filter is done in its second slot, control in its fifth */
static void worked_run(void) {
    struct pitch_run run;
    uint8_t pending[8];
    pitch_begin(&run, image, two_rate(), BUDGETS);
    expect_tick(&run, 7, 1);
    expect_tick(&run, 0, 1);
    EXPECT(pitch_done(&run, 0).number, NOT_RUNNING);
    EXPECT(pitch_done(&run, 1).number, 0);
    expect_ports(&run, (int32_t[8]){ 9200, 0, 0, 9200, 0, 0, 4600, 4600 });
    EXPECT(pitch_done(&run, 1).number, NOT_RUNNING);
    for (int k = 2; k <= 6; k++)
        expect_tick(&run, 0, 0);
    EXPECT(pitch_done(&run, 0).number, 0);
    for (int k = 7; k <= 9; k++)
        expect_tick(&run, 0, NO_TASK);
    expect_ports(&run, (int32_t[8]){ 9200, 0, 0, 9200, 0, 1000, 4600, 4600 });
    expect_tick(&run, 4, 1);
    EXPECT(pitch_tick(&run, READINGS, 1).number, WRONG_READINGS);
    EXPECT(pitch_tick(&run, READINGS, 1).place, 1);
    expect_tick(&run, 0, 1);
    EXPECT(pitch_done(&run, 1).number, 0);
    for (int k = 12; k <= 19; k++)
        expect_tick(&run, 0, NO_TASK);
    expect_tick(&run, 7, 1);
    expect_ports(&run, (int32_t[8]){ 9200, 0, 6900, 9200, 1000, 1000, 6900, 6900 });
    EXPECT(pitch_port(&run, 8).number, NO_SUCH_PORT);
    EXPECT(pitch_port(&run, 8).place, 8);
    pitch_end(&run, pending);
    EXPECT(pending[0], 0);
    EXPECT(pending[1], 1);
    for (int i = 2; i < 8; i++)
        EXPECT(pending[i], 255);
}

/* filter is never done: its budget of 4 is used up at tick 4 */
static void budget_used_up(void) {
    struct pitch_run run;
    pitch_begin(&run, image, two_rate(), BUDGETS);
    expect_tick(&run, 7, 1);
    for (int k = 1; k <= 3; k++)
        expect_tick(&run, 0, 1);
    EXPECT(pitch_tick(&run, (int32_t[2]){ 1, 1 }, 2).number, BUDGET_USED_UP);
    EXPECT(pitch_state(&run).number, BUDGET_USED_UP);
    EXPECT(pitch_state(&run).task, 1);
    EXPECT(pitch_state(&run).address, 0);
    EXPECT(pitch_port(&run, 0).value, 9200);
    EXPECT(pitch_tick(&run, READINGS, 1).number, STOPPED);
    EXPECT(pitch_tick(&run, READINGS, 1).place, 1);
    EXPECT(pitch_done(&run, 1).number, STOPPED);
}

/* with budgets that no check would accept, filter is still pending when its window ends: the call at 7 touches it */
static void touched(void) {
    struct pitch_run run;
    pitch_begin(&run, image, two_rate(), (uint8_t[2]){ 240, 240 });
    expect_tick(&run, 7, 1);
    for (int k = 1; k <= 9; k++)
        expect_tick(&run, 0, 1);
    struct tick_answer answer = pitch_tick(&run, (int32_t[2]){ 5, 1 }, 2);
    EXPECT(answer.number, TOUCHED);
    EXPECT(answer.place, 1);
    EXPECT(pitch_state(&run).number, TOUCHED);
    EXPECT(pitch_state(&run).task, 1);
    EXPECT(pitch_state(&run).address, 7);
    EXPECT(pitch_port(&run, 0).value, 5);
    EXPECT(pitch_port(&run, 3).value, 9200);
    EXPECT(pitch_tick(&run, READINGS, 2).number, STOPPED);
}

static void images_are_accepted(void) {
    size_t n = two_rate();
    EXPECT(n, 228);
    EXPECT(check(&pitch_sheet, image, n, BUDGETS, 2).number, 0);
    EXPECT(pitch_check(image, n, BUDGETS, 2), 0);
    n = wide_program(image);
    EXPECT(n, 4008);
    EXPECT(check(&wide_sheet, image, n, TWO_EACH, 8).number, 0);
    EXPECT(wide_check(image, n, TWO_EACH, 8), 0);
    n = threads_program(image);
    EXPECT(n, 1008);
    EXPECT(check(&wide_sheet, image, n, TWO_EACH, 8).number, 0);
    EXPECT(wide_check(image, n, TWO_EACH, 8), 0);
}

/* Runs `n` bytes of image on the wide drive as bench/ticks.h does. No tick may be refused; answers the most instructions of a
   tick, and in `runs` how often each task was done. */
static unsigned run_wide(size_t n, unsigned count, unsigned runs[8]) {
    struct wide_run run;
    unsigned slots[8] = { 0 }, most = 0;
    wide_begin(&run, image, n, TWO_EACH);
    for (unsigned k = 0; k < count; k++) {
        struct tick_answer answer = wide_tick(&run, (int32_t[2]){ k * 37 % 18000 - 9000, k / 64 % 2 }, 2);
        EXPECT(answer.number, 0);
        if (answer.instructions > most)
            most = answer.instructions;
        if (answer.running != NO_TASK && ++slots[answer.running] == 2) {
            EXPECT(wide_done(&run, answer.running).number, 0);
            slots[answer.running] = 0;
            runs[answer.running]++;
        }
    }
    return most;
}

static void wide_runs(void) {
    static const unsigned windows[8] = { 12, 15, 20, 24, 30, 40, 60, 120 };
    unsigned wide[8] = { 0 }, threads[8] = { 0 };
    EXPECT(run_wide(wide_program(image), 100000, wide), 21);
    EXPECT(run_wide(threads_program(image), 1200, threads), 32);
    for (unsigned t = 0; t < 8; t++) {
        EXPECT(wide[t] > 0, 1);
        EXPECT(threads[t], 1200 / windows[t]);
    }
}

int main(void) {
    worked_run();
    budget_used_up();
    touched();
    images_are_accepted();
    wide_runs();
    puts("machine_test: all figures are right");
    return 0;
}
