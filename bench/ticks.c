/* Runs a workload for COUNT ticks by the one named, and prints the checksum of bench/ticks.h.
   two-rate is crates/pitchbox/data/two-rate.img with budgets 12 and 4, so it is started in the repository's folder; wide and
   threads are the programs of bench/programs.h, with a budget of 2 for each task. */
#include "ticks.h"
#include "programs.h"
#include <inttypes.h>
#include <stdio.h>
#include <stdlib.h>
#include <string.h>

static uint8_t image[MOST_IMAGE];

static size_t read_image(const char *path) {
    FILE *file = fopen(path, "rb");
    if (file == NULL)
        return 0;
    size_t n = fread(image, 1, sizeof image, file);
    fclose(file);
    return n;
}

int main(int argc, char **argv) {
    uint8_t budgets[8] = { 2, 2, 2, 2, 2, 2, 2, 2 };
    size_t n = 0, m = 8;
    int by_c = argc == 4 && !strcmp(argv[1], "c"), by_rattle = argc == 4 && !strcmp(argv[1], "rattle"), is_wide = 1;
    if (by_c || by_rattle) {
        if (!strcmp(argv[2], "two-rate")) {
            n = read_image("crates/pitchbox/data/two-rate.img");
            budgets[0] = 12, budgets[1] = 4, m = 2, is_wide = 0;
        } else if (!strcmp(argv[2], "wide")) {
            n = wide_program(image);
        } else if (!strcmp(argv[2], "threads")) {
            n = threads_program(image);
        }
    }
    if (n == 0)
        return fprintf(stderr, "usage, in the repository's folder: ticks c|rattle two-rate|wide|threads COUNT\n"), 2;
    uint32_t count = strtoul(argv[3], NULL, 10);
    uint64_t h;
    if (by_c) {
        h = (is_wide ? c_ticks_wide : c_ticks_pitch)(image, n, budgets, m, count);
    } else {
#ifdef RATTLE_TICKS
        h = (is_wide ? wide_ticks : pitch_ticks)(image, n, budgets, m, count);
#else
        return fprintf(stderr, "built without RATTLE_TICKS\n"), 2;
#endif
    }
    printf("%" PRIu64 "\n", h);
    return 0;
}
