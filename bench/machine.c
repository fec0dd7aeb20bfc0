/* The loop of bench/ticks.h by the machine of bench/machine.h, over the pitch drive and over the wide drive. */
#include "hosts.h"
#include "ticks.h"

uint64_t c_ticks_pitch(const uint8_t *image, size_t n, const uint8_t *budgets, size_t m, uint32_t count) {
    (void)m;
    return pitch_loop(image, n, budgets, count);
}

uint64_t c_ticks_wide(const uint8_t *image, size_t n, const uint8_t *budgets, size_t m, uint32_t count) {
    (void)m;
    return wide_loop(image, n, budgets, count);
}
