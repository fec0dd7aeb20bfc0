/* The check of bench/check.c. */
#ifndef CHECK_H
#define CHECK_H

#include <stddef.h>
#include <stdint.h>

struct sheet {
    uint8_t ports, drivers, tasks, conditions;
    uint32_t writes[32], reads[32], owns[8], sees[8];
};

/* number 0 is accepted */
struct refusal {
    unsigned number;
    size_t place;
};

struct refusal check(const struct sheet *s, const uint8_t *image, size_t len, const uint8_t *budgets, size_t budget_count);

#endif
