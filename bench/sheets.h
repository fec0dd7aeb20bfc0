/* The sheets of the two drives that are measured, as crates/host and crates/wide have them. */
#ifndef SHEETS_H
#define SHEETS_H

#include "check.h"

/* ports 0 and 1 are sensors; the drivers copy 0 to 3, 6 to 2 and 5 to 4; task 0 owns 5, task 1 owns 6 and 7 */
static const struct sheet pitch_sheet = {
    .ports = 8,
    .drivers = 3,
    .tasks = 2,
    .conditions = 1,
    .writes = { 1u << 3, 1u << 2, 1u << 4 },
    .reads = { 1u << 0, 1u << 6, 1u << 5 },
    .owns = { 1u << 5, 1u << 6 | 1u << 7 },
    .sees = { 1u << 2, 1u << 3 },
};

/* ports 24 and 25 are sensors; driver d copies 16 + d to d; task t owns 16 + t and reads t and 8 */
static const struct sheet wide_sheet = {
    .ports = 26,
    .drivers = 9,
    .tasks = 8,
    .conditions = 1,
    .writes = { 1u << 0, 1u << 1, 1u << 2, 1u << 3, 1u << 4, 1u << 5, 1u << 6, 1u << 7, 1u << 8 },
    .reads = { 1u << 16, 1u << 17, 1u << 18, 1u << 19, 1u << 20, 1u << 21, 1u << 22, 1u << 23, 1u << 24 },
    .owns = { 1u << 16, 1u << 17, 1u << 18, 1u << 19, 1u << 20, 1u << 21, 1u << 22, 1u << 23 },
    .sees = { 0x101, 0x102, 0x104, 0x108, 0x110, 0x120, 0x140, 0x180 },
};

#endif
