/* The loop that bench/run counts, the same in C (bench/machine.h) and in Rattle (crates/capi_c).

   Begin a run of the image with these budgets, on a fresh host (all ports 0), with the policy that takes the earliest
   deadline and the lower number on a tie. Let h be 0, and let mix(x) make h * 31 + x of h, in 64 bits that wrap.
   For k = 0 .. count - 1:
     1. tick with two readings: k * 37 % 18000 - 9000, not wrapped, for the first sensor port, and k / 64 % 2 for the second;
     2. if the tick is refused or stops: mix(number * 256 + place); or else mix(instructions) and then
        mix(running task + 1, or 0 if none runs);
     3. if task t runs, slots[t] rises by 1 (it begins at 0), and if it is then 2: done(t), and slots[t] becomes 0. So each
        task ends in its second slot;
     4. mix the value of port k % (number of ports), its 32 bits taken as an unsigned number.
   Then end the run, mix each of its eight bytes, the pending tasks by rising number, and answer h. */
#ifndef TICKS_H
#define TICKS_H

#include <stddef.h>
#include <stdint.h>

/* n bytes of image, m of budgets: accepted by the check for the drive */
uint64_t c_ticks_pitch(const uint8_t *image, size_t n, const uint8_t *budgets, size_t m, uint32_t count);
uint64_t c_ticks_wide(const uint8_t *image, size_t n, const uint8_t *budgets, size_t m, uint32_t count);

/* exported by crates/capi_c, if RATTLE_TICKS is defined */
#ifdef RATTLE_TICKS
uint64_t pitch_ticks(const uint8_t *image, size_t n, const uint8_t *budgets, size_t m, uint32_t count);
uint64_t wide_ticks(const uint8_t *image, size_t n, const uint8_t *budgets, size_t m, uint32_t count);
#endif

#endif
