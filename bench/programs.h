/* Programs for the wide drive, made by bench/programs.c. Both fit with a budget of 2 for each task. */
#ifndef PROGRAMS_H
#define PROGRAMS_H

#include <stddef.h>
#include <stdint.h>

enum { MOST_IMAGE = 4008 };

/* Each writes an image and answers its length. */
size_t wide_program(uint8_t image[MOST_IMAGE]);
size_t threads_program(uint8_t image[MOST_IMAGE]);

#endif
