/*
  random_numbers.h -- one sequence of random numbers for all files of a program

  It is always the same from a seed on.
*/

#ifndef RANDOM_NUMBERS_H
#define RANDOM_NUMBERS_H

#include <stdbool.h>
#include <stddef.h>
#include <stdint.h>

extern uint64_t seed; /* may be set; it changes with each number */

uint64_t random_number(void);

/* A number from 0 to n - 1. */
size_t below(size_t n);

/* True once in n times. */
bool one_in(size_t n);

#endif /* RANDOM_NUMBERS_H */
