/*
  test.h -- what the C tests share: counted checks, and a test as a list of groups

  main stands once, in test_main.c. It runs the groups of the program in their
  order and prints for each how many checks it made; one that makes none fails
  the program. A test program says what it is by one list:

      const test_list tests = {
          .name = "value", .inputs = 20000,
          .groups = {
              {.name = "values worked by hand", .run = test_values},
              {.name = "random tables", .run_random = test_random},
          },
      };

  A group that has run_random is given the number of random inputs, which is
  the program's first argument, or else the list's inputs.
*/

#ifndef TEST_H
#define TEST_H

#include <stdbool.h>
#include <stddef.h>
#include <stdint.h>
#include <stdio.h>
#include <stdlib.h>
#include <string.h>

#include "linkwords.h"

/* How many elements an array has. */
#define COUNT(array) (sizeof(array) / sizeof(array)[0])

/* Checks. */

/* Where a check stands; a helper is handed the place of the test that it helps. */
typedef struct {
    const char *file;
    int line;
} where;

#define HERE ((where){__FILE__, __LINE__})

extern unsigned long checks_passed, checks_failed;

/* Counts a check. One that fails is printed with its place; after the tenth the run stops. */
#if defined(__GNUC__)
__attribute__((format(printf, 3, 4)))
#endif
bool check(bool holds, where at, const char *format, ...);

/* Tells how often each outcome was had, and checks that each of those to be seen was. */
void check_outcomes(where at, const unsigned long *outcomes, size_t count, const unsigned *seen, size_t seen_count);

/* Whether two records are the same, field by field. */
bool same_record(lw_record a, lw_record b);

/* A record is as expected. None has the outcome 18: sides of unequal width are refused no more, nor is anything else so. */
bool check_record(where at, const char *name, lw_record got, lw_record want);

/* Constants of the header are the specification's numbers. */
typedef struct {
    const char *name;
    size_t got, want;
} constant;

#define CONSTANT(name, number) {#name, name, number}

void check_constants(where at, const constant *constants, size_t count);

/* Groups. */

typedef struct {
    const char *name;
    void (*run)(void);
    void (*run_random)(unsigned long inputs); /* where run is NULL */
} test_group;

enum { MOST_GROUPS = 32 };

typedef struct {
    const char *name;
    unsigned long inputs;
    test_group groups[MOST_GROUPS]; /* up to the first without a name */
} test_list;

extern const test_list tests;

#endif /* TEST_H */
