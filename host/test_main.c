/* test_main.c -- main of a C test, and its counted checks: see test.h */

#include <stdarg.h>

#include "test.h"

enum { FAILURES_SHOWN = 10 };

unsigned long checks_passed, checks_failed;

bool check(bool holds, where at, const char *format, ...)
{
    va_list details;

    if (holds) {
        checks_passed++;
        return true;
    }
    va_start(details, format);
    printf("%s:%d: ", at.file, at.line);
    vprintf(format, details);
    printf("\n");
    va_end(details);
    if (++checks_failed == FAILURES_SHOWN) {
        printf("stopped after %d failures\n", FAILURES_SHOWN);
        exit(1);
    }
    return false;
}

void check_outcomes(where at, const unsigned long *outcomes, size_t count, const unsigned *seen, size_t seen_count)
{
    printf("outcomes:");
    for (size_t i = 0; i < count; i++)
        if (outcomes[i] != 0)
            printf(" %zu %lux", i, outcomes[i]);
    printf("\n");
    for (size_t i = 0; i < seen_count; i++)
        check(outcomes[seen[i]] != 0, at, "outcome %u did not occur", seen[i]);
}

bool same_record(lw_record a, lw_record b)
{
    return a.outcome == b.outcome && a.pieces == b.pieces && a.fresh == b.fresh && a.free == b.free &&
           a.ties == b.ties && a.row == b.row;
}

bool check_record(where at, const char *name, lw_record got, lw_record want)
{
    return check(same_record(got, want) && got.outcome != 18, at, /* 18 was a refusal once; no call yields it */
                 "%s: record %u %u %u %u %u %u, expected %u %u %u %u %u %u", name,
                 got.outcome, got.pieces, got.fresh, got.free, got.ties, got.row,
                 want.outcome, want.pieces, want.fresh, want.free, want.ties, want.row);
}

void check_constants(where at, const constant *constants, size_t count)
{
    for (size_t i = 0; i < count; i++)
        check(constants[i].got == constants[i].want, at, "%s is %zu, expected %zu", constants[i].name,
              constants[i].got, constants[i].want);
}

/* Runs a group, and prints a line for it. One that makes no check has failed. */
static void run_group(const test_group *g, unsigned long inputs)
{
    unsigned long before = checks_passed + checks_failed;

    if (g->run != NULL)
        g->run();
    else
        g->run_random(inputs);
    unsigned long made = checks_passed + checks_failed - before;
    printf("%-37s %lu checks\n", g->name, made);
    if (made == 0)
        check(false, HERE, "%s: the group \"%s\" made no check", tests.name, g->name);
}

int main(int argc, char **argv)
{
    unsigned long inputs = argc > 1 ? strtoul(argv[1], NULL, 10) : tests.inputs;

    setvbuf(stdout, NULL, _IOLBF, BUFSIZ); /* a crash leaves the lines before it */
    for (size_t i = 0; i < MOST_GROUPS && tests.groups[i].name != NULL; i++)
        run_group(&tests.groups[i], inputs);
    if (checks_failed != 0 || checks_passed == 0) {
        printf("%s: %lu of %lu checks FAILED\n", tests.name, checks_failed, checks_passed + checks_failed);
        return 1;
    }
    printf("%s: %lu checks passed\n", tests.name, checks_passed);
    return 0;
}
