/*
  desk_bench.c -- how long linkwords takes from its start to its end, on the largest
  tables of the benchmark

      desk_bench [ROUNDS]

  Prints the part of docs/BENCHMARKS.md on the desk, in medians of ROUNDS runs (31
  if not given). Each of explain and why is run as a process, by the script linkwords,
  with its output to a file. For why the last equation of the table is a conflict: five of its equations
  give way to the rows by which two bits that the others tie are to be 0 and 1. The
  current directory has to be bench/.

  The exit status is 0 if the goal is met, 1 if it is missed, and 2 if not all could
  be measured.
*/

#define _DEFAULT_SOURCE /* clock_gettime, posix_spawn, wait4 */

#include <fcntl.h>
#include <spawn.h>
#include <stdio.h>
#include <stdlib.h>
#include <string.h>
#include <sys/resource.h>
#include <sys/wait.h>

#include "tables.h"
#include "timing.h"

extern char **environ;

enum { MOST_ROUNDS = 301, GOAL = 50 };

static const struct {
    const char *name;
    void (*make)(draft *d, size_t size);
    size_t size;
} subjects[] = {{"turned", make_turned, 1024}, {"chained", make_chained, 300}, {"copied", make_copied, 300}, {"short", make_short, 512}};

enum { SUBJECTS = sizeof subjects / sizeof *subjects };

static uint16_t answer[LW_ANSWER_NUMBERS], work[LW_WORK_NUMBERS];

/* Puts a conflict in place of the last equations: a bit and its home, which they tie, are 0 and 1; false if there is none. */
static bool add_conflict(draft *d)
{
    size_t left = 0; /* bits of the variable that are left, as far as it is read */

    d->rows -= 5, d->equations -= 5, d->t.len -= 20;
    lw_record solved = lw_solve(d->t.numbers, d->t.len, answer, LW_ANSWER_NUMBERS, work, LW_WORK_NUMBERS);
    for (size_t i = 0; solved.outcome == LW_SOLVED && i < solved.pieces; i++) {
        const uint16_t *n = answer + 6 * i;
        left = i == 0 || n[0] != n[-6] ? d->width[n[0]] : left; /* row v is variable v */
        if (n[1] == LW_FRESH && (n[4] != n[0] || n[5] + 1U != left)) {
            size_t bit = cut(d, n[0], left - 1, left - 1), home = cut(d, n[4], n[5], n[5]);
            size_t both = join(d, bit, home), marker = add_row(d, 2, MARKER(1, 2));
            add_row(d, 0, EQUATION(both, marker));
            return true;
        }
        left -= n[2];
    }
    return false;
}

static bool write_sheet(const char *path, const draft *d)
{
    FILE *sheet = fopen(path, "w");

    if (sheet == NULL)
        return false;
    fprintf(sheet, "kind a b c\n");
    for (size_t i = 0; i < d->t.len; i++)
        fprintf(sheet, "%u%c", d->t.numbers[i], i % 4 == 3 ? '\n' : ' ');
    return fclose(sheet) == 0;
}

/* Milliseconds, from the start to the end, and of the processor; less than 0 if it was not measured. */
typedef struct {
    double whole, processor;
} times;

/* Runs linkwords, which has to end with the status. */
static times run(char *command, char *path, int status)
{
    char *arguments[] = {"../linkwords", command, path, NULL};
    posix_spawn_file_actions_t actions;
    struct rusage used;
    pid_t child;
    int got;

    posix_spawn_file_actions_init(&actions);
    posix_spawn_file_actions_addopen(&actions, 1, "build/desk.print", O_WRONLY | O_CREAT | O_TRUNC, 0644);
    double from = seconds();
    int error = posix_spawn(&child, arguments[0], &actions, NULL, arguments, environ);
    posix_spawn_file_actions_destroy(&actions);
    if (error != 0 || wait4(child, &got, 0, &used) != child || !WIFEXITED(got) || WEXITSTATUS(got) != status)
        return (times){-1, -1};
    return (times){1000 * (seconds() - from), 1000 * (double)(used.ru_utime.tv_sec + used.ru_stime.tv_sec) +
                                                  (double)(used.ru_utime.tv_usec + used.ru_stime.tv_usec) / 1000};
}

/* The medians of so many runs. */
static times median(char *command, char *path, int status, int rounds)
{
    double whole[MOST_ROUNDS], processor[MOST_ROUNDS];

    for (int i = 0; i < rounds; i++) {
        times t = run(command, path, status);
        if (t.whole < 0)
            return t;
        whole[i] = t.whole, processor[i] = t.processor;
    }
    qsort(whole, (size_t)rounds, sizeof *whole, by_size);
    qsort(processor, (size_t)rounds, sizeof *processor, by_size);
    return (times){whole[rounds / 2], processor[rounds / 2]};
}

int main(int argc, char **argv)
{
    static draft d;
    char path[] = "build/desk.sheet";
    int rounds = argc > 1 ? atoi(argv[1]) : 31, missed = 0;

    rounds = rounds < 1 ? 1 : rounds > MOST_ROUNDS ? MOST_ROUNDS : rounds;
    printf("\n## The desk\n\nFrom the start of the script linkwords to the end of the desk, and of that on the processor: medians of %d runs. Of `why` the\n"
           "last equation is a conflict, and all that it says is found by `lw_solve_pieces` and checked by `lw_solve`. The goal is under\n"
           "%d ms.\n\n"
           "| Table | `explain` | on the processor | `why` | on the processor |\n|---|---|---|---|---|\n", rounds, GOAL);
    for (size_t i = 0; i < SUBJECTS; i++) {
        times none = {-1, -1};
        clear(&d);
        subjects[i].make(&d, subjects[i].size);
        times explain = write_sheet(path, &d) ? median("explain", path, 0, rounds) : none;
        times why = add_conflict(&d) && write_sheet(path, &d) ? median("why", path, 1, rounds) : none;
        if (explain.whole < 0 || why.whole < 0) {
            fprintf(stderr, "%s is not measured\n", subjects[i].name);
            return 2;
        }
        printf("| %s | %.1f ms | %.1f ms | %.1f ms | %.1f ms |\n", subjects[i].name, explain.whole, explain.processor, why.whole, why.processor);
        missed += explain.whole >= GOAL || why.whole >= GOAL;
    }
    return missed == 0 ? 0 : 1;
}
