/*
  z3.h -- z3 as a process, on the script that linkwords smt makes of a table

  The scripts, and the sheets they are made of, are files of build/.
*/

#ifndef Z3_H
#define Z3_H

#include <spawn.h>
#include <stdbool.h>
#include <stdio.h>
#include <stdlib.h>
#include <string.h>
#include <sys/wait.h>
#include <unistd.h>

#include "random_table.h"
#include "timing.h"

extern char **environ;

/* Writes build/NAME.sheet, and build/NAME.smt2 from it. */
static inline bool write_script(const char *name, const table *t)
{
    char path[64], command[256];
    snprintf(path, sizeof path, "build/%s.sheet", name);
    snprintf(command, sizeof command, "../desk/build/desk smt %s >build/%s.smt2", path, name);

    FILE *sheet = fopen(path, "w");
    if (sheet == NULL)
        return false;
    fprintf(sheet, "kind a b c\n");
    for (size_t i = 0; i < t->len; i++)
        fprintf(sheet, "%u%c", t->numbers[i], i % 4 == 3 ? '\n' : ' ');
    bool written = ferror(sheet) == 0;
    return fclose(sheet) == 0 && written && system(command) == 0;
}

/* Starts z3 on build/NAME.smt2. Where its output is to be read, or -1. */
static inline int start_z3(const char *name, pid_t *child)
{
    char path[64], *arguments[] = {"z3", path, NULL};
    int ends[2];
    snprintf(path, sizeof path, "build/%s.smt2", name);
    if (pipe(ends) != 0)
        return -1;

    posix_spawn_file_actions_t actions;
    posix_spawn_file_actions_init(&actions);
    posix_spawn_file_actions_adddup2(&actions, ends[1], STDOUT_FILENO);
    posix_spawn_file_actions_addclose(&actions, ends[0]);
    posix_spawn_file_actions_addclose(&actions, ends[1]);
    int error = posix_spawnp(child, "z3", &actions, NULL, arguments, environ);
    posix_spawn_file_actions_destroy(&actions);
    close(ends[1]);
    if (error == 0)
        return ends[0];
    close(ends[0]);
    return -1;
}

/* From z3's start to its end; negative if it does not say that some pattern meets the table. */
static inline double z3_time(const char *name)
{
    char said[16] = "";
    size_t len = 0;
    pid_t child;
    int status;

    double start = seconds();
    int from = start_z3(name, &child);
    if (from < 0)
        return -1;
    for (ssize_t n; len < sizeof said && (n = read(from, said + len, sizeof said - len)) > 0;)
        len += (size_t)n;
    close(from);
    if (waitpid(child, &status, 0) != child || status != 0 || len != 4 || memcmp(said, "sat\n", 4) != 0)
        return -1;
    return seconds() - start;
}

#endif /* Z3_H */
