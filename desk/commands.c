/* commands.c -- which commands there are, and how a command line is read */

#include <stdlib.h>
#include <string.h>

#include "desk.h"

static const command *const commands[] = {
    &solve_command,     &explain_command, &why_command,   &patterns_command, &check_command,
    &value_command,     &form_command,    &page_command,  &steps_command,    &positions_command,
    &recordings_command, &compare_command, &draw_command, &smt_command};

enum { COMMANDS = sizeof commands / sizeof *commands };

static const char *const option_names[OPTIONS] = {"--most", "--fresh", "--random", "--bit", "--number",
                                                  "--big",  "--list",  "--check"};

static void put_help(const command *c)
{
    put("usage: linkwords %s %s\n\n%s", c->name, c->synopsis, c->help);
}

/* Takes the options out of the words; YES or TROUBLE. */
static int read_arguments(const command *c, int argc, char **argv, arguments *given)
{
    for (int i = 0; i < argc; i++) {
        unsigned o = 0;
        if (argv[i][0] != '-' || argv[i][1] == '\0') { /* - is standard input */
            given->word[given->words++] = argv[i];
            continue;
        }
        while (o < OPTIONS && ((c->options >> o & 1) == 0 || strcmp(argv[i], option_names[o]) != 0))
            o++;
        if (o == OPTIONS)
            return trouble(c->name, "unknown option %s (linkwords %s --help tells which there are)", argv[i], c->name);
        if (o < BIG && i + 1 == argc)
            return trouble(c->name, "%s has no value behind it", argv[i]);
        given->value[o] = o < BIG ? argv[++i] : "";
    }
    if (given->words < c->least || given->words > c->most)
        return trouble(c->name, "%s arguments (usage: linkwords %s %s)", given->words < c->least ? "too few" : "too many",
                       c->name, c->synopsis);
    return YES;
}

static int run_command(const command *c, int argc, char **argv)
{
    arguments given = {.word = calloc((size_t)argc + 1, sizeof *argv)};
    int status = given.word == NULL ? trouble(c->name, "no memory") : YES;

    for (int i = 0; status == YES && i < argc; i++)
        if (strcmp(argv[i], "--help") == 0) {
            put_help(c);
            free(given.word);
            return YES;
        }
    if (status == YES)
        status = read_arguments(c, argc, argv, &given);
    if (status == YES)
        status = c->run(&given);
    free(given.word);
    if (status == TROUBLE)
        forget_output();
    return status;
}

int desk(int argc, char **argv)
{
    if (argc < 2)
        return trouble(NULL, "no command");
    for (size_t i = 0; i < COMMANDS; i++)
        if (strcmp(argv[1], commands[i]->name) == 0)
            return run_command(commands[i], argc - 2, argv + 2);
    return trouble(argv[1], "unknown command (linkwords --help tells all)");
}
