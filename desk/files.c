/*
  files.c -- files: sheets and runs of words; troubles, and the output, which is
  kept until a command ends
*/

#define _POSIX_C_SOURCE 200809L /* isatty */

#include <errno.h>
#include <stdarg.h>
#include <stdio.h>
#include <stdlib.h>
#include <string.h>
#include <unistd.h>

#include "desk.h"

uint16_t work[LW_WORK_NUMBERS];

/* ---- trouble and output */

enum { MOST_NAME = 4096, MOST_TOLD = 300 }; /* bytes of a name, and of what is told behind it */

/* A blank for each byte that would not stay in its line; what is longer than the buffer ends in .. */
static void make_one_line(char *text, size_t most, int len)
{
    for (char *c = text; *c != '\0'; c++)
        if ((unsigned char)*c < 32)
            *c = ' ';
    if (len < 0 || (size_t)len >= most)
        memcpy(text + most - 4, " ..", 4);
}

int trouble(const char *name, const char *format, ...)
{
    static char named[MOST_NAME], told[MOST_TOLD];
    va_list values;

    make_one_line(named, MOST_NAME, snprintf(named, MOST_NAME, "%s", name == NULL ? "" : name));
    va_start(values, format);
    make_one_line(told, MOST_TOLD, vsnprintf(told, MOST_TOLD, format, values));
    va_end(values);
    fprintf(stderr, "linkwords: %s%s%s\n", named, name == NULL ? "" : ": ", told);
    return TROUBLE;
}

int internal_error(const char *what)
{
    return trouble(NULL, "internal error: %s", what);
}

static char *output;
static size_t used, room;

/* Makes room for so many bytes more. */
static void make_room(size_t more)
{
    if (more <= room - used)
        return;
    room = 2 * (used + more);
    output = realloc(output, room);
    if (output == NULL) {
        trouble(NULL, "no memory for the output");
        exit(TROUBLE);
    }
}

void put_bytes(const void *bytes, size_t len)
{
    make_room(len);
    if (len != 0)
        memcpy(output + used, bytes, len);
    used += len;
}

void put(const char *format, ...)
{
    va_list values;
    int len;

    for (int tries = 0; tries < 2; tries++) {
        va_start(values, format);
        len = vsnprintf(room == used ? NULL : output + used, room - used, format, values);
        va_end(values);
        if (len < 0)
            return;
        if ((size_t)len < room - used)
            break;
        make_room((size_t)len + 1);
    }
    used += (size_t)len;
}

void put_bits(const uint8_t *bits, size_t count)
{
    for (size_t i = 0; i < count; i++)
        put_bytes(bits[i] == 1 ? "1" : "0", 1);
}

const char *plural(uint64_t count)
{
    return count == 1 ? "" : "s";
}

const char *output_text(size_t *len)
{
    *len = used;
    return output;
}

void forget_output(void)
{
    used = 0;
}

int give_output(void)
{
    static bool told; /* a failure is told once */
    bool failed = used != 0 && fwrite(output, 1, used, stdout) != used;

    used = 0;
    if (fflush(stdout) == 0 && !failed && !ferror(stdout))
        return YES;
    if (!told)
        trouble("standard output", "cannot be written: %s", strerror(errno));
    told = true;
    return TROUBLE;
}

/* ---- files */

/* What a file is called where something is told of it. */
static const char *told_name(const char *name)
{
    return name == NULL || strcmp(name, "-") == 0 ? "standard input" : name;
}

/* Reads a file, at most so many bytes of it; YES or TROUBLE. */
static int read_file(const char *name, uint8_t *bytes, size_t most, size_t *len)
{
    static bool taken; /* whether standard input was one of the files */
    bool standard = name == NULL || strcmp(name, "-") == 0;
    FILE *file = standard ? stdin : fopen(name, "rb");
    int error;

    if (standard && taken)
        return trouble("standard input", "is read once: one file alone can be -");
    taken = taken || standard;
    if (file == NULL)
        return trouble(name, "cannot be read: %s", strerror(errno));
    if (standard && isatty(STDIN_FILENO))
        trouble(NULL, "waits for standard input, which ends with Ctrl-D");
    errno = 0;
    *len = fread(bytes, 1, most, file);
    error = ferror(file) ? errno : 0;
    if (!standard)
        fclose(file);
    if (error != 0)
        return trouble(told_name(name), "cannot be read: %s", strerror(error));
    return YES;
}

int tell_refusal(const char *name, lw_record record)
{
    trouble(told_name(name), "refused %" PRIu32 ", row %" PRIu32 ": %s", record.outcome, record.row, rule(record.outcome));
    return REFUSED;
}

/* Notes the widths of the first rows and of their variables; these rows are accepted. */
static void measure(sheet *s, uint32_t rows)
{
    s->variables = s->bits = 0;
    for (uint32_t r = 0; r < rows; r++) {
        const uint16_t *n = s->table + ROW * r;
        switch (n[0]) {
        case LW_VARIABLE: s->row_width[r] = n[1]; break;
        case LW_JOIN:     s->row_width[r] = s->row_width[n[1]] + s->row_width[n[2]]; break;
        case LW_CUT:      s->row_width[r] = (uint32_t)(n[2] - n[3] + 1); break;
        case LW_EQUATION: s->row_width[r] = 0; break;
        default:          s->row_width[r] = n[2];
        }
        if (n[0] == LW_VARIABLE) {
            s->width[s->variables] = n[1];
            s->place[s->variables++] = s->bits;
            s->bits += n[1];
        }
    }
}

int load(const char *name, sheet *s)
{
    int status = read_file(name, s->bytes, sizeof s->bytes, &s->len);

    s->name = told_name(name);
    s->rows = 0;
    if (status != YES)
        return status;
    s->solved = lw_read_sheet(s->bytes, s->len, s->table, LW_TABLE_NUMBERS);
    if (s->solved.outcome != LW_ACCEPTED)
        return YES;
    s->rows = s->solved.pieces;
    s->solved = lw_solve(s->table, ROW * s->rows, s->answer, LW_ANSWER_NUMBERS, work, LW_WORK_NUMBERS);
    measure(s, s->solved.outcome <= LW_SOLVED || s->solved.row > s->rows ? s->rows : s->solved.row);
    return YES;
}

int load_accepted(const char *name, sheet *s)
{
    int status = load(name, s);

    if (status == YES && s->solved.outcome > LW_SOLVED)
        return tell_refusal(s->name, s->solved);
    return status;
}

int status_of(lw_record solved)
{
    return solved.outcome > LW_SOLVED ? REFUSED : solved.outcome == LW_NEVER ? NO : YES;
}

int load_words(const char *name, bool big, size_t most, uint16_t *words, size_t *len)
{
    size_t bytes = 0;
    uint8_t *content = malloc(2 * (most + 1)); /* one word more, so that a longer file is refused */
    int status = content == NULL ? trouble(name, "no memory to read it") : read_file(name, content, 2 * (most + 1), &bytes);

    if (status == YES && bytes % 2 != 0)
        status = trouble(told_name(name), "has half a word at its end: %zu bytes", bytes);
    for (size_t i = 0; status == YES && i < bytes / 2; i++)
        words[i] = (uint16_t)(256 * content[2 * i + (big ? 0 : 1)] + content[2 * i + (big ? 1 : 0)]);
    *len = bytes / 2;
    free(content);
    return status;
}
