/* test_wrapped.c -- see test_wrapped.h */

#include "random_numbers.h"
#include "test.h"
#include "test_wrapped.h"

/* ---- the wrapped calls */

unsigned long solves, by_pieces, lie_at;
bool lie_pattern, lie_preview, lie_value, lie_zeros;
uint32_t lie_outcome, lie_free;

#define WRAPPED(name, ...)                  \
    lw_record __real_##name(__VA_ARGS__); \
    lw_record __wrap_##name(__VA_ARGS__); \
    lw_record __wrap_##name(__VA_ARGS__)

static lw_record count_solve(lw_record r)
{
    return ++solves == lie_at ? (lw_record){.outcome = r.outcome == 1 ? 0 : 1} : r;
}

WRAPPED(lw_solve, const uint16_t *t, size_t t_len, uint16_t *a, size_t a_len, uint16_t *w, size_t w_len)
{
    return count_solve(__real_lw_solve(t, t_len, a, a_len, w, w_len));
}

WRAPPED(lw_solve_pieces, const uint16_t *t, size_t t_len, uint16_t *a, size_t a_len, uint16_t *w, size_t w_len)
{
    by_pieces++;
    return count_solve(__real_lw_solve_pieces(t, t_len, a, a_len, w, w_len));
}

WRAPPED(lw_make_pattern, const uint16_t *t, size_t t_len, const uint16_t *a, size_t a_len, const uint8_t *f, size_t f_len,
        uint8_t *p, size_t p_len, uint16_t *w, size_t w_len)
{
    lw_record r = __real_lw_make_pattern(t, t_len, a, a_len, f, f_len, p, p_len, w, w_len);
    if (lie_pattern && r.free != 0)
        p[below(r.free)] ^= 1;
    return r;
}

WRAPPED(lw_value, const uint16_t *t, size_t t_len, size_t row, const uint8_t *p, size_t p_len, uint8_t *v, size_t v_len)
{
    lw_record r = __real_lw_value(t, t_len, row, p, p_len, v, v_len);
    if (lie_value)
        v[below(r.free)] ^= 1;
    if (lie_zeros)
        memset(v, 0, r.free);
    lie_value = false;
    return r;
}

WRAPPED(lw_compare_tables, const uint16_t *a, size_t a_len, const uint16_t *b, size_t b_len, uint16_t *w, size_t w_len)
{
    lw_record r = __real_lw_compare_tables(a, a_len, b, b_len, w, w_len);
    if (r.outcome == 0)
        r.outcome = lie_outcome;
    return r;
}

WRAPPED(lw_compare_recordings, const uint16_t *t, size_t t_len, const uint16_t *s, size_t s_len, const uint16_t *r, size_t r_len)
{
    lw_record found = __real_lw_compare_recordings(t, t_len, s, s_len, r, r_len);
    found.free += lie_free;
    return found;
}

WRAPPED(lw_job_preview, const uint16_t *t, size_t t_len, const lw_job *job, const uint16_t *w, size_t w_len)
{
    lw_record r = __real_lw_job_preview(t, t_len, job, w, w_len);
    r.ties += lie_preview;
    return r;
}

/* ---- what is told */

#define TOLD SHEETS "/told"

void keep_told(void)
{
    check(freopen(TOLD, "w", stderr) != NULL, HERE, "standard error cannot be put into a file"); /* internal errors are told there */
}

/* Whether what was told since the last call is one line, of an internal error. */
static bool told_error(void)
{
    static long seen;
    char line[512] = "";
    FILE *told = fopen(TOLD, "r");

    fflush(stderr);
    if (!check(told != NULL && fseek(told, seen, SEEK_SET) == 0, HERE, TOLD " cannot be read"))
        exit(1);
    seen += (long)fread(line, 1, sizeof line - 1, told);
    fclose(told);
    return strncmp(line, "linkwords: internal error: ", 27) == 0 && strchr(line, '\n') == line + strlen(line) - 1;
}

bool found_out(int status, const char *print)
{
    bool told = told_error();

    return status == 3 && *print == '\0' && told;
}
