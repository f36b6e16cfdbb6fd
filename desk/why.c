/*
  why.c -- why: the equations that leave no pattern, or that fix a bit or tie it
  to its home, and the chain of bit pairs that leads through them

  One equation after the other is left off, from the first to the last, each for
  good if the rest still has the effect: so none of what stays can be left out. A
  revised equation goes before the one that counts in its place. The chain is a
  shortest way over the bit pairs of what stays, and each equation that stays is
  on it, else it could have been left off. The set is found by lw_solve_pieces, and
  all of it is checked by lw_solve before it is printed.
*/

#include <string.h>

#include "desk.h"

static sheet s;
static uint16_t table[LW_TABLE_NUMBERS], answer[LW_ANSWER_NUMBERS];
static uint32_t staying[LW_MAX_EQUATIONS], stay; /* rows, and how many */

/* What is to be explained: a never, or why the place is held by a source. */
static bool never;
static uint32_t place, holder;

typedef lw_record solver(const uint16_t *, size_t, uint16_t *, size_t, uint16_t *, size_t);

/* Whether the table still has the effect, by one of the two solves. */
static bool has_effect(solver *solve)
{
    static uint32_t held[LW_MAX_VARIABLE_BITS];
    lw_record r = solve(table, ROW * s.rows, answer, LW_ANSWER_NUMBERS, work, LW_WORK_NUMBERS);

    if (never || r.outcome == LW_NEVER)
        return never && r.outcome == LW_NEVER;
    hold_by(&s, r, answer, held);
    return holder < PLACES ? held[place] == holder : held[place] == held[holder - PLACES];
}

/* Leaves off what can be left off, one after the other. */
static void find_set(void)
{
    stay = 0;
    memcpy(table, s.table, sizeof table);
    for (uint32_t r = 0; r < s.rows; r++) {
        if (s.table[ROW * r] != LW_EQUATION)
            continue;
        leave_off(table, r);
        if (has_effect(lw_solve_pieces))
            continue;
        memcpy(table + ROW * r, s.table + ROW * r, ROW * sizeof *table);
        staying[stay++] = r;
    }
}

/* The table with every equation that does not stay left off has the effect, and with any one more left off it has not. */
static bool set_is_right(void)
{
    uint32_t k = 0;

    memcpy(table, s.table, sizeof table);
    for (uint32_t r = 0; r < s.rows; r++)
        if (k < stay && staying[k] == r)
            k++;
        else if (s.table[ROW * r] == LW_EQUATION)
            leave_off(table, r);
    if (k != stay || !has_effect(lw_solve))
        return false;
    for (k = 0; k < stay; k++) {
        uint16_t *row = table + ROW * staying[k];
        leave_off(table, staying[k]);
        if (has_effect(lw_solve))
            return false;
        memcpy(row, s.table + ROW * staying[k], ROW * sizeof *table);
    }
    return true;
}

/* ---- the chain */

/* The bit pairs of what stays, each at both of its sources: the list of a source begins at first. */
enum { ENDS = 2 * LW_MAX_EQUATIONS * LW_MAX_WIDTH, NONE = ENDS };
static struct {
    uint32_t to, by, next; /* the other source, the equation among those that stay, the next of the list */
} ends[ENDS];
static uint32_t first[SOURCES], end_count;

static void add_end(uint32_t from, uint32_t to, uint32_t by)
{
    ends[end_count].to = to, ends[end_count].by = by, ends[end_count].next = first[from];
    first[from] = end_count++;
}

/* From the last pair back, so that each list begins with the lowest row. */
static void list_pairs(void)
{
    static pair pairs[LW_MAX_WIDTH];

    end_count = 0;
    for (uint32_t source = 0; source < SOURCES; source++)
        first[source] = NONE;
    for (uint32_t k = stay; k-- != 0;)
        for (size_t i = pairs_of(&s, staying[k], pairs); i-- != 0;) {
            add_end(pairs[i].a, pairs[i].b, k);
            add_end(pairs[i].b, pairs[i].a, k);
        }
}

/* Of each source that was reached: from which one, and by which of the equations that stay. */
static uint32_t reached_from[SOURCES], reached_by[SOURCES];
static bool reached[SOURCES];

/* A shortest way from one source to another, found from its end back; false if there is none. */
static bool find_chain(uint32_t from, uint32_t to)
{
    static uint32_t queue[SOURCES];
    size_t count = 1;

    list_pairs();
    memset(reached, 0, sizeof reached);
    queue[0] = to;
    reached[to] = true;
    for (size_t i = 0; i < count && !reached[from]; i++)
        for (uint32_t e = first[queue[i]]; e != NONE; e = ends[e].next)
            if (!reached[ends[e].to]) {
                reached[ends[e].to] = true;
                reached_from[ends[e].to] = queue[i];
                reached_by[ends[e].to] = ends[e].by;
                queue[count++] = ends[e].to;
            }
    return reached[from];
}

/* Whether each equation that stays is on the chain. */
static bool chain_has_all(uint32_t from, uint32_t to)
{
    bool seen[LW_MAX_EQUATIONS] = {false};
    uint32_t count = 0;

    for (uint32_t source = from; source != to; source = reached_from[source]) {
        count += !seen[reached_by[source]];
        seen[reached_by[source]] = true;
    }
    return count == stay;
}

static void put_chain(uint32_t from, uint32_t to)
{
    put("the chain of bits:\n");
    for (uint32_t source = from; source != to; source = reached_from[source]) {
        put("    row %" PRIu32 ": ", staying[reached_by[source]]);
        put_source(&s, source);
        put(" = ");
        put_source(&s, reached_from[source]);
        put("\n");
    }
}

static void put_heading(uint32_t from, uint32_t to)
{
    const char *alone = stay == 1 ? "" : ", and none of them can be left out";

    if (never) {
        put("never: %s no pattern%s\n", stay == 1 ? "this equation alone leaves" : "these equations alone leave", alone);
        return;
    }
    put_source(&s, from);
    put(" is ");
    put_source(&s, to);
    put("%s by %s%s\n", to < PLACES ? "" : ", its home,", stay == 1 ? "this equation" : "these equations", alone);
}

/* The equations and the chain, once they are found and checked. */
static int give_reason(uint32_t from, uint32_t to)
{
    find_set();
    if (!set_is_right())
        return internal_error("the equations found are not the reason, or one can be left out");
    if (!find_chain(from, to) || !chain_has_all(from, to))
        return internal_error("no chain of bits leads through the equations found");
    put_heading(from, to);
    for (uint32_t k = 0; k < stay; k++) {
        put("    row %" PRIu32 ": ", staying[k]);
        put_equation(&s, staying[k]);
        put("\n");
    }
    put_chain(from, to);
    return never ? NO : YES;
}

/* ---- what is asked */

/* VARIABLE:BIT, the variable as 0 or x0; YES or TROUBLE. */
static int read_place(const char *text)
{
    char number[16] = "";
    const char *from = text + (text[0] == 'x');
    size_t len = strcspn(from, ":");
    uint64_t variable, bit;

    if (len < sizeof number)
        memcpy(number, from, len);
    if (from[len] != ':' || !read_number(number, UINT32_MAX, &variable) || !read_number(from + len + 1, UINT32_MAX, &bit))
        return trouble(s.name, "a bit is VARIABLE:BIT, as in 0:7 or x0:7, and not %s", text);
    if (s.variables == 0)
        return trouble(s.name, "%s is no bit of the sheet: it has no variables", text);
    if (variable >= s.variables)
        return trouble(s.name, "%s is no bit of the sheet: its last variable is x%" PRIu32, text, s.variables - 1);
    if (bit >= s.width[variable])
        return trouble(s.name, "%s is no bit of the sheet: x%" PRIu64 " has bits %" PRIu32 " to 0", text, variable, s.width[variable] - 1);
    place = s.place[variable] + s.width[variable] - 1 - (uint32_t)bit;
    return YES;
}

static int run(const arguments *given)
{
    static uint32_t held[LW_MAX_VARIABLE_BITS];
    const char *bit = given->value[BIT];
    int status = load_accepted(given->words == 0 ? NULL : given->word[0], &s);

    if (status == YES && bit != NULL)
        status = read_place(bit);
    if (status != YES)
        return status;
    never = s.solved.outcome == LW_NEVER;
    if (never)
        return give_reason(0, 1);
    if (bit == NULL) {
        put(s.solved.outcome == LW_ALWAYS ? "all patterns meet the sheet: there is no reason to give, with or without --bit\n"
                                          : "some patterns meet the sheet: there is no reason to give without --bit\n");
        return YES;
    }
    hold_by(&s, s.solved, s.answer, held);
    holder = held[place];
    if (holder != place + PLACES)
        return give_reason(place + PLACES, holder);
    put_source(&s, holder);
    put(" is free, and at home there: there is no reason to give\n");
    return YES;
}

const command why_command = {
    .name = "why", .synopsis = "[--bit VARIABLE:BIT] [FILE]", .options = 1U << BIT, .most = 1, .run = run,
    .help = "Of a sheet that no pattern meets: prints equations that alone leave no pattern,\n"
            "of which none can be left out, and the chain of bit pairs that leads through them\n"
            "from a 0 to a 1. With --bit, of a sheet that some patterns meet: in the same way\n"
            "the equations that fix that bit, or that tie it to its home.\n"
            "Exit status: 0 if some pattern meets the sheet, 1 if none does, 2 if it is refused.\n"};
