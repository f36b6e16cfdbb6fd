/*
  test_job.c -- tests of lw_job_open, lw_job_step, lw_job_preview and lw_job_answer

      test_job [TABLES]

  First jobs worked by hand, and the refusals in their order. Then TABLES random
  tables of up to 14 variable bits (20000 if not given): each is opened, stepped
  to its end, and previewed and answered at each state, over work areas of 16384,
  16385 and 20000 numbers, and compared with the enumeration of all patterns
  (enumerate.c), with the plain solver (plain_solver.c) and with lw_solve of the
  table with the later equations left off. At each state the job is damaged in
  every way that the calls have to see; what they ought to say is found by a look
  through all states, since some damaged jobs are good. Last tables of up to 4096
  variable bits, on which the library is compared with the plain solver. Every call
  is made on guarded buffers, and its record, the job and every number of every
  buffer are compared. Previews are made in read-only pages too, where a write ends
  the test, also one that is taken back.
*/

#define _DEFAULT_SOURCE /* MAP_ANONYMOUS */

#include <sys/mman.h>

#include "enumerate.h"
#include "guard.h"
#include "large_table.h"
#include "linkwords.h"
#include "plain_solver.h"
#include "refused_tables.h"
#include "reference.h"
#include "revised_tables.h"
#include "small_table.h"

enum { ANSWER_LEAST = 24576, WORK_LEAST = 16384, NEVER = 1000, FIXED = 4096, LARGE_TABLES = 60 };

/* The lengths of the work areas. */
enum { AREAS = 3, LONGEST = 20000 };
static const size_t lengths[AREAS] = {WORK_LEAST, WORK_LEAST + 1, LONGEST};

#define REFUSED(number) (lw_record){.outcome = (number)} /* each of a job's own refusals, and 10, tells row 0 */

/* The states of a job, by the plain solver. */

typedef struct {
    lw_job job;
    uint16_t held[PLAIN_BITS];
    lw_record record; /* of the answer */
    uint16_t answer[ANSWER_LEAST];
} state;

typedef struct {
    table t;
    ref_table facts;
    state states[64 + 1];
    size_t count;
} course;

static size_t equation_from(const course *c, size_t row)
{
    while (row < c->facts.rows && c->t.numbers[4 * row] != LW_EQUATION)
        row++;
    return row;
}

/* All states of the table's job; false if it is refused. */
static bool find_states(course *c, const uint16_t *numbers, size_t len)
{
    if (len != 0)
        memcpy(c->t.numbers, numbers, len * sizeof *numbers);
    c->t.len = len;
    c->count = 0;
    if (ref_check(ALL(c->t), &c->facts).outcome != 0)
        return false;
    for (size_t next = equation_from(c, 0);; next = equation_from(c, next + 1)) {
        state *s = &c->states[c->count++];
        s->record = plain_solve_to(c->t.numbers, &c->facts, next, s->answer, s->held);
        s->job = (lw_job){(uint32_t)next, s->record.ties};
        if (s->record.outcome == 1) {
            s->job = (lw_job){NEVER, s[-1].job.ties};
            memcpy(s->held, s[-1].held, sizeof s->held);
            return true;
        }
        if (next == c->facts.rows)
            return true;
    }
}

/* A work area in a state: what holds each place, and 0 behind the last. */
static const uint16_t *area_of(const course *c, const state *s)
{
    static uint16_t area[LONGEST];
    memset(area, 0, sizeof area);
    memcpy(area, s->held, c->facts.bits * sizeof *area);
    return area;
}

/* Calls and what they are compared with. */

typedef enum { OPEN, STEP, PREVIEW, ANSWER, CALLS, EACH = CALLS /* the last three, each refused */ } call_kind;

static const char *const call_names[] = {"open", "step", "preview", "answer", "step, preview and answer"};

static lw_record make_call(call_kind which, const uint16_t *numbers, size_t len, guarded *job, guarded *work,
                           size_t work_len, guarded *answer, size_t answer_len)
{
    switch (which) {
    case OPEN: return lw_job_open(numbers, len, guarded_buffer(job), guarded_buffer(work), work_len);
    case STEP: return lw_job_step(numbers, len, guarded_buffer(job), guarded_buffer(work), work_len);
    case PREVIEW: return lw_job_preview(numbers, len, guarded_buffer(job), guarded_buffer(work), work_len);
    default:
        return lw_job_answer(numbers, len, guarded_buffer(job), guarded_buffer(work), work_len,
                             guarded_buffer(answer), answer_len);
    }
}

/* Memory in pages of its own; what lies behind it cannot even be read. */
enum { LOCKED = 1 << 16 };
static unsigned char *locked;

static void protect(unsigned char *pages, int rights)
{
    if (mprotect(pages, LOCKED, rights) != 0) {
        perror("mprotect");
        exit(1);
    }
}

/* A preview of job, table and work area in read-only pages. The work area is the last that can be read there. */
static lw_record preview_locked(const uint16_t *numbers, size_t len, const lw_job *job, const uint16_t *work, size_t work_len)
{
    if (locked == NULL) {
        locked = mmap(NULL, 2 * LOCKED, PROT_READ | PROT_WRITE, MAP_PRIVATE | MAP_ANONYMOUS, -1, 0);
        if (locked == MAP_FAILED) {
            perror("mmap");
            exit(1);
        }
        protect(locked + LOCKED, PROT_NONE);
    }
    void *work_there = locked + LOCKED - work_len * sizeof *work, *job_there = locked;
    void *table_there = locked + LOCKED - (work_len + len) * sizeof *work;
    protect(locked, PROT_READ | PROT_WRITE);
    memcpy(job_there, job, sizeof *job);
    memcpy(work_there, work, work_len * sizeof *work);
    if (len != 0)
        memcpy(table_there, numbers, len * sizeof *numbers);
    protect(locked, PROT_READ);
    return lw_job_preview(table_there, len, job_there, work_there, work_len);
}

/* The buffers that are lent, used again from call to call: a work area of each length. */
static guarded lent_table, lent_job, lent_work[AREAS], lent_answer;

static void make_buffers(void)
{
    if (lent_job.block != NULL)
        return;
    lent_table = guard(NULL, LW_TABLE_NUMBERS * sizeof(uint16_t));
    lent_job = guard(NULL, sizeof(lw_job));
    lent_answer = guard(NULL, ANSWER_LEAST * sizeof(uint16_t));
    for (size_t k = 0; k < AREAS; k++)
        lent_work[k] = guard(NULL, lengths[k] * sizeof(uint16_t));
}

static void put_job(uint32_t next, uint32_t ties)
{
    make_buffers();
    guard_put(&lent_job, &(lw_job){next, ties}, sizeof(lw_job));
}

static void put_state(const course *c, const state *s, size_t k)
{
    put_job(s->job.next, s->job.ties);
    guard_put(&lent_work[k], area_of(c, s), lengths[k] * sizeof(uint16_t));
}

/* A number of the work area changed. */
static void poke(size_t k, size_t at, uint16_t number)
{
    size_t byte = ZONE + at * sizeof number;
    memcpy(lent_work[k].block + byte, &number, sizeof number);
    memcpy(lent_work[k].kept + byte, &number, sizeof number);
}

/* Numbers that a call has to write over, or else to leave. */
static void put_rubbish(guarded *g, size_t count)
{
    static uint16_t rubbish[2 * ANSWER_LEAST];
    for (size_t i = COUNT(rubbish); rubbish[0] == 0 && i != 0; i--)
        rubbish[i - 1] = (uint16_t)(random_number() | 1);
    guard_put(g, rubbish + below(ANSWER_LEAST), count * sizeof *rubbish);
}

/*
  One call on the course's table and the lent buffers, with the work area of
  length k. It leaves the state, or, if that is NULL, all as it is, as a preview
  always does; an answer leaves the state's answer table.
*/
static void call(where at, const char *name, call_kind which, const course *c, size_t k, lw_record want,
                 const state *leaves)
{
    unsigned long failed = checks_failed;
    const uint16_t *numbers = guarded_buffer(&lent_table);
    guarded *work = &lent_work[k];
    lw_job before;

    guard_put(&lent_table, c->t.numbers, c->t.len * sizeof *numbers);
    memcpy(&before, guarded_buffer(&lent_job), sizeof before);
    for (call_kind w = STEP; which == EACH && w < ANSWER; w++)
        check_record(at, call_names[w], make_call(w, numbers, c->t.len, &lent_job, work, lengths[k], NULL, 0), want);
    lw_record got = make_call(which, numbers, c->t.len, &lent_job, work, lengths[k], &lent_answer, ANSWER_LEAST);
    if (leaves != NULL && which != ANSWER) {
        guard_expect(&lent_job, &leaves->job, sizeof leaves->job);
        guard_expect(work, area_of(c, leaves), lengths[k] * sizeof(uint16_t));
    } else if (leaves != NULL && want.outcome == 2) {
        guard_expect(&lent_answer, leaves->answer, 6 * want.pieces * sizeof(uint16_t));
    }
    check_record(at, call_names[which], got, want);
    guard_compare(&lent_table, at, "table");
    guard_compare(&lent_job, at, "job");
    guard_compare(work, at, "work area");
    if (which >= ANSWER)
        guard_compare(&lent_answer, at, "answer");
    if (checks_failed != failed && failed == 0) {
        printf("  %s, %s, job %u %u, work area of %zu numbers\n", name, call_names[which], before.next, before.ties,
               lengths[k]);
        print_table(ALL(c->t));
    }
}

/* What a preview tells at a state: the record of the next one, after a never the same again, and else that none is left. */
static lw_record told_before(const course *c, const state *s)
{
    return s->job.next == c->facts.rows ? REFUSED(45) : s->job.next == NEVER ? s->record : s[1].record;
}

/* The same preview in read-only pages: of the job and the work area as they are lent. */
static void call_locked(where at, const course *c, size_t k, lw_record want)
{
    lw_record got = preview_locked(ALL(c->t), guarded_buffer(&lent_job), guarded_buffer(&lent_work[k]), lengths[k]);
    check_record(at, "preview in read-only pages", got, want);
}

/* The state that job and work area are, up to the last number; NULL if they are none. */
static const state *lent_state(const course *c, size_t k)
{
    static const uint16_t zeros[LONGEST];
    const uint16_t *work = guarded_buffer(&lent_work[k]);
    size_t bits = c->facts.bits;

    for (const state *s = c->states; s < c->states + c->count; s++)
        if (memcmp(&s->job, guarded_buffer(&lent_job), sizeof s->job) == 0 &&
            memcmp(s->held, work, bits * sizeof *work) == 0 &&
            memcmp(zeros, work + bits, (lengths[k] - bits) * sizeof *work) == 0)
            return s;
    return NULL;
}

static unsigned long found_good, found_bad; /* among the jobs tried */

/* An answer, a preview and a step of the job and the work area as they are lent; these stay so. */
static void try_job(where at, const char *name, const course *c, size_t k)
{
    const state *s = lent_state(c, k);

    if (s == NULL) {
        call(at, name, EACH, c, k, REFUSED(44), NULL);
        if (found_bad++ % 16 == 0)
            call_locked(at, c, k, REFUSED(44));
        return;
    }
    found_good++;
    put_rubbish(&lent_answer, ANSWER_LEAST);
    call(at, name, ANSWER, c, k, s->record, s);
    call(at, name, PREVIEW, c, k, told_before(c, s), NULL);
    if (s->job.next == c->facts.rows) {
        call(at, name, STEP, c, k, REFUSED(45), NULL);
    } else {
        const state *after = s->job.next == NEVER ? s : s + 1;
        call(at, name, STEP, c, k, after->record, after);
        call(at, name, PREVIEW, c, k, told_before(c, after), NULL);
        put_state(c, s, k);
    }
}

/* The answer of lw_solve, of the table with the equations from the next row on saying nothing, is the state's. */
static void check_solve(where at, const course *c, const state *s)
{
    static uint16_t answer[ANSWER_LEAST], work[WORK_LEAST];
    table t = c->t;

    for (size_t r = s->job.next; r < c->facts.rows; r++)
        if (t.numbers[4 * r] == LW_EQUATION)
            t.numbers[4 * r + 1] = t.numbers[4 * r + 2] = 0;
    lw_record record = lw_solve(ALL(t), answer, ANSWER_LEAST, work, WORK_LEAST);
    check_record(at, "lw_solve of the equations taken", record, s->record);
    check(record.outcome != 2 || memcmp(answer, s->answer, 6 * record.pieces * sizeof *answer) == 0, at,
          "lw_solve of the equations before row %u writes another answer", s->job.next);
}

/*
  The job of a course over a work area of length k, with no buffer made anew
  between: opened, and then at each state a preview, an answer, two previews and
  a step.
*/
static void run_job(where at, const course *c, size_t k)
{
    const state *s = c->states, *last = s + c->count - 1;

    put_job((uint32_t)(one_in(2) ? random_number() : below(c->facts.rows + 2)), (uint32_t)random_number());
    put_rubbish(&lent_work[k], lengths[k]);
    call(at, "opened", OPEN, c, k, s->record, s);
    for (;; s++) {
        call(at, "on the way", PREVIEW, c, k, told_before(c, s), NULL);
        put_rubbish(&lent_answer, ANSWER_LEAST);
        call(at, "on the way", ANSWER, c, k, s->record, s);
        for (int i = 0; i < 2; i++)
            call(at, "on the way, again", PREVIEW, c, k, told_before(c, s), NULL);
        if (s == last)
            break;
        call(at, "on the way", STEP, c, k, s[1].record, &s[1]);
    }
    for (int i = 0; i < 2; i++) { /* a never comes again, and else no equation is left */
        if (s->job.next == NEVER)
            call(at, "after a never", STEP, c, k, s->record, s);
        else
            call(at, "no equation left", STEP, c, k, REFUSED(45), NULL);
        call(at, "at the end", PREVIEW, c, k, told_before(c, s), NULL);
    }
    call(at, "at the end", ANSWER, c, k, s->record, s);
    call(at, "opened again", OPEN, c, k, c->states[0].record, &c->states[0]);
}

/* A call that is refused, or a preview, whatever stands in job and buffers, which have these lengths: all stays. */
static void refuse(where at, call_kind which, const uint16_t *numbers, size_t len, lw_job job, const uint16_t *content,
                   size_t work_len, size_t answer_len, lw_record want)
{
    guarded t = guard(numbers, len * sizeof *numbers), j = guard(&job, sizeof job);
    guarded w = guard(content, work_len * sizeof *content), a = guard(NULL, answer_len * sizeof *content);

    lw_record got = make_call(which, guarded_buffer(&t), len, &j, &w, work_len, &a, answer_len);
    check_record(at, call_names[which], got, want);
    guard_check(&t, at, "table");
    guard_check(&j, at, "job");
    guard_check(&w, at, "work area");
    guard_check(&a, at, "answer");
}

/* Jobs worked by hand. */

typedef struct {
    lw_record record;
    lw_job job;
    uint16_t held[20];
} shown;

static course worked;

/* The table has these states: what open and each step return and leave. Each is tried by itself too. */
static void accept(where at, const uint16_t *numbers, size_t len, const shown *states, size_t count)
{
    check(find_states(&worked, numbers, len) && worked.count == count, at, "%zu states, expected %zu", worked.count,
          count); /* a slip in what is expected is found too */
    for (size_t i = 0; i < count && i < worked.count; i++) {
        const state *s = &worked.states[i];
        check_record(at, "worked by hand", s->record, states[i].record);
        check(s->job.next == states[i].job.next && s->job.ties == states[i].job.ties, at, "state %zu is job %u %u", i,
              s->job.next, s->job.ties);
        check(memcmp(s->held, states[i].held, worked.facts.bits * sizeof *s->held) == 0, at, "state %zu is held otherwise",
              i);
        check_solve(at, &worked, s);
    }
    for (size_t k = 0; k < AREAS; k++) {
        run_job(at, &worked, k);
        for (size_t i = 0; i < worked.count; i++) {
            put_state(&worked, &worked.states[i], k);
            try_job(at, "by itself", &worked, k);
        }
    }
}

/* The job with the area of a worked state, changed by hand: refused 44, or good. */
static void change(where at, size_t i, uint32_t next, uint32_t ties, bool good)
{
    for (size_t k = 0; k < AREAS; k++) {
        put_state(&worked, &worked.states[i], k);
        put_job(next, ties);
        check((lent_state(&worked, k) != NULL) == good, at, "job %u %u is expected otherwise", next, ties);
        try_job(at, "changed by hand", &worked, k);
    }
}

#define STATES(...)        (const shown[]){__VA_ARGS__}, COUNT(((const shown[]){__VA_ARGS__}))
#define ACCEPT(...)        accept(HERE, __VA_ARGS__)
#define GOOD(i, next, ties) change(HERE, i, next, ties, true)
#define BAD(i, next, ties)  change(HERE, i, next, ties, false)

static void test_constants(void)
{
    static const constant constants[] = {
        CONSTANT(LW_REFUSED_REVISED, 43), CONSTANT(LW_REFUSED_JOB, 44), CONSTANT(LW_REFUSED_STEP, 45),
        CONSTANT(LW_JOB_NEVER, 1000), CONSTANT(LW_HELD_FIXED, 4096),
    };
    check_constants(HERE, constants, COUNT(constants));
    check(sizeof(lw_job) == 8 && offsetof(lw_job, ties) == 4, HERE, "a job has %zu bytes", sizeof(lw_job));
}

static void test_worked(void)
{
    /* Case 5: equal, then 0, and then the first is 1. */
    ACCEPT(TABLE(VARIABLE(1), VARIABLE(1), FILL(0, 1), FILL(1, 1), EQUATION(0, 1), EQUATION(1, 2), EQUATION(0, 3)),
           STATES({{0, 0, 0, 2, 0, 0}, {4, 0}, {0, 1}}, {{2, 2, 1, 1, 1, 0}, {5, 1}, {0, 0}},
                  {{2, 2, 0, 0, 2, 0}, {6, 2}, {4096, 4096}}, {{1, 0, 0, 0, 2, 6}, {1000, 2}, {4096, 4096}}));
    BAD(2, 7, 2);
    BAD(2, 1000, 3);
    BAD(1, 1000, 1);

    /* examples/overlap.sheet */
    ACCEPT(TABLE(VARIABLE(8), CUT(0, 6, 3), CUT(0, 4, 1), EQUATION(1, 2)),
           STATES({{0, 0, 0, 8, 0, 0}, {3, 0}, {0, 1, 2, 3, 4, 5, 6, 7}},
                  {{2, 5, 3, 4, 4, 0}, {4, 4}, {0, 1, 2, 1, 2, 1, 2, 7}}));
    BAD(1, 3, 4);
    BAD(1, 1000, 4);
    BAD(1, 5, 4);

    /* An equation that says nothing is a step too; then two states differ in the next row alone. */
    ACCEPT(TABLE(VARIABLE(2), EQUATION(0, 0), VARIABLE(2), EQUATION(0, 2)),
           STATES({{0, 0, 0, 4, 0, 0}, {1, 0}, {0, 1, 2, 3}}, {{0, 0, 0, 4, 0, 0}, {3, 0}, {0, 1, 2, 3}},
                  {{2, 2, 1, 2, 2, 0}, {4, 2}, {0, 1, 0, 1}}));
    GOOD(0, 3, 0);
    GOOD(1, 1, 0);
    BAD(0, 2, 0);
    BAD(0, 4, 0);
    BAD(0, 0, 0);

    /* A never in the middle: the first pair of row 5 is a tie, and leaves no trace. */
    ACCEPT(TABLE(VARIABLE(2), MARKER(2, 2), CUT(0, 0, 0), FILL(1, 1), EQUATION(2, 3), EQUATION(0, 1), EQUATION(0, 0)),
           STATES({{0, 0, 0, 2, 0, 0}, {4, 0}, {0, 1}}, {{2, 2, 1, 1, 1, 0}, {5, 1}, {0, 4097}},
                  {{1, 0, 0, 0, 1, 5}, {1000, 1}, {0, 4097}}));
    GOOD(1, 1000, 1);
    GOOD(2, 5, 1);
    BAD(2, 6, 1);
    BAD(2, 7, 1);
    BAD(2, 1000, 0);
    BAD(2, 1000, 2);
    put_state(&worked, &worked.states[2], 2);
    poke(2, LONGEST - 1, 1);
    check(lent_state(&worked, 2) == NULL, HERE, "the last number is not looked at");
    try_job(HERE, "last of 20000 numbers", &worked, 2);

    /* Filled sides: zeros are ties, and hold the bits that they are tied to. */
    ACCEPT(TABLE(VARIABLE(8), VARIABLE(12), MARKER(165, 8), EQUATION(0, 1), EQUATION(1, 1), EQUATION(2, 1), FILL(1, 12),
                 EQUATION(1, 6), EQUATION(0, 0)),
           STATES({{0, 0, 0, 20, 0, 0}, {3, 0}, {0, 1, 2, 3, 4, 5, 6, 7, 8, 9, 10, 11, 12, 13, 14, 15, 16, 17, 18, 19}},
                  {{2, 3, 1, 8, 12, 0}, {4, 12},
                   {0, 1, 2, 3, 4, 5, 6, 7, 4096, 4096, 4096, 4096, 0, 1, 2, 3, 4, 5, 6, 7}},
                  {{2, 3, 1, 8, 12, 0}, {5, 12},
                   {0, 1, 2, 3, 4, 5, 6, 7, 4096, 4096, 4096, 4096, 0, 1, 2, 3, 4, 5, 6, 7}},
                  {{2, 15, 0, 0, 20, 0}, {7, 20},
                   {4097, 4096, 4097, 4096, 4096, 4097, 4096, 4097, 4096, 4096, 4096, 4096,
                    4097, 4096, 4097, 4096, 4096, 4097, 4096, 4097}},
                  {{1, 0, 0, 0, 20, 7}, {1000, 20},
                   {4097, 4096, 4097, 4096, 4096, 4097, 4096, 4097, 4096, 4096, 4096, 4096,
                    4097, 4096, 4097, 4096, 4096, 4097, 4096, 4097}}));
    static const uint16_t rows[] = {0, 2, 8, 0, 0, 7, 1, 0, 4, 0, 1, 11, 1, 2, 8, 0, 0, 7};
    check(memcmp(worked.states[1].answer, rows, sizeof rows) == 0, HERE, "the answer at job 4 12 is another");
    GOOD(1, 5, 12);
    BAD(3, 8, 20);
    BAD(3, 9, 20);

    /* No rows, no equation, no variable. */
    ACCEPT(NULL, 0, STATES({{0, 0, 0, 0, 0, 0}, {0, 0}, {0}}));
    BAD(0, 1, 0);
    BAD(0, 1000, 0);
    ACCEPT(TABLE(VARIABLE(3), FILL(1, 2)), STATES({{0, 0, 0, 3, 0, 0}, {2, 0}, {0, 1, 2}}));
    BAD(0, 0, 0);
    ACCEPT(TABLE(FILL(0, 1), FILL(1, 1), EQUATION(0, 1)),
           STATES({{0, 0, 0, 0, 0, 0}, {2, 0}, {0}}, {{1, 0, 0, 0, 0, 2}, {1000, 0}, {0}}));
    ACCEPT(TABLE(FILL(0, 1), EQUATION(0, 0), FILL(1, 1)),
           STATES({{0, 0, 0, 0, 0, 0}, {1, 0}, {0}}, {{0, 0, 0, 0, 0, 0}, {3, 0}, {0}}));

    /* A word behind its equation is counted among the places from the start; the lowest place of a group holds it. */
    ACCEPT(TABLE(VARIABLE(2), CUT(0, 1, 1), CUT(0, 0, 0), EQUATION(1, 2), VARIABLE(2), JOIN(2, 1), EQUATION(4, 5)),
           STATES({{0, 0, 0, 4, 0, 0}, {3, 0}, {0, 1, 2, 3}}, {{2, 3, 2, 3, 1, 0}, {6, 1}, {0, 0, 2, 3}},
                  {{2, 4, 1, 1, 3, 0}, {7, 3}, {0, 0, 0, 0}}));
}

/* Previews worked by hand. */

static const uint16_t case_five[] = {VARIABLE(1), VARIABLE(1), FILL(0, 1), FILL(1, 1), EQUATION(0, 1), EQUATION(1, 2),
                                     EQUATION(0, 3)};
static const uint16_t overlap[] = {VARIABLE(8), CUT(0, 6, 3), CUT(0, 4, 1), EQUATION(1, 2)}; /* as in examples/ */
static const uint16_t impossible[] = {VARIABLE(8), CUT(0, 7, 7), FILL(1, 1), EQUATION(1, 2), CUT(0, 7, 4), FILL(0, 4),
                                      EQUATION(4, 5)};
static const uint16_t revised_sheet[] = {VARIABLE(12), CUT(0, 11, 8), MARKER(3, 4), LINE(1, 2, 10), CUT(0, 3, 0),
                                         FILL(0, 4), LINE(4, 5, 20), MARKER(12, 4), LINE(1, 7, 10)};
static const uint16_t never_between[] = {VARIABLE(2), MARKER(2, 2), CUT(0, 0, 0), FILL(1, 1), EQUATION(2, 3),
                                         EQUATION(0, 1), EQUATION(0, 0)};
static const uint16_t filled_sides[] = {VARIABLE(8), VARIABLE(12), MARKER(165, 8), EQUATION(0, 1), EQUATION(1, 1),
                                        EQUATION(2, 1), FILL(1, 12), EQUATION(1, 6), EQUATION(0, 0)};
static const uint16_t kind_9[] = {9, 8, 0, 0, CUT(0, 6, 3), CUT(0, 4, 1), EQUATION(1, 2)};
static const uint16_t kind_9_revised[] = {9, 8, 0, 0, VARIABLE(1), LINE(1, 1, 7)};
static const uint16_t no_equation[] = {VARIABLE(3), FILL(1, 2)};

#define OPENED_8 {0, 1, 2, 3, 4, 5, 6, 7}
#define OVERLAPS {0, 1, 2, 1, 2, 1, 2, 7}
#define FILLED   {0, 1, 2, 3, 4, 5, 6, 7, 4096, 4096, 4096, 4096, 0, 1, 2, 3, 4, 5, 6, 7}
#define ZEROS_12 {0, 1, 2, 3, 4, 5, 6, 7, 8, 9, 10, 11}
#define OF(numbers) numbers, COUNT(numbers)

/* A job at its state, and its work area: what holds the first places, how long it is, and which number is 1 behind. */
static const struct {
    const uint16_t *numbers;
    size_t len;
    lw_job job;
    uint16_t held[20];
    size_t work_len, set;
    lw_record told;
} previews[] = {
    {OF(case_five), {4, 0}, {0, 1}, WORK_LEAST, 0, {2, 2, 1, 1, 1, 0}},
    {OF(case_five), {5, 1}, {0, 0}, WORK_LEAST, 0, {2, 2, 0, 0, 2, 0}},
    {OF(case_five), {6, 2}, {4096, 4096}, WORK_LEAST, 0, {1, 0, 0, 0, 2, 6}},
    {OF(case_five), {1000, 2}, {4096, 4096}, WORK_LEAST, 0, {1, 0, 0, 0, 2, 6}},
    {OF(case_five), {1000, 2}, {4096, 4096}, LONGEST, 0, {1, 0, 0, 0, 2, 6}},

    {OF(overlap), {3, 0}, OPENED_8, WORK_LEAST, 0, {2, 5, 3, 4, 4, 0}},
    {OF(overlap), {4, 4}, OVERLAPS, WORK_LEAST, 0, {45, 0, 0, 0, 0, 0}},
    {OF(overlap), {4, 4}, OVERLAPS, LONGEST, 0, {45, 0, 0, 0, 0, 0}},
    {OF(overlap), {4, 3}, OVERLAPS, WORK_LEAST, 0, {44, 0, 0, 0, 0, 0}}, /* 45 too */
    {OF(overlap), {4, 4}, OVERLAPS, LONGEST, 19999, {44, 0, 0, 0, 0, 0}},
    {OF(overlap), {4, 4}, OVERLAPS, WORK_LEAST, 8, {44, 0, 0, 0, 0, 0}},
    {OF(overlap), {3, 0}, OPENED_8, LONGEST, 16384, {44, 0, 0, 0, 0, 0}},
    {OF(overlap), {3, 0}, OPENED_8, WORK_LEAST - 1, 0, {10, 0, 0, 0, 0, 0}},
    {OF(overlap), {4, 4}, OVERLAPS, WORK_LEAST - 1, 0, {10, 0, 0, 0, 0, 0}}, /* 45 too */
    {OF(overlap), {4, 3}, OVERLAPS, WORK_LEAST - 1, 0, {10, 0, 0, 0, 0, 0}}, /* 44 too */
    {OF(overlap), {4, 3}, OVERLAPS, 0, 0, {10, 0, 0, 0, 0, 0}},
    {OF(revised_sheet), {9, 0}, ZEROS_12, WORK_LEAST - 1, 0, {10, 0, 0, 0, 0, 0}}, /* 43 and 44 too */
    {OF(kind_9), {4, 4}, OVERLAPS, WORK_LEAST - 1, 0, {10, 0, 0, 0, 0, 0}},  /* 12 too */
    {OF(kind_9), {4, 4}, OVERLAPS, WORK_LEAST, 0, {12, 0, 0, 0, 0, 0}},
    {OF(kind_9_revised), {7, 7}, {0}, WORK_LEAST, 0, {12, 0, 0, 0, 0, 0}}, /* 43 and 44 too */

    {OF(impossible), {3, 0}, OPENED_8, WORK_LEAST, 0, {2, 2, 1, 7, 1, 0}},
    {OF(impossible), {6, 1}, {4097, 1, 2, 3, 4, 5, 6, 7}, WORK_LEAST, 0, {1, 0, 0, 0, 1, 6}},

    {OF(never_between), {5, 1}, {0, 4097}, WORK_LEAST, 0, {1, 0, 0, 0, 1, 5}},
    {OF(never_between), {1000, 1}, {0, 4097}, WORK_LEAST, 0, {1, 0, 0, 0, 1, 5}},
    {OF(never_between), {6, 1}, {0, 4097}, WORK_LEAST, 0, {44, 0, 0, 0, 0, 0}}, /* though row 6 says nothing */
    {OF(never_between), {7, 1}, {0, 4097}, WORK_LEAST, 0, {44, 0, 0, 0, 0, 0}}, /* 45 too */

    {OF(filled_sides), {4, 12}, FILLED, WORK_LEAST, 0, {2, 3, 1, 8, 12, 0}}, /* the answer so far: row 4 says nothing */
    {OF(filled_sides), {5, 12}, FILLED, WORK_LEAST, 0, {2, 15, 0, 0, 20, 0}},
    {OF(filled_sides), {6, 12}, FILLED, WORK_LEAST, 0, {44, 0, 0, 0, 0, 0}}, /* no equation's row */

    {OF(revised_sheet), {3, 0}, ZEROS_12, WORK_LEAST, 0, {43, 0, 0, 0, 0, 0}},
    {OF(revised_sheet), {9, 0}, ZEROS_12, LONGEST, 0, {43, 0, 0, 0, 0, 0}}, /* 44 too */
    {OF(revised_sheet), {9, 8}, {4096, 4096, 4097, 4097, 4, 5, 6, 7, 4096, 4096, 4096, 4096}, WORK_LEAST, 0,
     {43, 0, 0, 0, 0, 0}}, /* 44 too: the first equation, of the same line, is against the last */
    {OF(revised_sheet), {1000, 4000000000}, {7}, LONGEST, 19999, {43, 0, 0, 0, 0, 0}},

    {OF(no_equation), {2, 0}, {0, 1, 2}, WORK_LEAST, 0, {45, 0, 0, 0, 0, 0}},
    {OF(no_equation), {2, 0}, {0, 1, 1}, WORK_LEAST, 0, {44, 0, 0, 0, 0, 0}},
    {no_equation, 0, {0, 0}, {0}, WORK_LEAST, 0, {45, 0, 0, 0, 0, 0}}, /* no rows */
    {no_equation, 0, {1000, 0}, {0}, WORK_LEAST, 0, {44, 0, 0, 0, 0, 0}},
};

/* Each of them in guard zones, and again, and in read-only pages: all stays. */
static void test_previews(void)
{
    static uint16_t area[LONGEST];
    char name[32];

    for (size_t i = 0; i < COUNT(previews); i++) {
        unsigned long failed = checks_failed;
        memset(area, 0, sizeof area);
        memcpy(area, previews[i].held, sizeof previews[i].held);
        if (previews[i].set != 0)
            area[previews[i].set] = 1;
        for (int again = 0; again < 2; again++)
            refuse(HERE, PREVIEW, previews[i].numbers, previews[i].len, previews[i].job, area, previews[i].work_len, 0,
                   previews[i].told);
        snprintf(name, sizeof name, "preview %zu, read-only", i);
        check_record(HERE, name, preview_locked(previews[i].numbers, previews[i].len, &previews[i].job, area,
                                                previews[i].work_len), previews[i].told);
        if (checks_failed != failed)
            printf("  this was preview %zu\n", i);
    }
}

/* Calls in turn: a job that a never is told of stays, answers as before, and can be stepped. */
static void test_preview_of_never(void)
{
    const lw_record told = {1, 0, 0, 0, 1, 5}, so_far = {2, 2, 1, 1, 1, 0};

    check(find_states(&worked, OF(never_between)) && worked.count == 3, HERE, "%zu states", worked.count);
    for (size_t k = 0; k < AREAS; k++) {
        const state *s = &worked.states[1];
        put_state(&worked, s, k);
        check(s->job.next == 5 && s->job.ties == 1, HERE, "job %u %u", s->job.next, s->job.ties);
        for (int again = 0; again < 2; again++) {
            call(HERE, "of a never", PREVIEW, &worked, k, told, NULL);
            put_rubbish(&lent_answer, ANSWER_LEAST);
            call(HERE, "of a never", ANSWER, &worked, k, so_far, s);
        }
        call(HERE, "of a never", STEP, &worked, k, told, &worked.states[2]);
        call(HERE, "after it", PREVIEW, &worked, k, told, NULL);
        call(HERE, "after it", ANSWER, &worked, k, told, NULL);
    }
}

/* What one table left, lent with another. */
static void test_other_table(void)
{
    static course other;

    /* Another equation in the same row that says the same: accepted. One that says less or more: refused. */
    check(find_states(&worked, TABLE(VARIABLE(2), VARIABLE(2), EQUATION(0, 1), EQUATION(0, 0))) &&
          find_states(&other, TABLE(VARIABLE(2), VARIABLE(2), EQUATION(1, 0), EQUATION(1, 1))), HERE, "refused");
    for (size_t k = 0; k < AREAS; k++)
        for (size_t i = 0; i < other.count; i++) {
            put_state(&other, &other.states[i], k);
            check(lent_state(&worked, k) == &worked.states[i], HERE, "state %zu is not left by both", i);
            try_job(HERE, "of a table that says the same", &worked, k);
        }
    check(find_states(&other, TABLE(VARIABLE(2), VARIABLE(2), EQUATION(0, 0), EQUATION(0, 1))), HERE, "refused");
    for (size_t k = 0; k < AREAS; k++)
        for (size_t i = 0; i < other.count; i++) {
            put_state(&other, &other.states[i], k);
            check((lent_state(&worked, k) != NULL) == (i != 1), HERE, "state %zu is expected otherwise", i);
            try_job(HERE, "of a table with its equations exchanged", &worked, k);
        }
}

/* Refusals, each with those behind it true too. */

static const uint16_t all_zero[LONGEST];

/* Each call with room refuses so; without room in a buffer, that is told instead. */
static void refuse_calls(where at, const uint16_t *numbers, size_t len, lw_job job, const uint16_t *content, lw_record want)
{
    lw_record memory = REFUSED(10);
    for (call_kind which = OPEN; which < CALLS; which++) {
        refuse(at, which, numbers, len, job, content, WORK_LEAST, ANSWER_LEAST, want);
        refuse(at, which, numbers, len, job, content, LONGEST, ANSWER_LEAST + 9, want);
        refuse(at, which, numbers, len, job, content, WORK_LEAST - 1, ANSWER_LEAST, memory);
        refuse(at, which, numbers, len, job, content, 0, ANSWER_LEAST, memory);
    }
    refuse(at, ANSWER, numbers, len, job, content, WORK_LEAST, ANSWER_LEAST - 1, memory);
    refuse(at, ANSWER, numbers, len, job, content, LONGEST, 0, memory);
    refuse(at, ANSWER, numbers, len, job, content, 0, 0, memory);
}

/* The table's refusals come before 43, 44 and 45; the row that is told is the table's. */
static void refuse_table(where at, const uint16_t *numbers, size_t len, uint32_t number, uint32_t row)
{
    lw_record want = {.outcome = number, .row = row};
    refuse_calls(at, numbers, len, (lw_job){7, 4000000000}, NULL, want);
    refuse_calls(at, numbers, len, (lw_job){(uint32_t)len / 4, 0}, all_zero, want);
}

static void test_table_refusals(void)
{
    refuse_too_long(refuse_table);
    refuse_one_by_one(refuse_table);
    refuse_two_at_once(refuse_table);
    refuse_beyond_maximum(refuse_table);
    refuse_table(HERE, TABLE(VARIABLE(1), LINE(0, 0, 5), CUT(0, 1, 0)), 16, 2);
}

static void no_lines(table *t)
{
    for (size_t i = 0; i < t->len; i += 4)
        if (t->numbers[i] == LW_EQUATION)
            t->numbers[i + 3] = 0;
}

/* 43 before 44 and 45: a job that is none, one at its end, and one that would be good without line numbers. */
static void refuse_revised(where at, const uint16_t *numbers, size_t len)
{
    lw_record want = REFUSED(43);
    table t = {.len = len};

    refuse_calls(at, numbers, len, (lw_job){7, 4000000000}, NULL, want);
    memcpy(t.numbers, numbers, len * sizeof *numbers);
    no_lines(&t);
    if (!check(find_states(&worked, ALL(t)), at, "refused"))
        return;
    for (size_t i = 0; i < worked.count; i++)
        refuse_calls(at, numbers, len, worked.states[i].job, area_of(&worked, &worked.states[i]), want);
}

static void test_revised(void)
{
    static table revised, counting;

    for (size_t i = 0; i < REVISED_CASES; i++) {
        bool lines = false;
        make_revised(&revised_cases[i], &revised, &counting);
        for (size_t r = 0; r < revised.len; r += 4)
            lines |= revised.numbers[r] == LW_EQUATION && revised.numbers[r + 3] != 0;
        if (lines)
            refuse_revised(HERE, ALL(revised));
        check(find_states(&worked, ALL(counting)), HERE, "refused");
        run_job(HERE, &worked, i % AREAS);
    }
    refuse_revised(HERE, TABLE(VARIABLE(4), LINE(0, 0, 1)));
    refuse_revised(HERE, TABLE(VARIABLE(4), EQUATION(0, 0), LINE(0, 0, 65535)));
    refuse_revised(HERE, TABLE(FILL(0, 1), FILL(1, 1), EQUATION(0, 1), LINE(0, 0, 256)));
    refuse_revised(HERE, TABLE(VARIABLE(12), CUT(0, 11, 8), MARKER(3, 4), LINE(1, 2, 10), CUT(0, 3, 0), FILL(0, 4),
                               LINE(4, 5, 20), MARKER(12, 4), LINE(1, 7, 10))); /* examples/revised.sheet */

    /* The low bound of a cut is no line number. */
    ACCEPT(TABLE(VARIABLE(2), CUT(0, 1, 1), EQUATION(1, 1)),
           STATES({{0, 0, 0, 2, 0, 0}, {2, 0}, {0, 1}}, {{0, 0, 0, 2, 0, 0}, {3, 0}, {0, 1}}));
}

/* 44 before 45: no equation is left, and the job is none. An answer has no 45. */
static void test_order(void)
{
    static const uint16_t numbers[] = {VARIABLE(2), VARIABLE(2), EQUATION(0, 1)};
    static const uint16_t tied[LONGEST] = {0, 1, 0, 1};
    static uint16_t longer[LONGEST];

    memcpy(longer, tied, sizeof tied);
    longer[WORK_LEAST] = 1;
    for (call_kind which = STEP; which < CALLS; which++) {
        refuse(HERE, which, TABLE(VARIABLE(2)), (lw_job){1, 1}, all_zero, WORK_LEAST, ANSWER_LEAST, REFUSED(44));
        refuse(HERE, which, numbers, 12, (lw_job){3, 1}, tied, WORK_LEAST, ANSWER_LEAST, REFUSED(44));
        refuse(HERE, which, numbers, 12, (lw_job){3, 2}, all_zero, WORK_LEAST, ANSWER_LEAST, REFUSED(44));
        refuse(HERE, which, numbers, 12, (lw_job){4, 2}, tied, WORK_LEAST, ANSWER_LEAST, REFUSED(44));
        refuse(HERE, which, numbers, 12, (lw_job){1000, 2}, tied, WORK_LEAST, ANSWER_LEAST, REFUSED(44));
        refuse(HERE, which, numbers, 12, (lw_job){3, 2}, longer, WORK_LEAST + 1, ANSWER_LEAST, REFUSED(44));
    }
    for (call_kind which = STEP; which <= PREVIEW; which++) {
        refuse(HERE, which, numbers, 12, (lw_job){3, 2}, longer, WORK_LEAST, ANSWER_LEAST, REFUSED(45));
        refuse(HERE, which, numbers, 12, (lw_job){3, 2}, tied, LONGEST, ANSWER_LEAST, REFUSED(45));
        refuse(HERE, which, NULL, 0, (lw_job){0, 0}, all_zero, WORK_LEAST, ANSWER_LEAST, REFUSED(45));
    }
}

/* NULL with length 0 for each buffer that has a length. */
static void test_null(void)
{
    static uint16_t work[WORK_LEAST], answer[ANSWER_LEAST];
    lw_job job = {9, 9};
    lw_record memory = REFUSED(10);

    check_record(HERE, "open, work NULL", lw_job_open(NULL, 0, &job, NULL, 0), memory);
    check_record(HERE, "step, work NULL", lw_job_step(NULL, 0, &job, NULL, 0), memory);
    check_record(HERE, "preview, work NULL", lw_job_preview(NULL, 0, &job, NULL, 0), memory);
    check_record(HERE, "answer, both NULL", lw_job_answer(NULL, 0, &job, NULL, 0, NULL, 0), memory);
    check_record(HERE, "answer, answer NULL", lw_job_answer(NULL, 0, &job, work, WORK_LEAST, NULL, 0), memory);
    check_record(HERE, "step, no job", lw_job_step(NULL, 0, &job, work, WORK_LEAST), REFUSED(44));
    check_record(HERE, "preview, no job", lw_job_preview(NULL, 0, &job, work, WORK_LEAST), REFUSED(44));
    check(job.next == 9 && job.ties == 9, HERE, "a job changed by a refusal");
    check_record(HERE, "open, table NULL", lw_job_open(NULL, 0, &job, work, WORK_LEAST), (lw_record){0});
    check(job.next == 0 && job.ties == 0, HERE, "job %u %u of no rows", job.next, job.ties);
    check_record(HERE, "answer, table NULL", lw_job_answer(NULL, 0, &job, work, WORK_LEAST, answer, ANSWER_LEAST),
                 (lw_record){0});
    check_record(HERE, "preview, table NULL", lw_job_preview(NULL, 0, &job, work, WORK_LEAST), REFUSED(45));
    check_record(HERE, "step, table NULL", lw_job_step(NULL, 0, &job, work, WORK_LEAST), REFUSED(45));
    check(job.next == 0 && job.ties == 0, HERE, "job %u %u of no rows", job.next, job.ties);
}

/* Damaged jobs. */

static void try_next(const course *c, const state *s, size_t k, uint32_t next)
{
    if (next == s->job.next)
        return;
    put_job(next, s->job.ties);
    try_job(HERE, "another next row", c, k);
}

/* Each other row and the next two numbers, of a long table a few; numbers that are no row; and other ties. */
static void damage_numbers(const course *c, const state *s, size_t k)
{
    uint32_t next = s->job.next, ties = s->job.ties, rows = (uint32_t)c->facts.rows, any = (uint32_t)random_number();
    const uint32_t others[] = {next + 1, next - 1, rows, NEVER, one_in(2) ? NEVER - 1 : NEVER + 1, next + 65536,
                               next + 0x80000000, any, UINT32_MAX};
    const uint32_t other_ties[] = {ties + 1, ties - 1, 0, ties + 65536, ties + 0x80000000, any, UINT32_MAX};

    for (uint32_t r = 0; r <= rows + 1; r++)
        if (rows <= 32 || one_in(rows / 8))
            try_next(c, s, k, r);
    for (size_t i = 0; i < COUNT(others); i++)
        if (others[i] > rows + 1 || rows > 32)
            try_next(c, s, k, others[i]);
    for (size_t i = 0; i < COUNT(other_ties); i++)
        if (other_ties[i] != ties) {
            put_job(next, other_ties[i]);
            try_job(HERE, "other ties", c, k);
        }
    put_job(next, ties);
}

/* One number of the area: one behind the last bit that is not 0, or a place with another holder. */
static void damage_places(const course *c, const state *s, size_t k)
{
    size_t bits = c->facts.bits, some = bits + below(lengths[k] - bits);
    const size_t behind[] = {bits, 4096, lengths[k] - 1, some};
    static const uint16_t marks[] = {1, FIXED, FIXED + 1, 65535};

    for (size_t i = 0; i < COUNT(behind); i++) {
        poke(k, behind[i], marks[below(COUNT(marks))]);
        try_job(HERE, "a number behind the last bit", c, k);
        poke(k, behind[i], 0);
    }
    for (size_t n = 0; n < 4 && bits != 0; n++) {
        size_t i = n == 0 ? bits - 1 : below(bits);
        const size_t others[] = {0, i, i + 1, i - 1, FIXED, FIXED + 1, FIXED + 2, 65535, s->held[i] + 2U, below(bits)};
        poke(k, i, (uint16_t)others[below(COUNT(others))]);
        try_job(HERE, "a place with another holder", c, k);
        poke(k, i, s->held[i]);
    }
}

/* Each number of the area that is this one made another. */
static void hold_otherwise(const course *c, const state *s, size_t k, uint16_t old, uint16_t new)
{
    for (size_t i = 0; i < c->facts.bits; i++)
        if (s->held[i] == old)
            poke(k, i, new);
}

/* Two groups made one, in the area alone and with a tie more. */
static void damage_two_groups(const course *c, const state *s, size_t k)
{
    uint16_t one = s->held[below(c->facts.bits)], other = s->held[below(c->facts.bits)];

    if (one == other || (one >= FIXED && other >= FIXED))
        return;
    hold_otherwise(c, s, k, other < FIXED && (one >= FIXED || one < other) ? other : one,
                   other < FIXED && (one >= FIXED || one < other) ? one : other);
    try_job(HERE, "two groups made one", c, k);
    put_job(s->job.next, s->job.ties + 1);
    try_job(HERE, "two groups made one, and a tie more", c, k);
    put_state(c, s, k);
}

/* The right groups with another bit as holder; a place left out of its group, in the area alone and with a tie less. */
static void damage_group(const course *c, const state *s, size_t k, size_t i)
{
    hold_otherwise(c, s, k, s->held[i], (uint16_t)i);
    try_job(HERE, "a group held by another bit", c, k);
    put_state(c, s, k);

    poke(k, i, (uint16_t)i);
    try_job(HERE, "a place left out of its group", c, k);
    put_job(s->job.next, s->job.ties - 1);
    try_job(HERE, "a place left out of its group, and a tie less", c, k);
    put_state(c, s, k);
}

static void damage_groups(const course *c, const state *s, size_t k)
{
    size_t bits = c->facts.bits, from = bits == 0 ? 0 : below(bits), i = 0;

    while (i < bits && s->held[(from + i) % bits] == (from + i) % bits)
        i++;
    if (i == bits)
        return; /* each place holds itself */
    damage_group(c, s, k, (from + i) % bits);
    damage_two_groups(c, s, k);
    for (i = 0; i < bits; i++)
        if (s->held[i] >= FIXED)
            poke(k, i, (uint16_t)(s->held[i] ^ 1));
    if (lent_state(c, k) == NULL)
        try_job(HERE, "the fixed bits exchanged", c, k);
    put_state(c, s, k);
    hold_otherwise(c, s, k, FIXED + 1, FIXED);
    if (lent_state(c, k) == NULL)
        try_job(HERE, "both fixed bits 4096", c, k);
    put_state(c, s, k);
}

/* This state's area with another's job, or with its ties; and the other's next row is among those above. */
static void damage_states(const course *c, const state *s, size_t k)
{
    for (size_t i = 0; i < c->count; i++) {
        const lw_job other = c->states[i].job;
        if (other.ties == s->job.ties || (c->count > 16 && !one_in(8)))
            continue;
        put_job(other.next, other.ties);
        try_job(HERE, "another state's job", c, k);
        put_job(s->job.next, other.ties);
        try_job(HERE, "another state's ties", c, k);
    }
    put_job(s->job.next, s->job.ties);
}

static void damage_job(const course *c, const state *s, size_t k)
{
    put_state(c, s, k);
    damage_numbers(c, s, k);
    damage_places(c, s, k);
    damage_groups(c, s, k);
    damage_states(c, s, k);
}

/* Random tables. */

/* What occurs in them. */
enum {
    ENDS_NEVER, NEVER_AT_FIRST, NEVER_TRACE, NEVER_BEFORE, NEXT_ALONE, SIX_STATES, SKIPS_ROWS, BEHIND_NEXT, NO_BITS, HOLDS_BOTH,
    OCCURRENCES
};

static const char *const occurrence_names[OCCURRENCES] = {
    "a never at the end", "a never at the first step", "a never whose own pairs would be ties",
    "a never before the last equation", "two states that differ in the next row alone", "six states or more",
    "a next row that is not the row behind", "a variable behind the next row", "no variable bits",
    "both fixed bits and a tied bit in one area",
};

static void note_course(const course *c, uint32_t row_ties, bool has[OCCURRENCES])
{
    const state *last = &c->states[c->count - 1];

    has[ENDS_NEVER] = last->job.next == NEVER;
    has[NEVER_AT_FIRST] = has[ENDS_NEVER] && c->count == 2;
    has[NEVER_TRACE] = has[ENDS_NEVER] && row_ties > 1;
    has[NEVER_BEFORE] = has[ENDS_NEVER] && equation_from(c, last->record.row + 1) != c->facts.rows;
    has[SIX_STATES] = c->count >= 6;
    has[NO_BITS] = c->facts.bits == 0;
    for (const state *s = c->states; s < last; s++) {
        bool fixed[2] = {false}, tied = false;
        has[NEXT_ALONE] |= s[1].job.next != NEVER && memcmp(s->held, s[1].held, c->facts.bits * sizeof *s->held) == 0;
        has[SKIPS_ROWS] |= s[1].job.next != NEVER && s[1].job.next > s->job.next + 1;
        for (size_t r = s->job.next; r < c->facts.rows; r++)
            has[BEHIND_NEXT] |= c->t.numbers[4 * r] == LW_VARIABLE;
        for (size_t i = 0; i < c->facts.bits; i++)
            if (s[1].held[i] >= FIXED)
                fixed[s[1].held[i] - FIXED] = true;
            else
                tied |= s[1].held[i] != i;
        has[HOLDS_BOTH] |= fixed[0] && fixed[1] && tied;
    }
}

/* A preview of a state tells this, over each work area, in guard zones and in read-only pages. */
static void check_preview(const char *name, const course *c, const state *s, lw_record want)
{
    for (size_t k = 0; k < AREAS; k++) {
        put_state(c, s, k);
        call(HERE, name, PREVIEW, c, k, want, NULL);
        call_locked(HERE, c, k, want);
    }
}

/*
  Each state is that of the enumeration too, and so is what a preview tells one
  state before. Gives the ties of the equation that leaves no pattern.
*/
static uint32_t check_states(const char *name, const course *c)
{
    static enumeration found;
    uint32_t row_ties = 0;
    const state *last = c->states + c->count - 1;

    for (const state *s = c->states; s <= last; s++) {
        enumerate_to(c->t.numbers, &c->facts, s->job.next, &found);
        if (s != c->states)
            check_preview(name, c, s - 1, found.record);
        if (s == last)
            check_preview(name, c, s, found.record.outcome == 1 ? found.record : REFUSED(45));
        bool same = same_record(found.record, s->record);
        if (found.record.outcome == 1) { /* the equations before it */
            row_ties = found.row_ties;
            enumerate_to(c->t.numbers, &c->facts, s->record.row, &found);
        } else {
            same = same && memcmp(found.answer, s->answer, 6 * found.record.pieces * sizeof *found.answer) == 0;
        }
        check(same && found.record.ties == s->job.ties &&
              memcmp(found.held, s->held, c->facts.bits * sizeof *s->held) == 0, HERE,
              "%s, job %u %u: plain solver and enumeration differ", name, s->job.next, s->job.ties);
        check_solve(HERE, c, s);
    }
    return row_ties;
}

/* Two equations exchange their rows: what the one table leaves is lent with the other. */
static void test_exchanged(const course *c, size_t k)
{
    static course other;
    size_t a = some_row(&(draft){.t = c->t, .rows = c->facts.rows}, LW_EQUATION, LW_EQUATION);
    size_t b = a == NONE ? NONE : equation_from(c, a + 1);
    table t = c->t;

    if (b == NONE || b >= c->facts.rows)
        return;
    memcpy(t.numbers + 4 * a, c->t.numbers + 4 * b, 4 * sizeof *t.numbers);
    memcpy(t.numbers + 4 * b, c->t.numbers + 4 * a, 4 * sizeof *t.numbers);
    if (!find_states(&other, ALL(t)))
        return; /* a row named there is behind */
    check_states("equations exchanged", &other);
    for (size_t i = 0; i < c->count; i++) {
        put_state(c, &c->states[i], k);
        try_job(HERE, "equations exchanged", &other, k);
    }
}

/* An equation gets a line number: every state is refused 43 then, and so is the opening. */
static void test_numbered(const course *c, size_t k)
{
    static course other;
    size_t r = equation_from(c, 0);

    if (r >= c->facts.rows)
        return;
    for (size_t i = below(4); i != 0; i--)
        r = equation_from(c, r + 1) < c->facts.rows ? equation_from(c, r + 1) : r;
    other.t = c->t;
    other.facts = c->facts;
    other.t.numbers[4 * r + 3] = (uint16_t)(one_in(2) ? 1 : 1 + below(65535));
    for (size_t i = 0; i < c->count; i++)
        for (call_kind which = OPEN; which < CALLS; which++) {
            put_state(c, &c->states[i], k);
            if (one_in(2))
                put_job((uint32_t)c->facts.rows, c->states[i].job.ties + 1);
            call(HERE, "with a line number", which, &other, k, REFUSED(43), NULL);
        }
}

static void test_small(unsigned long tables)
{
    static sketch s;
    static course c;
    unsigned long occurred[OCCURRENCES] = {0}, states = 0;
    char name[64];

    found_good = found_bad = 0;
    for (unsigned long i = 0; i < tables; i++) {
        bool has[OCCURRENCES] = {false};
        make_small(&s, one_in(2) ? WITH_SHORT_SIDES : one_in(2) ? WITH_MARKERS : EQUAL_SIDES);
        snprintf(name, sizeof name, "small table %lu", i);
        if (!check(find_states(&c, ALL(s.d.t)) && c.facts.bits <= ENUM_BITS, HERE, "%s: refused", name))
            continue;
        note_course(&c, check_states(name, &c), has);
        for (size_t k = 0; k < AREAS; k++)
            run_job(HERE, &c, k);
        for (size_t n = 0; n < c.count; n++)
            damage_job(&c, &c.states[n], i % AREAS);
        if (i % 4 == 0)
            test_exchanged(&c, i / 4 % AREAS);
        if (i % 4 == 1)
            test_numbered(&c, i / 4 % AREAS);
        states += c.count;
        for (int o = 0; o < OCCURRENCES; o++)
            occurred[o] += has[o];
    }
    printf("%lu small tables, %lu states; of the jobs tried %lu good, %lu refused 44\n", tables, states, found_good,
           found_bad);
    check(found_good > states && found_bad > 10 * states, HERE, "damaged jobs are rare");
    for (int o = 0; o < OCCURRENCES; o++) {
        printf("    %-50s %lu\n", occurrence_names[o], occurred[o]);
        check(occurred[o] != 0, HERE, "no small table has this: %s", occurrence_names[o]);
    }
}

/* Large tables. */

/* A large job on its way over one work area, with few damages at some of its states. */
static void run_large(where at, const course *c, size_t k)
{
    run_job(at, c, k);
    for (size_t i = 0; i < 3; i++)
        damage_job(c, &c->states[below(c->count)], k);
}

static void test_large(void)
{
    static plan p;
    static course c;
    unsigned long full = 0, never = 0, always = 0, states = 0, most = 0;

    found_good = found_bad = 0;
    for (unsigned long i = 0; i < LARGE_TABLES; i++) {
        make_large(&p);
        no_lines(&p.d.t);
        if (!check(find_states(&c, ALL(p.d.t)), HERE, "large table %lu: refused", i))
            continue;
        run_large(HERE, &c, i % AREAS);
        check_solve(HERE, &c, &c.states[c.count - 1]);
        full += c.facts.bits == 4096;
        never += c.states[c.count - 1].job.next == NEVER;
        always += c.states[c.count - 1].record.outcome == 0;
        most += c.count == 65;
        states += c.count;
    }
    printf("%d large tables, %lu states: of 4096 variable bits %lu, never %lu, always %lu, of 64 equations %lu;\n"
           "    of the jobs tried %lu good, %lu refused 44\n",
           LARGE_TABLES, states, full, never, always, most, found_good, found_bad);
    check(full != 0 && never != 0 && always != 0 && most != 0 && found_good != 0 && found_bad > 100, HERE,
          "some kind of large table does not occur");
}

/* 4096 variable bits: all fixed, and all tied to place 0, whose number is that behind the last bit too. */
static void test_limits(void)
{
    static course c;
    table t;

    make_fixed_bits(&t);
    add(&t, CUT(15, 0, 0));
    add(&t, EQUATION(0, 20));
    check(find_states(&c, ALL(t)) && c.count == 6, HERE, "%zu states", c.count);
    for (size_t i = 0; i < 4096; i++)
        check(c.states[4].held[i] == FIXED + i % 2, HERE, "place %zu is held by %u", i, c.states[4].held[i]);
    check(c.states[4].job.ties == 4096 && c.states[5].record.row == 21, HERE, "not the ties of the fixed bits");
    for (size_t k = 0; k < AREAS; k++)
        run_large(HERE, &c, k);

    t.len = 0;
    for (size_t v = 0; v < 64; v++)
        add(&t, VARIABLE(64));
    add(&t, CUT(0, 62, 0));
    add(&t, CUT(0, 63, 63));
    add(&t, JOIN(64, 65));
    add(&t, EQUATION(0, 66));
    for (size_t v = 0; v < 63; v++)
        add(&t, EQUATION(v + 1, v));
    check(find_states(&c, ALL(t)) && c.count == 65, HERE, "%zu states", c.count);
    for (size_t i = 0; i < 4096; i++)
        check(c.states[64].held[i] == 0 && c.states[1].held[i] == (i < 64 ? 0 : i), HERE, "place %zu is held otherwise", i);
    check(c.states[64].job.ties == 4095, HERE, "ties %u", c.states[64].job.ties);
    for (size_t k = 0; k < AREAS; k++)
        run_large(HERE, &c, k);
}

const test_list tests = {
    .name = "job", .inputs = 20000,
    .groups = {
        {.name = "the header's constants", .run = test_constants},
        {.name = "jobs worked by hand", .run = test_worked},
        {.name = "previews worked by hand", .run = test_previews},
        {.name = "a never told before", .run = test_preview_of_never},
        {.name = "what another table left", .run = test_other_table},
        {.name = "refusals 10, 11 to 17, 40", .run = test_table_refusals},
        {.name = "refusal 43", .run = test_revised},
        {.name = "refusals 44 and 45", .run = test_order},
        {.name = "NULL with length 0", .run = test_null},
        {.name = "small tables against all patterns", .run_random = test_small},
        {.name = "large tables against the plain solver", .run = test_large},
        {.name = "largest jobs", .run = test_limits},
    },
};
