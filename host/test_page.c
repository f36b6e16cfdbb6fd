/*
  test_page.c -- tests of lw_page

  Every byte of every page is compared with that of the plain page maker, which
  prints by snprintf; some pages are written down here. The answer table is lent
  between guard zones, and must be as it was afterwards.
*/

#include "guard.h"
#include "plain_page.h"
#include "random_numbers.h"
#include "test.h"

enum { ROWS = 4096, LINE = LW_PAGE_BYTES / LW_PAGE_LINES };

#define NAMES "  variable      kind     width     fresh\n"
#define BLANK "                                        \n"

static uint16_t numbers[6 * ROWS + 6];

/* The lines of a page that are written down here; blank lines follow. */
static void check_lines(where at, lw_page_bytes page, const char *lines)
{
    size_t len = strlen(lines), same = 0;
    while (same < LW_PAGE_BYTES && page.bytes[same] == (uint8_t)(same < len ? lines[same] : BLANK[same % LINE]))
        same++;
    check(same == LW_PAGE_BYTES, at, "byte %zu of the page is %u", same, page.bytes[same % LW_PAGE_BYTES]);
}

/* A page is the plain one, and the table stays as it was. */
static void check_page(where at, lw_record record, const uint16_t *answer, size_t len, size_t number)
{
    lw_page_bytes want = plain_page(record, answer, len, number), got;
    guarded table = guard(answer, len * sizeof *answer);

    got = lw_page(record, guarded_buffer(&table), len, number);
    size_t i = 0;
    while (i < LW_PAGE_BYTES && got.bytes[i] == want.bytes[i])
        i++;
    check(i == LW_PAGE_BYTES, at, "outcome %u, pieces %u, %zu numbers, page %zu: byte %zu is %u, expected %u",
          record.outcome, record.pieces, len, number, i, got.bytes[i % LW_PAGE_BYTES], want.bytes[i % LW_PAGE_BYTES]);
    guard_check(&table, at, "answer table");
}

/* Numbers around the last page, and great ones. */
static void check_numbers(where at, lw_record record, const uint16_t *answer, size_t len)
{
    static const size_t great[] = {
        (size_t)1 << 32, ((size_t)1 << 32) + 1, (size_t)1 << 63, SIZE_MAX, SIZE_MAX - 1,
        SIZE_MAX / 59 - 1, SIZE_MAX / 59, SIZE_MAX / 59 + 1, SIZE_MAX / 60, SIZE_MAX / 41, SIZE_MAX / 6, SIZE_MAX / 4,
    };

    for (size_t k = 0; k < plain_page_count(record, len) + 2; k++)
        check_page(at, record, answer, len, k);
    for (size_t i = 0; i < COUNT(great); i++)
        check_page(at, record, answer, len, great[i]);
}

static void test_constants(void)
{
    static const constant constants[] = {
        CONSTANT(LW_PAGE_BYTES, 2460), CONSTANT(LW_PAGE_LINES, 60), CONSTANT(LW_PAGE_PIECES, 59),
    };

    check_constants(HERE, constants, COUNT(constants));
    check(sizeof(lw_page_bytes) == 2460, HERE, "a page has %zu bytes", sizeof(lw_page_bytes));
}

/* Pages written down. */
static void test_written(void)
{
    static const uint16_t answer[] = {
        0, 2, 1, 0, 0, 7, 0, 2, 2, 1, 0, 6, 0, 2, 2, 1, 0, 6, 0, 2, 2, 1, 0, 6, 0, 2, 1, 2, 0, 0,
    };
    static const uint16_t greatest[] = { /* home and high are not printed, whatever they are */
        65535, 65535, 65535, 65535, 65535, 65535, 0, 9, 10, 99, 7, 8,
        100, 999, 1000, 9999, 0, 0, 10000, 1, 0, 7, 5, 65535,
    };
    lw_record solved = {.outcome = LW_SOLVED, .pieces = 5, .fresh = 3, .free = 4, .ties = 4};

    check_lines(HERE, lw_page(solved, answer, 30, 0),
                NAMES
                "         0         2         1         0\n"
                "         0         2         2         1\n"
                "         0         2         2         1\n"
                "         0         2         2         1\n"
                "         0         2         1         2\n");
    check_lines(HERE, lw_page(solved, answer, 30, 1), "");
    check_lines(HERE, lw_page(solved, answer, 11, 0), NAMES "         0         2         1         0\n");
    check_lines(HERE, lw_page(solved, NULL, 0, 0), NAMES);
    check_lines(HERE, lw_page(solved, NULL, 0, 1), "");
    check_lines(HERE, lw_page((lw_record){.outcome = LW_SOLVED}, answer, 30, 0), NAMES);
    check_lines(HERE, lw_page((lw_record){.outcome = LW_SOLVED, .pieces = 4}, greatest, 24, 0),
                NAMES
                "     65535     65535     65535     65535\n"
                "         0         9        10        99\n"
                "       100       999      1000      9999\n"
                "     10000         1         0         7\n");
    check_lines(HERE, lw_page((lw_record){.outcome = LW_NEVER, .row = 6}, answer, 30, 0),
                NAMES "         1                              \n");
    check_lines(HERE, lw_page((lw_record){.outcome = 22, .row = 3}, NULL, 0, 0),
                NAMES "        22                              \n");
    check_lines(HERE, lw_page((lw_record){.outcome = 4294967295}, NULL, 0, 0),
                NAMES "4294967295                              \n");
    check_lines(HERE, lw_page((lw_record){.outcome = 22, .pieces = 4096}, answer, 30, 1), "");
}

/* Each number of pieces at the edge of a page, with as many rows lent, fewer and more, also not whole ones. */
static void test_pieces(void)
{
    static const uint32_t pieces[] = {0, 1, 58, 59, 60, 117, 118, 119, 177, 178, ROWS};

    for (size_t i = 0; i < COUNT(pieces); i++) {
        lw_record record = {.outcome = LW_SOLVED, .pieces = pieces[i], .fresh = 1, .free = 1, .ties = 1, .row = 1};
        for (size_t more = 0; more < 6; more++) {
            check_numbers(HERE, record, numbers, 6 * pieces[i] + more);
            if (pieces[i] != 0)
                check_numbers(HERE, record, numbers, 6 * pieces[i] - 1 - more);
        }
        for (size_t j = 0; j < COUNT(pieces); j++)
            check_numbers(HERE, record, numbers, 6 * pieces[j]);
    }
}

/* A page is the same whatever home and high are. */
static void test_homes(void)
{
    static uint16_t other[COUNT(numbers)];
    lw_record record = {.outcome = LW_SOLVED, .pieces = ROWS};

    for (size_t n = 0; n < COUNT(numbers); n++)
        other[n] = (uint16_t)(n % 6 < 4 ? numbers[n] : random_number());
    for (size_t k = 0; k < plain_page_count(record, COUNT(numbers)); k++) {
        lw_page_bytes a = lw_page(record, numbers, COUNT(numbers), k), b = lw_page(record, other, COUNT(numbers), k);
        check(memcmp(&a, &b, sizeof a) == 0, HERE, "page %zu is another by home or high", k);
    }
}

/* Outcomes, whether one of a call or not; the other fields and the table do not matter. */
static void test_outcomes(void)
{
    static const uint32_t outcomes[] = {
        0, 1, 2, 3, 9, 10, 22, 99, 100, 65535, 65536, 999999999, 1000000000, 2147483648, 4294967294, 4294967295,
    };
    static const uint32_t fields[] = {0, 1, 60, 4096, 4294967295};

    for (size_t i = 0; i < COUNT(outcomes); i++)
        for (size_t j = 0; j < COUNT(fields); j++) {
            uint32_t n = fields[j];
            lw_record record = {outcomes[i], n, n, n, n, n};
            check_numbers(HERE, record, numbers, 0);
            check_numbers(HERE, record, numbers, 300);
        }
}

/* NULL with length 0. */
static void test_null(void)
{
    for (uint32_t outcome = 0; outcome < 4; outcome++)
        for (uint32_t pieces = 0; pieces < 120; pieces += 59) {
            lw_record record = {.outcome = outcome, .pieces = pieces};
            for (size_t k = 0; k < 3; k++) {
                lw_page_bytes want = plain_page(record, NULL, 0, k), got = lw_page(record, NULL, 0, k);
                check(memcmp(&got, &want, sizeof got) == 0, HERE, "outcome %u, pieces %u, page %zu", outcome, pieces, k);
            }
        }
}

static uint32_t random_field(void)
{
    return (uint32_t)(one_in(2) ? below(200) : random_number());
}

static void test_random(unsigned long inputs)
{
    static uint16_t answer[6 * 300];

    for (unsigned long i = 0; i < inputs; i++) {
        size_t len = below(COUNT(answer) + 1);
        lw_record record = {
            one_in(4) ? random_field() : 2, random_field(), random_field(), random_field(), random_field(), random_field(),
        };
        for (size_t n = 0; n < len; n++)
            answer[n] = (uint16_t)(one_in(2) ? below(1100) : random_number());
        check_page(HERE, record, answer, len, one_in(8) ? (size_t)random_number() : below(8));
    }
}

static void test_all(void (*run)(void))
{
    for (size_t n = 0; n < COUNT(numbers); n++)
        numbers[n] = (uint16_t)random_number();
    run();
}

static void all_pieces(void)
{
    test_all(test_pieces);
}

static void all_homes(void)
{
    test_all(test_homes);
}

static void all_outcomes(void)
{
    test_all(test_outcomes);
}

const test_list tests = {
    .name = "page", .inputs = 20000,
    .groups = {
        {.name = "the header's constants", .run = test_constants},
        {.name = "pages written down", .run = test_written},
        {.name = "pieces at the edges of pages", .run = all_pieces},
        {.name = "home and high", .run = all_homes},
        {.name = "outcomes", .run = all_outcomes},
        {.name = "NULL with length 0", .run = test_null},
        {.name = "random records and tables", .run_random = test_random},
    },
};
