// test_header.cc -- the header from C++
//
// It comes first and twice, so that it needs no other and may be included again.
// The calls have the types of the interface, and each of them is made, on nothing.

#include "linkwords.h"
#include "linkwords.h"

#include <cstdio>
#include <type_traits>

// The interface: a buffer is a pointer and its length.
#define LENT(type) const type *, size_t
#define OUT(type)  type *, size_t
#define INTERFACE(call, result, ...) \
    static_assert(std::is_same<decltype(call), result(__VA_ARGS__)>::value, "the type of " #call)

INTERFACE(lw_value, lw_record, LENT(uint16_t), size_t, LENT(uint8_t), OUT(uint8_t));
INTERFACE(lw_normal_form, lw_record, LENT(uint16_t), size_t, OUT(uint16_t));
INTERFACE(lw_read_sheet, lw_record, LENT(uint8_t), OUT(uint16_t));
INTERFACE(lw_solve, lw_record, LENT(uint16_t), OUT(uint16_t), OUT(uint16_t));
INTERFACE(lw_solve_pieces, lw_record, LENT(uint16_t), OUT(uint16_t), OUT(uint16_t));
INTERFACE(lw_right_side, lw_part, LENT(uint16_t), size_t, size_t);
INTERFACE(lw_make_pattern, lw_record, LENT(uint16_t), LENT(uint16_t), LENT(uint8_t), OUT(uint8_t), OUT(uint16_t));
INTERFACE(lw_marker_positions, lw_record, LENT(uint16_t), LENT(uint16_t), OUT(uint32_t));
INTERFACE(lw_compare_recordings, lw_record, LENT(uint16_t), LENT(uint16_t), LENT(uint16_t));
INTERFACE(lw_compare_tables, lw_record, LENT(uint16_t), LENT(uint16_t), OUT(uint16_t));
INTERFACE(lw_page, lw_page_bytes, lw_record, LENT(uint16_t), size_t);
INTERFACE(lw_job_open, lw_record, LENT(uint16_t), lw_job *, OUT(uint16_t));
INTERFACE(lw_job_step, lw_record, LENT(uint16_t), lw_job *, OUT(uint16_t));
INTERFACE(lw_job_preview, lw_record, LENT(uint16_t), const lw_job *, LENT(uint16_t));
INTERFACE(lw_job_answer, lw_record, LENT(uint16_t), const lw_job *, LENT(uint16_t), OUT(uint16_t));
INTERFACE(lw_value_rows, lw_record, LENT(lw_row), size_t, LENT(uint8_t), OUT(uint8_t));
INTERFACE(lw_normal_form_rows, lw_record, LENT(lw_row), size_t, OUT(uint16_t));
INTERFACE(lw_solve_rows, lw_record, LENT(lw_row), OUT(uint16_t), OUT(uint16_t));

static int made, failed;

static void check(const char *call, size_t got, size_t want)
{
    made++;
    if (got != want) {
        std::printf("%s gives %zu, expected %zu\n", call, got, want);
        failed++;
    }
}

#define NOTHING nullptr, 0

int main()
{
    check("lw_value", lw_value(NOTHING, 0, NOTHING, NOTHING).outcome, LW_REFUSED_ROW);
    check("lw_normal_form", lw_normal_form(NOTHING, 0, NOTHING).outcome, LW_REFUSED_ROW);
    check("lw_read_sheet", lw_read_sheet(NOTHING, NOTHING).outcome, LW_REFUSED_NAMES);
    check("lw_solve", lw_solve(NOTHING, NOTHING, NOTHING).outcome, LW_REFUSED_MEMORY);
    check("lw_solve_pieces", lw_solve_pieces(NOTHING, NOTHING, NOTHING).outcome, LW_REFUSED_MEMORY);
    check("lw_right_side", lw_right_side(NOTHING, 0, 0).len, 0);
    check("lw_make_pattern", lw_make_pattern(NOTHING, NOTHING, NOTHING, NOTHING, NOTHING).outcome, LW_REFUSED_MEMORY);
    check("lw_marker_positions", lw_marker_positions(NOTHING, NOTHING, NOTHING).outcome, LW_REFUSED_WINDOW);
    check("lw_compare_recordings", lw_compare_recordings(NOTHING, NOTHING, NOTHING).outcome, LW_REFUSED_RECORDING);
    check("lw_compare_tables", lw_compare_tables(NOTHING, NOTHING, NOTHING).outcome, LW_REFUSED_MEMORY);
    check("lw_page", lw_page(lw_record(), NOTHING, 0).bytes[2], 'v');
    lw_job job = {0, 0};
    check("lw_job_open", lw_job_open(NOTHING, &job, NOTHING).outcome, LW_REFUSED_MEMORY);
    check("lw_job_step", lw_job_step(NOTHING, &job, NOTHING).outcome, LW_REFUSED_MEMORY);
    check("lw_job_preview", lw_job_preview(NOTHING, &job, NOTHING).outcome, LW_REFUSED_MEMORY);
    check("lw_job_answer", lw_job_answer(NOTHING, &job, NOTHING, NOTHING).outcome, LW_REFUSED_MEMORY);
    check("lw_value_rows", lw_value_rows(NOTHING, 0, NOTHING, NOTHING).outcome, LW_REFUSED_ROW);
    check("lw_normal_form_rows", lw_normal_form_rows(NOTHING, 0, NOTHING).outcome, LW_REFUSED_ROW);
    check("lw_solve_rows", lw_solve_rows(NOTHING, NOTHING, NOTHING).outcome, LW_REFUSED_MEMORY);
    if (failed != 0) {
        std::printf("header from C++: %d of %d calls FAILED\n", failed, made);
        return 1;
    }
    std::printf("header from C++: %d calls made\n", made);
    return 0;
}
