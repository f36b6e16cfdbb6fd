/*
  test_wrapped.h -- calls of the library that yield something else (ld's --wrap), and
  what the desk tells of it on standard error
*/

#ifndef TEST_WRAPPED_H
#define TEST_WRAPPED_H

#include <stdbool.h>
#include <stdint.h>

extern unsigned long solves, by_pieces;    /* calls of lw_solve and lw_solve_pieces, and of the second alone */
extern unsigned long lie_at;               /* a solve lies at this call of both, counted from 1; 0 is never */
extern bool lie_pattern, lie_preview;      /* lw_make_pattern, lw_job_preview */
extern bool lie_value, lie_zeros;          /* lw_value: a bit at its next call; all bits 0 at each */
extern uint32_t lie_outcome, lie_free;     /* lw_compare_tables, where it says the same; added by lw_compare_recordings */

/* From now on standard error is kept in a file. */
void keep_told(void);

/* Whether a lie was found out: status 3, nothing printed, and since the last call one line told, of an internal error. */
bool found_out(int status, const char *print);

#endif /* TEST_WRAPPED_H */
