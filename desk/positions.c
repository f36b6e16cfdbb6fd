/* positions.c -- positions: where the layout of a sheet fits in a run of words */

#include "desk.h"

static sheet s;

static int run(const arguments *given)
{
    static uint16_t words[LW_MAX_WORDS + 1];
    static uint32_t list[LW_MAX_WORDS];
    size_t len = 0;
    lw_record found;
    int status = load(given->word[0], &s);

    if (status == YES)
        status = load_words(given->word[1], given->value[BIG] != NULL, LW_MAX_WORDS, words, &len);
    if (status == YES && s.solved.outcome > LW_SOLVED)
        status = tell_refusal(s.name, s.solved);
    if (status != YES)
        return status;
    found = lw_marker_positions(s.table, ROW * s.rows, words, len, list, LW_MAX_WORDS);
    if (found.outcome != LW_ACCEPTED)
        return tell_refusal(found.outcome == LW_REFUSED_RUN ? given->word[1] : s.name, found);
    for (uint32_t i = 0; i < found.pieces; i++)
        put("%" PRIu32 "\n", list[i]);
    return found.pieces == 0 ? NO : YES;
}

const command positions_command = {
    .name = "positions", .synopsis = "[--big] SHEET RUN", .options = 1U << BIG, .least = 2, .most = 2, .run = run,
    .help = "Prints each start, from 0, at which the words of the run meet the sheet, whose\n"
            "variables all have 16 bits. RUN is a file of 16-bit words, low byte first, or with\n"
            "--big high byte first.\n"
            "Exit status: 0 if there is one, 1 if there is none, 2 if the sheet or the run is refused.\n"};
