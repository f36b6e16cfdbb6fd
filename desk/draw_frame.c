/* draw_frame.c -- what every picture has: background, style, heading, record */

#include "draw.h"

static const char textures[] =
    "<defs>\n"
    "<pattern id=\"stripes\" width=\"7\" height=\"7\" patternUnits=\"userSpaceOnUse\""
    " patternTransform=\"rotate(45)\">\n"
    "<rect width=\"3\" height=\"7\" fill-opacity=\"0.4\"/></pattern>\n"
    "<pattern id=\"dots\" width=\"8\" height=\"8\" patternUnits=\"userSpaceOnUse\">\n"
    "<circle cx=\"4\" cy=\"4\" r=\"2\" fill-opacity=\"0.5\"/></pattern>\n"
    "<pattern id=\"bars\" width=\"8\" height=\"7\" patternUnits=\"userSpaceOnUse\">\n"
    "<rect width=\"8\" height=\"3\" fill-opacity=\"0.4\"/></pattern>\n"
    "</defs>\n";

static const char style[] =
    "<style>\n"
    "text { font-family: Helvetica, Arial, 'DejaVu Sans', sans-serif; fill: #222 }\n"
    ".head { font-size: 20px; font-weight: bold }\n"
    ".power { font-size: 13px }\n"
    ".record { font-size: 12px; fill: #555 }\n"
    ".note { font-size: 13px }\n"
    ".name { font-size: 14px; font-weight: bold; text-anchor: end }\n"
    ".side { font-size: 11px; fill: #555; text-anchor: end }\n"
    ".bit { font-size: 10px; fill: #555; text-anchor: middle }\n"
    ".value { font-size: 16px; text-anchor: middle }\n"
    ".number { font-size: 13px; font-weight: bold; text-anchor: middle }\n"
    ".long { font-size: 10px }\n"
    ".box { stroke: #333 }\n"
    ".cells { stroke: #333; stroke-opacity: 0.35 }\n"
    ".badge { fill: #fff; stroke: #333 }\n"
    ".again { stroke-dasharray: 3 3 }\n"
    ".cross { stroke: #fff; stroke-width: 3; stroke-linecap: round }\n"
    "</style>\n";

void begin_text(const char *class, unsigned x, unsigned y)
{
    put("<text class=\"%s\" x=\"%u\" y=\"%u\">", class, x, y);
}

void draw_note(unsigned y, const char *note)
{
    begin_text("note", MARGIN, y);
    put("%s</text>\n", note);
}

void draw_box(unsigned left, unsigned right, unsigned y, const char *fill)
{
    put("<rect class=\"box\" x=\"%u\" y=\"%u\" width=\"%u\" height=\"%u\" rx=\"4\" fill=\"%s\"/>\n", left, y,
           right - left, BOX, fill);
}

/* What a picture says first. A power is raised where it is drawn. */
static void print_heading(lw_record r, bool drawn)
{
    if (r.outcome == LW_ALWAYS)
        put("Always: every pattern meets the table");
    else if (r.outcome == LW_NEVER)
        put("Never: no pattern meets the table");
    else if (r.outcome == LW_REFUSED_SHEET || r.outcome == LW_REFUSED_NAMES)
        put("Refused with %" PRIu32, r.outcome);
    else if (r.outcome != LW_SOLVED)
        put("Refused with %" PRIu32 " at row %" PRIu32, r.outcome, r.row);
    else if (r.free == 0)
        put("Solved: 1 pattern meets the table");
    else if (r.free <= 16)
        put("Solved: %u patterns meet the table", 1U << r.free);
    else if (!drawn)
        put("Solved: 2^%" PRIu32 " patterns meet the table", r.free);
    else
        put("Solved: 2<tspan class=\"power\" dy=\"-7\">%" PRIu32 "</tspan>"
               "<tspan dx=\"6\" dy=\"7\">patterns meet the table</tspan>", r.free);
}

/* The picture down to the record: background, a sign where there is no pattern, heading, record. */
void begin_picture(lw_record r, unsigned width, unsigned height)
{
    bool none = r.outcome != LW_ALWAYS && r.outcome != LW_SOLVED;
    unsigned x = none ? MARGIN + SIGN : MARGIN;

    put("<svg xmlns=\"http://www.w3.org/2000/svg\" width=\"%u\" height=\"%u\" viewBox=\"0 0 %u %u\""
           " role=\"img\">\n", width, height, width, height);
    put("<title>");
    print_heading(r, false);
    put("</title>\n%s%s", style, r.fresh > COLOURS ? textures : "");
    put("<rect x=\"1\" y=\"1\" width=\"%u\" height=\"%u\" rx=\"10\" fill=\"#fff\" stroke=\"#bbb\"/>\n", width - 2,
           height - 2);
    if (none)
        put("<circle cx=\"%u\" cy=\"%u\" r=\"13\" fill=\"#D55E00\"/>\n"
               "<path class=\"cross\" d=\"M%u %ul10 10m0 -10l-10 10\"/>\n",
               MARGIN + 13, MARGIN + 14, MARGIN + 8, MARGIN + 9);
    begin_text("head", x, MARGIN + 21);
    print_heading(r, true);
    put("</text>\n");
    begin_text("record", x, MARGIN + 42);
    put("outcome %" PRIu32 ", pieces %" PRIu32 ", fresh %" PRIu32 ", free %" PRIu32 ", ties %" PRIu32
           ", row %" PRIu32 "</text>\n", r.outcome, r.pieces, r.fresh, r.free, r.ties, r.row);
}

void end_picture(void)
{
    put("</svg>\n");
}
