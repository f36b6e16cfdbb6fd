/*
  draw_growth.c -- the pictures docs/growth.svg and docs/pieces.svg, from what
  solve_bench and pieces_bench measured

      draw_growth <build/growth.points >growth.svg

  The first line of the input is the title. Each other one begins a panel, whose
  horizontal axis it names, or a line of the panel, which it names too, or is a
  point of that line, its amount and its time in microseconds:

      title How the time of lw_solve grows
      panel bit pairs
      line Equations, in turned
      8192 101.250

  There are two panels, or one, which is wider then. Both axes are logarithmic, and
  the panels have one vertical axis. A dashed line shows what growth in proportion
  would be, from the least point of a panel on. Each line has a colour that a
  colour-blind reader can tell from the others, and a mark of its own.

  The exit status is 0, or 2 if the input is none or the output fails.
*/

#include <math.h>
#include <stdbool.h>
#include <stdio.h>
#include <string.h>

enum { PANELS = 2, LINES = 4, POINTS = 8, NAME = 64, STYLES = 4 };

typedef struct {
    double x, y;
} point;

typedef struct {
    char name[NAME];
    size_t style; /* its colour and its mark */
    point points[POINTS];
    size_t count;
} line;

typedef struct {
    char label[NAME];
    line lines[LINES];
    size_t count;
} panel;

static char title[NAME];
static panel panels[PANELS];
static size_t panel_count, styles;

/* Input. */

/* Whether the text is this word and a name. */
static bool named(const char *text, const char *word, char *name)
{
    size_t len = strlen(word);
    return strncmp(text, word, len) == 0 && sscanf(text + len, " %63[^\n]", name) == 1;
}

/* Takes one line of the input. False if it is none, or one too many. */
static bool take(const char *text)
{
    panel *p = panel_count == 0 ? NULL : &panels[panel_count - 1];
    line *l = p == NULL || p->count == 0 ? NULL : &p->lines[p->count - 1];
    char name[NAME] = "";
    point at;

    if (named(text, "title", name)) {
        if (title[0] != '\0' || panel_count != 0)
            return false;
        memcpy(title, name, NAME);
        return true;
    }
    if (named(text, "panel", name)) {
        if (panel_count == PANELS)
            return false;
        memcpy(panels[panel_count++].label, name, NAME);
        return true;
    }
    if (named(text, "line", name)) {
        if (p == NULL || p->count == LINES)
            return false;
        p->lines[p->count].style = styles++ % STYLES;
        memcpy(p->lines[p->count++].name, name, NAME);
        return true;
    }
    if (l == NULL || l->count == POINTS || sscanf(text, "%lf %lf", &at.x, &at.y) != 2 || at.x <= 0 || at.y <= 0)
        return false;
    l->points[l->count++] = at;
    return true;
}

static bool read_all(void)
{
    char text[256];
    while (fgets(text, sizeof text, stdin) != NULL)
        if (!take(text))
            return false;
    for (size_t i = 0; i < panel_count; i++)
        if (panels[i].count == 0 || panels[i].lines[0].count == 0)
            return false;
    return panel_count != 0 && title[0] != '\0';
}

/* Places in the picture. */

enum { WIDTH = 960, HEIGHT = 520, TOP = 76, PLOT_WIDTH = 360, PLOT_HEIGHT = 300, LEFT = 84, STEP = 470, INSET = 24 };

static double low_y, high_y; /* of the vertical axis */

/* Of a panel: one alone is as wide as two with the room between them. */
static double plot_width(void)
{
    return panel_count == 1 ? STEP + PLOT_WIDTH : PLOT_WIDTH;
}

typedef struct {
    double left, low, high; /* where the panel begins, and the ends of its horizontal axis */
} frame;

static double place_x(frame f, double x)
{
    return f.left + INSET + (plot_width() - 2 * INSET) * log(x / f.low) / log(f.high / f.low);
}

static double place_y(double y)
{
    return TOP + PLOT_HEIGHT * log(high_y / y) / log(high_y / low_y);
}

/* The numbers 1, 2, 5, 10, 20, 50 and so on: the one after this one. */
static double after(double y)
{
    double power = pow(10, floor(log10(y) + 1e-9)), lead = y / power;
    return power * (lead < 1.5 ? 2 : lead < 3.5 ? 5 : 10);
}

static frame frame_of(size_t i)
{
    const panel *p = &panels[i];
    frame f = {LEFT + (double)i * STEP, p->lines[0].points[0].x, p->lines[0].points[0].x};
    for (size_t k = 0; k < p->count; k++)
        for (size_t j = 0; j < p->lines[k].count; j++) {
            f.low = fmin(f.low, p->lines[k].points[j].x);
            f.high = fmax(f.high, p->lines[k].points[j].x);
        }
    return f;
}

/* The point of a panel from which growth in proportion is drawn: of the least amount, the least time. */
static point least(const panel *p)
{
    point best = p->lines[0].points[0];
    for (size_t k = 0; k < p->count; k++)
        for (size_t j = 0; j < p->lines[k].count; j++) {
            point at = p->lines[k].points[j];
            if (at.x < best.x || (at.x <= best.x && at.y < best.y))
                best = at;
        }
    return best;
}

/* Where growth in proportion gets to. */
static point greatest(size_t i)
{
    point from = least(&panels[i]);
    double x = frame_of(i).high;
    return (point){x, from.y * x / from.x};
}

/* The vertical axis has room for all of it. */
static void set_heights(void)
{
    double low = least(&panels[0]).y, high = low;
    for (size_t i = 0; i < panel_count; i++) {
        high = fmax(high, greatest(i).y);
        for (size_t k = 0; k < panels[i].count; k++)
            for (size_t j = 0; j < panels[i].lines[k].count; j++) {
                low = fmin(low, panels[i].lines[k].points[j].y);
                high = fmax(high, panels[i].lines[k].points[j].y);
            }
    }
    for (low_y = pow(10, floor(log10(low))); after(low_y) <= low; low_y = after(low_y))
        ;
    for (high_y = low_y; high_y <= high; high_y = after(high_y))
        ;
}

/* Drawing. */

static const char *const colours[STYLES] = {"#0072b2", "#d55e00", "#009e73", "#7b3f99"};

static void text_at(double x, double y, const char *anchor, int size, const char *text)
{
    printf("<text x=\"%.1f\" y=\"%.1f\" text-anchor=\"%s\" font-size=\"%d\">%s</text>\n", x, y, anchor, size, text);
}

static void rule(double x0, double y0, double x1, double y1, const char *how)
{
    printf("<path d=\"M%.1f %.1fL%.1f %.1f\" %s/>\n", x0, y0, x1, y1, how);
}

/* A number with a comma before the last three digits. */
static void number_at(double x, double y, const char *anchor, double number)
{
    char text[32];
    if (number >= 1000)
        snprintf(text, sizeof text, "%.0f,%03.0f", floor(number / 1000), fmod(number, 1000));
    else
        snprintf(text, sizeof text, "%.0f", number);
    text_at(x, y, anchor, 12, text);
}

/* The mark of a line: a disc, a square, a triangle or a rhomb. */
static void mark(size_t style, double x, double y)
{
    static const char *const shapes[STYLES] = {
        "M-4.5 0a4.5 4.5 0 1 0 9 0a4.5 4.5 0 1 0 -9 0z", "M-4 -4h8v8h-8z", "M0 -5.5L5 3.5h-10z",
        "M0 -5.5L5.5 0L0 5.5L-5.5 0z"};
    printf("<path d=\"%s\" transform=\"translate(%.1f %.1f)\" fill=\"%s\"/>\n", shapes[style], x, y,
           colours[style]);
}

static void draw_heights(frame f, bool numbers)
{
    for (double y = low_y; y <= high_y * 1.001; y = after(y)) {
        rule(f.left, place_y(y), f.left + plot_width(), place_y(y), "stroke=\"#e0e0e0\"");
        if (numbers)
            number_at(f.left - 8, place_y(y) + 4, "end", y);
    }
}

/* The amounts of the first line; those of the others are the same. */
static void draw_amounts(const panel *p, frame f)
{
    for (size_t j = 0; j < p->lines[0].count; j++) {
        double x = p->lines[0].points[j].x;
        rule(place_x(f, x), TOP + PLOT_HEIGHT, place_x(f, x), TOP + PLOT_HEIGHT + 5, "stroke=\"#404040\"");
        number_at(place_x(f, x), TOP + PLOT_HEIGHT + 20, "middle", x);
    }
    text_at(f.left + plot_width() / 2.0, TOP + PLOT_HEIGHT + 42, "middle", 14, p->label);
}

static void draw_line(const line *l, frame f)
{
    printf("<polyline fill=\"none\" stroke=\"%s\" stroke-width=\"2\" points=\"", colours[l->style]);
    for (size_t j = 0; j < l->count; j++)
        printf("%s%.1f,%.1f", j == 0 ? "" : " ", place_x(f, l->points[j].x), place_y(l->points[j].y));
    printf("\"/>\n");
    for (size_t j = 0; j < l->count; j++)
        mark(l->style, place_x(f, l->points[j].x), place_y(l->points[j].y));
}

#define DASHED "stroke=\"#707070\" stroke-width=\"1.5\" stroke-dasharray=\"6 4\""

static void draw_proportion(size_t i, frame f)
{
    point from = least(&panels[i]), to = greatest(i);
    rule(place_x(f, from.x), place_y(from.y), place_x(f, to.x), place_y(to.y), DASHED);
}

static void draw_names(const panel *p, frame f)
{
    double y = TOP + PLOT_HEIGHT + 66;
    for (size_t k = 0; k < p->count; k++, y += 18) {
        mark(p->lines[k].style, f.left + 8, y - 4);
        text_at(f.left + 22, y, "start", 13, p->lines[k].name);
    }
    rule(f.left, y - 4, f.left + 16, y - 4, DASHED);
    printf("<text x=\"%.1f\" y=\"%.1f\" font-size=\"13\">in proportion to the %s</text>\n", f.left + 22, y, p->label);
}

static void draw_panel(size_t i)
{
    const panel *p = &panels[i];
    frame f = frame_of(i);

    draw_heights(f, i == 0);
    draw_amounts(p, f);
    printf("<rect x=\"%.1f\" y=\"%d\" width=\"%.0f\" height=\"%d\" fill=\"none\" stroke=\"#404040\"/>\n", f.left, TOP,
           plot_width(), PLOT_HEIGHT);
    draw_proportion(i, f);
    for (size_t k = 0; k < p->count; k++)
        draw_line(&p->lines[k], f);
    draw_names(p, f);
}

static void draw_all(void)
{
    printf("<svg xmlns=\"http://www.w3.org/2000/svg\" viewBox=\"0 0 %d %d\" width=\"%d\" height=\"%d\" "
           "font-family=\"sans-serif\" fill=\"#202020\">\n",
           WIDTH, HEIGHT, WIDTH, HEIGHT);
    printf("<title>%s</title>\n", title);
    printf("<rect width=\"%d\" height=\"%d\" fill=\"#ffffff\"/>\n", WIDTH, HEIGHT);
    text_at(WIDTH / 2.0, 34, "middle", 20, title);
    text_at(WIDTH / 2.0, 58, "middle", 13,
            "Both axes are logarithmic. A line that is flatter than the dashed one grows more slowly.");
    printf("<text transform=\"translate(26 %d) rotate(-90)\" text-anchor=\"middle\" font-size=\"14\">"
           "time of a call, microseconds</text>\n",
           TOP + PLOT_HEIGHT / 2);
    for (size_t i = 0; i < panel_count; i++)
        draw_panel(i);
    printf("</svg>\n");
}

int main(void)
{
    if (!read_all()) {
        fprintf(stderr, "draw_growth: the points are not what they should be\n");
        return 2;
    }
    set_heights();
    draw_all();
    return fflush(stdout) != 0 || ferror(stdout) ? 2 : 0;
}
