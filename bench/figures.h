/* figures.h -- figures as text, for the benchmark's page */

#ifndef FIGURES_H
#define FIGURES_H

#include <stddef.h>
#include <stdio.h>

/* A text is kept for the next few only. */
enum { TEXT = 32, TEXTS = 16 };

static inline char *new_text(void)
{
    static char texts[TEXTS][TEXT];
    static size_t next;
    return texts[next++ % TEXTS];
}

static inline const char *whole(size_t n)
{
    char *text = new_text();
    if (n < 1000)
        snprintf(text, TEXT, "%zu", n);
    else if (n < 1000000)
        snprintf(text, TEXT, "%zu,%03zu", n / 1000, n % 1000);
    else
        snprintf(text, TEXT, "%zu,%03zu,%03zu", n / 1000000, n / 1000 % 1000, n % 1000);
    return text;
}

/* About three digits. */
static inline const char *figure(double x)
{
    if (x >= 99.95)
        return whole((size_t)(x + 0.5));
    char *text = new_text();
    snprintf(text, TEXT, "%.*f", x >= 9.995 ? 1 : x >= 0.0995 ? 2 : 3, x);
    return text;
}

static inline const char *micro(double time)
{
    return figure(1e6 * time);
}

static inline const char *milli(double time)
{
    return figure(1e3 * time);
}

#endif /* FIGURES_H */
