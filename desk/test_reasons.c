/* test_reasons.c -- see test_reasons.h */

#include "test_reasons.h"

/* ---- all patterns */

/* The values of two rows under a pattern, as binary numbers of up to 64 bits. */
static uint64_t number_of(const uint8_t *value, size_t width)
{
    uint64_t number = 0;

    for (size_t i = 0; i < width; i++)
        number = 2 * number + value[i];
    return number;
}

static uint64_t holding(const all_patterns *all, const uint8_t *pattern)
{
    static uint8_t values[REF_ROWS][REF_WIDTH];
    uint64_t set = 0;

    ref_values(all->t, &all->facts, all->facts.rows, pattern, values);
    for (size_t i = 0; i < all->equations; i++) {
        size_t a = all->t[4 * all->row[i] + 1], b = all->t[4 * all->row[i] + 2];
        if (number_of(values[a], all->facts.width[a]) == number_of(values[b], all->facts.width[b]))
            set |= (uint64_t)1 << i;
    }
    return set;
}

void try_all(const uint16_t *t, const ref_table *facts, all_patterns *all)
{
    uint8_t pattern[MOST_BITS];

    all->t = t, all->facts = *facts, all->equations = all->variables = 0;
    for (size_t r = 0; r < facts->rows; r++) {
        if (t[4 * r] == 4)
            all->row[all->equations++] = r;
        if (t[4 * r] == 0)
            all->variable_row[all->variables++] = r;
    }
    for (size_t p = 0; p >> facts->bits == 0; p++) {
        for (size_t i = 0; i < facts->bits; i++)
            pattern[i] = p >> (facts->bits - 1 - i) & 1;
        all->holds[p] = holding(all, pattern);
    }
}

uint64_t everything(const all_patterns *all)
{
    return all->equations == 64 ? UINT64_MAX : ((uint64_t)1 << all->equations) - 1;
}

uint64_t counting(const all_patterns *all, uint64_t set)
{
    uint64_t kept = set;

    for (size_t i = 0; i < all->equations; i++)
        for (size_t j = i + 1; j < all->equations; j++) {
            unsigned line = all->t[4 * all->row[i] + 3];
            if (line != 0 && line == all->t[4 * all->row[j] + 3] && (set >> j & 1) != 0)
                kept &= ~((uint64_t)1 << i);
        }
    return kept;
}

bool some_meets(const all_patterns *all, uint64_t set)
{
    set = counting(all, set);
    for (size_t p = 0; p >> all->facts.bits == 0; p++)
        if ((all->holds[p] & set) == set)
            return true;
    return false;
}

bool always_equal(const all_patterns *all, uint64_t set, size_t a, size_t b)
{
    set = counting(all, set);
    for (size_t p = 0; p >> all->facts.bits == 0; p++) {
        size_t x = a < FIXED ? a : p >> (all->facts.bits - 1 - (a - FIXED)) & 1;
        size_t y = b < FIXED ? b : p >> (all->facts.bits - 1 - (b - FIXED)) & 1;
        if ((all->holds[p] & set) == set && x != y)
            return false;
    }
    return true;
}

bool is_reason(const all_patterns *all, const reason *found, size_t from, size_t to)
{
    uint64_t set = 0;
    size_t hits = 0;

    for (size_t i = 0; i < all->equations; i++)
        for (size_t k = 0; k < found->rows; k++)
            if (all->row[i] == found->row[k]) {
                set |= (uint64_t)1 << i;
                hits++;
            }
    if (hits != found->rows || !always_equal(all, set, from, to))
        return false;
    for (size_t i = 0; i < all->equations; i++)
        if ((set >> i & 1) != 0 && always_equal(all, set & ~((uint64_t)1 << i), from, to))
            return false;
    return true;
}

/* ---- bit pairs */

/* The source of a bit of a row, that many bits from the low end; 0 above it. */
static size_t source_at(const all_patterns *all, size_t row, size_t bit)
{
    static ref_source sources[REF_ROWS][REF_WIDTH];
    size_t width = all->facts.width[row];

    if (bit >= width)
        return 0;
    ref_sources(all->t, &all->facts, row + 1, sources);
    ref_source s = sources[row][width - 1 - bit];
    if (s.kind < 2)
        return s.kind;
    size_t variable = all->variable_row[s.variable];
    return all->facts.place[variable] + all->facts.width[variable] - 1 - s.bit + FIXED;
}

bool is_pair(const all_patterns *all, size_t row, size_t a, size_t b)
{
    size_t left = all->t[4 * row + 1], right = all->t[4 * row + 2];

    for (size_t bit = 0; bit < all->facts.width[left] || bit < all->facts.width[right]; bit++) {
        size_t x = source_at(all, left, bit), y = source_at(all, right, bit);
        if ((x == a && y == b) || (x == b && y == a))
            return true;
    }
    return false;
}

size_t shortest_way(const all_patterns *all, const reason *found, size_t from, size_t to)
{
    size_t steps[MOST_BITS + FIXED] = {0}, far = 1; /* one more than the steps from there; 0 if it is not reached */

    for (steps[from] = 1; steps[to] == 0; far++) {
        bool further = false;
        for (size_t a = 0; a < all->facts.bits + FIXED; a++)
            for (size_t b = 0; steps[a] == far && b < all->facts.bits + FIXED; b++)
                for (size_t k = 0; steps[b] == 0 && k < found->rows; k++)
                    if (is_pair(all, found->row[k], a, b)) {
                        steps[b] = far + 1;
                        further = true;
                    }
        if (!further)
            return 0;
    }
    return steps[to] - 1;
}

/* ---- the print */

/* A source in words, and behind it what ends it; false if there is none. */
static bool read_source(const char **text, const char *end, const all_patterns *all, size_t *source)
{
    unsigned bit = 0, variable;
    int len = 0;

    if ((**text == '0' || **text == '1') && strncmp(*text + 1, end, strlen(end)) == 0) {
        *source = (size_t)(**text - '0');
        *text += 1 + strlen(end);
        return true;
    }
    if (sscanf(*text, "bit %u of x%u%n", &bit, &variable, &len) != 2 && sscanf(*text, "x%u%n", &variable, &len) != 1)
        return false;
    if (variable >= all->variables || strncmp(*text + len, end, strlen(end)) != 0)
        return false;
    size_t row = all->variable_row[variable];
    if (bit >= all->facts.width[row])
        return false;
    *source = all->facts.place[row] + all->facts.width[row] - 1 - bit + FIXED;
    *text += (size_t)len + strlen(end);
    return true;
}

bool read_reason(const char *text, const all_patterns *all, reason *found)
{
    int len;

    found->rows = found->pairs = 0;
    for (len = 0; found->rows < 64 && sscanf(text, "    row %zu: %*[^\n]%n", &found->row[found->rows], &len) == 1 && len != 0; len = 0) {
        text += len + 1;
        found->rows++;
    }
    if (strncmp(text, "the chain of bits:\n", 19) != 0)
        return false;
    text += 19;
    for (len = 0; found->pairs < 128 && sscanf(text, "    row %zu: %n", &found->chain[found->pairs].row, &len) == 1 && len != 0; len = 0) {
        text += len;
        if (!read_source(&text, " = ", all, &found->chain[found->pairs].a) ||
            !read_source(&text, "\n", all, &found->chain[found->pairs].b))
            return false;
        found->pairs++;
    }
    return *text == '\0' && found->rows != 0 && found->pairs != 0;
}

/* ---- the desk */

int desk(int argc, char **argv);
void put_bytes(const void *bytes, size_t len);
const char *output_text(size_t *len);
void forget_output(void);

/* A new file each time: some file systems wait for the disk where an old one is overwritten. */
void write_sheet(const char *name, const uint16_t *numbers, size_t rows)
{
    remove(name);
    FILE *file = fopen(name, "wb");

    if (file == NULL) {
        perror(name);
        exit(1);
    }
    fprintf(file, "kind a b c\n");
    for (size_t i = 0; i < 4 * rows; i++)
        fprintf(file, "%u%c", numbers[i], i % 4 == 3 ? '\n' : ' ');
    fclose(file);
}

int run_desk(const char *command, const char *option, const char *value, const draft *d, const uint16_t *second,
             const char **print)
{
    char *words[6] = {(char[]){"desk"}, (char[32]){0}, (char[32]){0}, (char[32]){0}, (char[]){SHEETS "/first.sheet"},
                      (char[]){SHEETS "/second.sheet"}};
    size_t len;
    int status;

    snprintf(words[1], 32, "%s", command);
    write_sheet(words[4], d->t.numbers, d->rows);
    if (second != NULL)
        write_sheet(words[5], second, d->rows);
    if (option != NULL) {
        snprintf(words[2], 32, "%s", option);
        snprintf(words[3], 32, "%s", value);
    } else
        words[2] = words[4], words[3] = words[5];
    forget_output();
    status = desk((option != NULL ? 4 : 2) + (second != NULL ? 2 : 1), words);
    put_bytes("", 1);
    *print = output_text(&len);
    return status;
}
