/*
  test_header.c -- the header by itself, its version, and what is installed

  The header comes first and twice, so that it needs no other and may be included
  again. Its version as a number is that of the text, and both are the version of
  the manual pages and of the pkg-config file that `make install-data` has put
  into the folder INSTALLED. The page of the program has each kind of a row, and
  each refusal that a sheet can meet; the page of the library has each call.
*/

#include "linkwords.h"
#include "linkwords.h"

#include "test.h"

static void test_version(void)
{
    unsigned major = LW_VERSION / 1000000, minor = LW_VERSION / 1000 % 1000, patch = LW_VERSION % 1000;
    char text[64];

    snprintf(text, sizeof text, "%u.%u.%u", major, minor, patch);
    check(strcmp(text, LW_VERSION_TEXT) == 0, HERE, "LW_VERSION is that of %s, LW_VERSION_TEXT is %s", text,
          LW_VERSION_TEXT);
}

/* An installed file has this line, or one with these words in it; and nothing in it is left to be filled in. */
static void check_file(where at, const char *name, const char *words, bool whole)
{
    char path[256], line[1024];
    bool found = false, filled = true;

    snprintf(path, sizeof path, "%s/%s", INSTALLED, name);
    FILE *file = fopen(path, "r");
    if (!check(file != NULL, at, "%s cannot be read", path))
        return;
    while (fgets(line, sizeof line, file) != NULL) {
        line[strcspn(line, "\n")] = '\0';
        found = found || (whole ? strcmp(line, words) == 0 : strstr(line, words) != NULL);
        filled = filled && strchr(line, '@') == NULL;
    }
    fclose(file);
    check(found, at, "%s has no line '%s'", path, words);
    check(filled, at, "%s has an @", path);
}

static void test_installed(void)
{
    check_file(HERE, "include/linkwords.h", "#define LW_VERSION_TEXT \"" LW_VERSION_TEXT "\"", true);
    check_file(HERE, "lib/pkgconfig/linkwords.pc", "Version: " LW_VERSION_TEXT, true);
    check_file(HERE, "lib/pkgconfig/linkwords.pc", "prefix=/usr", true);
    check_file(HERE, "share/man/man1/linkwords.1", "\"linkwords " LW_VERSION_TEXT "\"", false);
    check_file(HERE, "share/man/man3/linkwords.3", "\"linkwords " LW_VERSION_TEXT "\"", false);
}

static void test_page(void)
{
    static const unsigned kinds[] = {LW_VARIABLE, LW_FILL, LW_JOIN, LW_CUT, LW_EQUATION, LW_VALUE};
    static const unsigned refusals[] = {
        LW_REFUSED_SHEET, LW_REFUSED_NAMES, LW_REFUSED_LINE, LW_REFUSED_LINES, LW_REFUSED_KIND, LW_REFUSED_UNUSED,
        LW_REFUSED_NAME, LW_REFUSED_WIDTH, LW_REFUSED_VALUE, LW_REFUSED_CUT, LW_REFUSED_MAXIMUM,
    };
    char words[16];

    for (size_t i = 0; i < COUNT(kinds); i++) {
        snprintf(words, sizeof words, "%u \\fI", kinds[i]);
        check_file(HERE, "share/man/man1/linkwords.1", words, false);
    }
    for (size_t i = 0; i < COUNT(refusals); i++) {
        snprintf(words, sizeof words, "%u\t", refusals[i]);
        check_file(HERE, "share/man/man1/linkwords.1", words, false);
    }
}

/* Each call stands in the header and on the page, and can be linked. */
static void test_calls(void)
{
    static const struct {
        const char *name;
        void (*call)(void);
    } calls[] = {
#define CALL(name) {#name "(", (void (*)(void))name}
        CALL(lw_value), CALL(lw_normal_form), CALL(lw_read_sheet), CALL(lw_solve), CALL(lw_solve_pieces),
        CALL(lw_right_side), CALL(lw_make_pattern), CALL(lw_marker_positions), CALL(lw_compare_recordings),
        CALL(lw_compare_tables), CALL(lw_page), CALL(lw_job_open), CALL(lw_job_step), CALL(lw_job_preview),
        CALL(lw_job_answer), CALL(lw_value_rows), CALL(lw_normal_form_rows), CALL(lw_solve_rows),
#undef CALL
    };

    for (size_t i = 0; i < COUNT(calls); i++) {
        check(calls[i].call != NULL, HERE, "%s is not there", calls[i].name);
        check_file(HERE, "include/linkwords.h", calls[i].name, false);
        check_file(HERE, "share/man/man3/linkwords.3", calls[i].name, false);
    }
}

const test_list tests = {
    .name = "header",
    .groups = {
        {.name = "the version", .run = test_version},
        {.name = "what is installed", .run = test_installed},
        {.name = "the program's page", .run = test_page},
        {.name = "the calls", .run = test_calls},
    },
};
