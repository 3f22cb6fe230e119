/* Times one engine on one pattern: matchers ENGINE PATTERN UNIT END LENGTH.., where ENGINE is `yindorka` (both spans), `fields` (the greedy span with its fields), `glibc` (regexec, the
 * POSIX span), `pcre2` or `re2` (the greedy span with captures; their libraries are looked for when they are asked for, and need no header). A line of each length is
 * UNIT over and over, with END at its end. Prints for each length nanoseconds a byte by processor time, the best of the rounds, and how much longer the line took than the
 * one before it in the list, the median of the rounds; or `limit`, where PCRE2 stopped at one of its own. Every round times each length in turn, so that a slow moment of the machine falls on neighbours alike. */
#include <dlfcn.h>
#include <regex.h>
#include <stdio.h>
#include <stdlib.h>
#include <string.h>
#include <time.h>
#include "../include/yindorka.h"

enum { ROUNDS = 25, MOST = 32 };
static const double BATCH = 3e6; /* nanoseconds that a batch takes at least */

static yindorka_tables tables;
static yindorka_field_tables field_tables;
static regex_t expression;
static volatile size_t sink;

static double now(void)
{
    struct timespec t;
    clock_gettime(CLOCK_PROCESS_CPUTIME_ID, &t);
    return 1e9 * (double)t.tv_sec + (double)t.tv_nsec;
}

static void both_spans(const uint8_t *line, size_t length)
{
    size_t spans[3] = {0, 0, 0};
    sink += (size_t)yindorka_spans(line, length, &tables, spans) + spans[1] + spans[2];
}

static void posix_span(const uint8_t *line, size_t length)
{
    regmatch_t whole[1] = {{0, 0}};
    (void)length;
    sink += (size_t)regexec(&expression, (const char *)line, 1, whole, 0) + (size_t)whole[0].rm_eo;
}

static void fields(const uint8_t *line, size_t length)
{
    size_t span[2] = {0, 0};
    yindorka_field all[8] = {{0, 0}};
    sink += (size_t)yindorka_fields(line, length, &field_tables, span, all) + span[1] + all[0].end;
}

/* PCRE2's calls for bytes, as its documentation has them. */
static void *(*pcre2_compile)(const uint8_t *, size_t, uint32_t, int *, size_t *, void *);
static void *(*pcre2_match_data)(const void *, void *);
static int (*pcre2_match)(const void *, const uint8_t *, size_t, size_t, uint32_t, void *, void *);
static size_t *(*pcre2_places)(void *);
static int (*pcre2_jit)(void *, uint32_t);
static void *pcre2_code, *pcre2_data;
/* Whether it stopped at one of its limits: such a time says nothing. */
static int gave_up;

static void captures(const uint8_t *line, size_t length)
{
    int found = pcre2_match(pcre2_code, line, length, 0, 0, pcre2_data, NULL);
    gave_up |= found < -1;
    sink += (size_t)found + pcre2_places(pcre2_data)[1];
}

/* Whether the library is there and takes the pattern. Its compiler for the machine is used where it has one. */
static int open_pcre2(const char *pattern)
{
    void *library = dlopen("libpcre2-8.so.0", RTLD_NOW);
    int error;
    size_t at;
    if (!library) {
        return 0;
    }
    *(void **)&pcre2_compile = dlsym(library, "pcre2_compile_8");
    *(void **)&pcre2_match_data = dlsym(library, "pcre2_match_data_create_from_pattern_8");
    *(void **)&pcre2_match = dlsym(library, "pcre2_match_8");
    *(void **)&pcre2_places = dlsym(library, "pcre2_get_ovector_pointer_8");
    *(void **)&pcre2_jit = dlsym(library, "pcre2_jit_compile_8");
    if (!pcre2_compile || !pcre2_match_data || !pcre2_match || !pcre2_places || !pcre2_jit) {
        return 0;
    }
    pcre2_code = pcre2_compile((const uint8_t *)pattern, strlen(pattern), 0, &error, &at, NULL);
    if (!pcre2_code) {
        return 0;
    }
    pcre2_jit(pcre2_code, 1);
    pcre2_data = pcre2_match_data(pcre2_code, NULL);
    return pcre2_data != NULL;
}

/* RE2's two calls, by the names that its compiler gave them: the object from a pattern, and the search, which has the span and its captures as pieces of the line. */
struct piece {
    const char *data;
    size_t size;
};
static void (*re2_make)(void *, const char *);
static char (*re2_match)(const void *, const struct piece *, size_t, size_t, int, struct piece *, int);
static double re2_object[512]; /* larger than any RE2 */

static void re2_captures(const uint8_t *line, size_t length)
{
    struct piece text = {(const char *)line, length}, found[9];
    sink += (size_t)re2_match(re2_object, &text, 0, length, 0, found, 9) + found[1].size;
}

static int open_re2(const char *pattern)
{
    void *library = dlopen("libre2.so.9", RTLD_NOW);
    if (!library) {
        return 0;
    }
    *(void **)&re2_make = dlsym(library, "_ZN3re23RE2C1EPKc");
    *(void **)&re2_match = dlsym(library, "_ZNK3re23RE25MatchERKNS_11StringPieceEmmNS0_6AnchorEPS1_i");
    if (!re2_make || !re2_match) {
        return 0;
    }
    re2_make(re2_object, pattern);
    return 1;
}

/* The engine of a name, ready for the pattern; none where it is missing or takes no such pattern. */
static void (*engine_of(const char *name, const char *pattern))(const uint8_t *, size_t)
{
    const uint8_t *bytes = (const uint8_t *)pattern;
    if (strcmp(name, "yindorka") == 0) {
        return yindorka_read(bytes, strlen(pattern), &tables).number == 0 ? both_spans : NULL;
    }
    if (strcmp(name, "fields") == 0) {
        return yindorka_read_fields(bytes, strlen(pattern), &field_tables).number == 0 ? fields : NULL;
    }
    if (strcmp(name, "pcre2") == 0) {
        return open_pcre2(pattern) ? captures : NULL;
    }
    if (strcmp(name, "re2") == 0) {
        return open_re2(pattern) ? re2_captures : NULL;
    }
    return regcomp(&expression, pattern, REG_EXTENDED) == 0 ? posix_span : NULL;
}

static uint8_t *line_of(const char *unit, const char *end, size_t length)
{
    uint8_t *line = malloc(length + 1);
    size_t last = strlen(end);
    if (!line || length < last) {
        exit(2);
    }
    for (size_t i = 0; i < length; i++) {
        line[i] = (uint8_t)unit[i % strlen(unit)];
    }
    memcpy(line + length - last, end, last);
    line[length] = 0;
    return line;
}

/* One batch: as many calls as take long enough to be timed. */
static double batch(void (*engine)(const uint8_t *, size_t), const uint8_t *line, size_t length, long *times)
{
    for (;;) {
        double start = now();
        for (long i = 0; i < *times; i++) {
            engine(line, length);
        }
        double t = now() - start;
        if (t >= BATCH) {
            return t / (double)*times / (double)length;
        }
        *times *= 2;
    }
}

static int ascending(const void *a, const void *b)
{
    double x = *(const double *)a, y = *(const double *)b;
    return (x > y) - (x < y);
}

int main(int n, char **words)
{
    size_t count = n > 5 ? (size_t)n - 5 : 0;
    uint8_t *lines[MOST];
    size_t lengths[MOST];
    long times[MOST];
    double best[MOST];
    static double growth[MOST][ROUNDS];
    if (count == 0 || count > MOST) {
        return 2;
    }
    void (*engine)(const uint8_t *, size_t) = engine_of(words[1], words[2]);
    if (!engine) {
        return 3;
    }
    for (size_t k = 0; k < count; k++) {
        lengths[k] = (size_t)atol(words[k + 5]);
        lines[k] = line_of(words[3], words[4], lengths[k]);
        times[k] = 1;
    }
    for (int round = 0; round < ROUNDS; round++) {
        double before = 0;
        for (size_t k = 0; k < count; k++) {
            double t = batch(engine, lines[k], lengths[k], &times[k]);
            double whole = t * (double)lengths[k];
            best[k] = round == 0 || t < best[k] ? t : best[k];
            growth[k][round] = k == 0 ? 0 : whole / before;
            before = whole;
        }
    }
    if (gave_up) {
        puts("limit");
        return 0;
    }
    for (size_t k = 0; k < count; k++) {
        qsort(growth[k], ROUNDS, sizeof growth[k][0], ascending);
        printf("%.3f %.3f\n", best[k], growth[k][ROUNDS / 2]);
    }
    return 0;
}
