/* Reads a pattern from the command line, says whether the two readings can ever cut a line differently and how long a span can be, and cuts the
 * other words both ways. With --latin1 the letters of the code page Latin-1 are letters, in [[:alpha:]] and the other named sets.
 * Usage: example [--latin1] PATTERN LINE..   Built and run by examples/c/run. */
#include <stdio.h>
#include <string.h>
#include "../../include/yindorka.h"

/* 64 KB of table hold 1,074 records of a pattern with 64 leaves, and more of one with fewer: up to 5,041. A witness has fewer bytes than there are records. The area is for
 * the test that comes first, and settles patterns with a fixed ending without a record. The buffers are the caller's: nothing is allocated. */
static uint8_t table[65536];
static uint8_t witness[5041];
static uint8_t area[YINDORKA_AREA_SIZE];
static yindorka_tables tables;

/* A carrier's own named sets, or null: then those of the fixed table count, and the calls that do not end in _with_sets are enough. */
static const uint8_t *sets;
static uint8_t latin1[YINDORKA_SETS_SIZE];

/* The fixed sets, and the letters from 0xC0 on; 0xD7 and 0xF7 are signs. */
static void load_latin1(void)
{
    yindorka_fixed_sets(latin1);
    for (unsigned b = 0xC0; b <= 0xFF; b++) {
        latin1[b] = b == 0xD7 || b == 0xF7 ? YINDORKA_PUNCT : YINDORKA_ALPHA | YINDORKA_ALNUM | (b < 0xDF ? YINDORKA_UPPER : YINDORKA_LOWER);
    }
    sets = latin1;
}

static yindorka_outcome check(const uint8_t *pattern, size_t length)
{
    if (sets) {
        return yindorka_check_with_sets(sets, YINDORKA_SETS_SIZE, pattern, length, table, sizeof table, witness, sizeof witness, area, sizeof area);
    }
    return yindorka_check(pattern, length, table, sizeof table, witness, sizeof witness, area, sizeof area);
}

static yindorka_refusal read_tables(const uint8_t *pattern, size_t length)
{
    return sets ? yindorka_read_with_sets(sets, YINDORKA_SETS_SIZE, pattern, length, &tables) : yindorka_read(pattern, length, &tables);
}

static void make_readable(const uint8_t *pattern, size_t length, size_t line_length)
{
    if (sets) {
        yindorka_readable_with_sets(sets, YINDORKA_SETS_SIZE, pattern, length, witness, line_length);
    } else {
        yindorka_readable(pattern, length, witness, line_length);
    }
}

/* The first line cut differently, and the same in printable bytes of the same groups, where there are any. */
static void show_witness(const uint8_t *pattern, size_t length, size_t witness_length)
{
    for (size_t i = 0; i < witness_length; i++) {
        printf("%02x", witness[i]);
    }
    make_readable(pattern, length, witness_length);
    printf(", in readable bytes: ");
    fwrite(witness, 1, witness_length, stdout);
    printf("\n");
}

static void show_verdict(const uint8_t *pattern, size_t length, yindorka_outcome o)
{
    size_t bytes = yindorka_record_bytes(pattern, length).bytes;
    if (o.kind == 0 && o.first == 0) {
        printf("alike, without a record: no match extends to a longer one\n");
    } else if (o.kind == 0) {
        printf("alike, %zu records of %zu bytes\n", o.first, bytes);
    } else if (o.kind == 1) {
        printf("unlike, %zu records of %zu bytes, first line cut differently: ", o.first, bytes);
        show_witness(pattern, length, o.second);
    } else {
        printf("refused with %zu at %zu\n", o.first, o.second);
    }
}

/* How long a span of an accepted pattern can be, whatever its sets are. */
static void show_lengths(const uint8_t *pattern, size_t length)
{
    yindorka_span_lengths x = yindorka_lengths(pattern, length);
    if (x.limited) {
        printf("a span has %zu to %zu bytes\n", x.least, x.greatest);
    } else {
        printf("a span has %zu bytes or more\n", x.least);
    }
}

static void show_cut(const char *line)
{
    size_t spans[3];
    if (!yindorka_spans((const uint8_t *)line, strlen(line), &tables, spans)) {
        printf("%s: none\n", line);
        return;
    }
    printf("%s: the station takes '%.*s', the hall '%.*s'\n", line, (int)(spans[1] - spans[0]), line + spans[0], (int)(spans[2] - spans[0]), line + spans[0]);
}

int main(int n, char **words)
{
    if (n > 1 && strcmp(words[1], "--latin1") == 0) {
        load_latin1();
        n--;
        words++;
    }
    if (n < 2) {
        fprintf(stderr, "usage: example [--latin1] PATTERN LINE..\n");
        return 2;
    }
    if (yindorka_version() != YINDORKA_VERSION_NUMBER) {
        fprintf(stderr, "example: the library is of another version than its header\n");
        return 2;
    }
    const uint8_t *pattern = (const uint8_t *)words[1];
    size_t length = strlen(words[1]);
    show_verdict(pattern, length, check(pattern, length));
    if (read_tables(pattern, length).number) {
        return 1;
    }
    show_lengths(pattern, length);
    for (int i = 2; i < n; i++) {
        show_cut(words[i]);
    }
    if (fflush(stdout) || ferror(stdout)) {
        perror("example: standard output cannot be written");
        return 2;
    }
    return 0;
}
