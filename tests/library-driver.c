// The library as C calls it, for tests/requests. Standard input has a call a line, patterns and lines in hex ('-' if one is empty).
// 'fields PATTERN LINE' prints 'refused NUMBER PLACE', 'none', or 'span START END' and for each field its start and end or 'absent'.
// 'spans PATTERN LINE' prints 'refused NUMBER PLACE', 'none', or 'greedy START END posix START END'.
// 'groups PATTERN' prints 'refused NUMBER PLACE', or 'groups' and the number of each byte's group, then after ' : ' the lowest byte of each group.
// 'lengths PATTERN' prints 'refused NUMBER PLACE', 'least LEAST greatest GREATEST' or 'least LEAST no limit'.
// 'record PATTERN' prints 'refused NUMBER PLACE' or 'bytes BYTES'.
// 'readable PATTERN LINE' prints 'refused NUMBER PLACE' or 'accepted', then after ' : ' the line in hex.
// 'check PATTERN TABLE WITNESS AREA' calls the checker, with how many bytes of table, witness buffer and area are lent. Before the call every byte of the table is aa, every byte
// of the witness buffer bb and every byte of the area cc, and guard bytes stand before and behind each. Prints for each call, on one line, the result as the checker program has
// it, then the table and the witness buffer in hex ('-' if one is empty), each after ' : ', then what the area is, too: 'zeroed' if its first 1,024 bytes are zero and the rest
// is kept, 'kept' if all of it is, else 'changed'; and ' : guard bytes changed' if some are.
// 'looking PATTERN TABLE WITNESS AREA' calls it with how much looking it takes: prints 'looks LOOKS comparisons COMPARISONS' and the result, and ' : not as yindorka_check' if
// the outcome or a byte of the buffers is another than that call's.
// 'leaves PATTERN' prints 'refused NUMBER PLACE' or 'accepted', and after ' : ' the bytes of each leaf's set in hex ('-' if it has none); and ' and changed' if a refused
// pattern does not leave its tables as they are.
// 'with SETS' before a call, SETS in hex, makes it the call with that table of named sets. 'sets SETS' checks a table: prints 'passes' or 'fails NUMBER PLACE'. 'fixed' prints
// the fixed table in hex.
#include <stdio.h>
#include <stdlib.h>
#include <string.h>
#include "yindorka.h"

#define GUARD 64
#define GUARD_BYTE 0xEE
#define TABLE_BYTE 0xAA
#define WITNESS_BYTE 0xBB
#define AREA_BYTE 0xCC

// The table of named sets of the call, if it has one of its own.
static const uint8_t *own_sets;
static size_t own_sets_length;
#define CALL(name, ...) (own_sets ? name##_with_sets(own_sets, own_sets_length, __VA_ARGS__) : name(__VA_ARGS__))

// A lent buffer, between its guard bytes; at points to its own first byte, which is never null.
typedef struct {
    uint8_t *at;
    size_t length;
} buffer;

static void *room(size_t length)
{
    void *at = malloc(length);

    if (!at)
        exit(2);
    return at;
}

static buffer lend(size_t length, uint8_t byte)
{
    uint8_t *whole = room(length + 2 * GUARD);

    memset(whole, GUARD_BYTE, length + 2 * GUARD);
    memset(whole + GUARD, byte, length);
    return (buffer){whole + GUARD, length};
}

static int guards_kept(buffer b)
{
    const uint8_t *before = b.at - GUARD, *behind = b.at + b.length;

    for (size_t i = 0; i < GUARD; i++)
        if (before[i] != GUARD_BYTE || behind[i] != GUARD_BYTE)
            return 0;
    return 1;
}

static void give_back(buffer b)
{
    free(b.at - GUARD);
}

static void print_hex(const uint8_t *bytes, size_t length)
{
    for (size_t i = 0; i < length; i++)
        printf("%02x", bytes[i]);
}

static void print_buffer(buffer b)
{
    printf(" : ");
    print_hex(b.at, b.length);
    if (b.length == 0)
        putchar('-');
}

static void print_result(yindorka_outcome outcome, buffer witness)
{
    if (outcome.kind == 0)
        printf("alike %zu", outcome.first);
    else if (outcome.kind == 1 && outcome.second <= witness.length) {
        printf("unlike %zu ", outcome.first);
        print_hex(witness.at, outcome.second);
    } else if (outcome.kind == 2)
        printf("refused %zu %zu", outcome.first, outcome.second);
    else
        printf("no outcome: %zu %zu %zu", outcome.kind, outcome.first, outcome.second);
}

static int digit(char c)
{
    return c <= '9' ? c - '0' : c - 'a' + 10;
}

// Puts the bytes that hex says at bytes, and returns how many; '-' says none.
static size_t read_hex(const char *hex, uint8_t *bytes)
{
    size_t n = 0;

    for (; hex[0] != '-' && hex[2 * n]; n++)
        bytes[n] = (uint8_t)(16 * digit(hex[2 * n]) + digit(hex[2 * n + 1]));
    return n;
}

static void print_fields(const uint8_t *pattern, size_t pattern_length, const uint8_t *line, size_t length)
{
    static yindorka_field_tables tables;
    yindorka_fields_refusal refusal = CALL(yindorka_read_fields, pattern, pattern_length, &tables);
    yindorka_field fields[8];
    size_t span[2];

    if (refusal.number) {
        printf("refused %zu %zu\n", refusal.number, refusal.place);
        return;
    }
    if (!yindorka_fields(line, length, &tables, span, fields)) {
        puts("none");
        return;
    }
    printf("span %zu %zu", span[0], span[1]);
    for (size_t f = 0; f < tables.count; f++)
        if (fields[f].start == YINDORKA_ABSENT)
            printf(" absent");
        else
            printf(" %zu %zu", fields[f].start, fields[f].end);
    for (size_t f = tables.count; f < 8; f++)
        if (fields[f].start != YINDORKA_ABSENT || fields[f].end != YINDORKA_ABSENT)
            printf(" and a field too many");
    putchar('\n');
}

// Bytes of lowest after the last group that are not 0 are printed as well, and arrays that a refused pattern does not leave as they were.
static void print_groups(const uint8_t *pattern, size_t pattern_length)
{
    yindorka_group_table t;
    yindorka_groups_refusal refusal;

    memset(&t, TABLE_BYTE, sizeof t);
    refusal = CALL(yindorka_read_groups, pattern, pattern_length, &t);
    if (refusal.number) {
        printf("refused %zu %zu", refusal.number, refusal.place);
        for (size_t b = 0; b < 256; b++)
            if (t.group[b] != TABLE_BYTE || t.lowest[b] != TABLE_BYTE)
                printf(" and byte %zu changed", b);
        putchar('\n');
        return;
    }
    printf("groups");
    for (size_t b = 0; b < 256; b++)
        printf(" %u", t.group[b]);
    printf(" :");
    for (size_t g = 0; g < 256; g++)
        if (g < t.count || t.lowest[g])
            printf(" %u", t.lowest[g]);
    putchar('\n');
}

static int groups(const char *pattern_hex)
{
    uint8_t *pattern = room(strlen(pattern_hex) + 1);

    print_groups(pattern, read_hex(pattern_hex, pattern));
    free(pattern);
    return 1;
}

// Numbers that are to be 0 and are not are printed as well.
static int lengths(const char *pattern_hex)
{
    uint8_t *pattern = room(strlen(pattern_hex) + 1);
    yindorka_span_lengths x = CALL(yindorka_lengths, pattern, read_hex(pattern_hex, pattern));

    free(pattern);
    if (x.number)
        printf("refused %zu %zu", x.number, x.place);
    else
        printf("least %zu", x.least);
    if (x.limited == 1 && !x.number)
        printf(" greatest %zu", x.greatest);
    else if (x.limited || x.greatest || (x.number ? x.least : x.place))
        printf(" and %zu %zu %zu %zu", x.place, x.least, x.limited, x.greatest);
    else if (!x.number)
        printf(" no limit");
    putchar('\n');
    return 1;
}

static int record(const char *pattern_hex)
{
    uint8_t *pattern = room(strlen(pattern_hex) + 1);
    yindorka_record_size x = CALL(yindorka_record_bytes, pattern, read_hex(pattern_hex, pattern));

    free(pattern);
    if (x.number)
        printf("refused %zu %zu", x.number, x.place);
    else
        printf("bytes %zu", x.bytes);
    if (x.number ? x.bytes : x.place)
        printf(" and %zu %zu", x.place, x.bytes);
    putchar('\n');
    return 1;
}

static int readable(const char *pattern_hex, const char *line_hex)
{
    uint8_t *pattern = room(strlen(pattern_hex) + 1), *bytes = room(strlen(line_hex) + 1);
    size_t length = read_hex(pattern_hex, pattern), line_length = read_hex(line_hex, bytes);
    buffer line = lend(line_length, 0);
    yindorka_refusal refusal;

    memcpy(line.at, bytes, line_length);
    refusal = CALL(yindorka_readable, pattern, length, line.at, line.length);
    if (refusal.number)
        printf("refused %zu %zu", refusal.number, refusal.place);
    else
        printf("accepted");
    print_buffer(line);
    puts(guards_kept(line) ? "" : " : guard bytes changed");
    give_back(line);
    free(pattern);
    free(bytes);
    return 1;
}

// The first leaves, as many as have some byte; those after the last that has one are not seen.
static void print_leaves(const yindorka_tables *t)
{
    uint64_t all = 0;

    for (size_t b = 0; b < 256; b++)
        all |= t->masks[b];
    for (size_t p = 0; p < 64 && all >> p; p++) {
        printf(" : ");
        for (size_t b = 0; b < 256; b++)
            if (t->masks[b] >> p & 1)
                printf("%02zx", b);
        if (!(all >> p & 1))
            putchar('-');
    }
}

static int leaves(const char *pattern_hex)
{
    static yindorka_tables tables, before;
    uint8_t *pattern = room(strlen(pattern_hex) + 1);
    yindorka_refusal refusal;

    memset(&before, TABLE_BYTE, sizeof before);
    tables = before;
    refusal = CALL(yindorka_read, pattern, read_hex(pattern_hex, pattern), &tables);
    if (refusal.number)
        printf("refused %zu %zu%s", refusal.number, refusal.place, memcmp(&tables, &before, sizeof tables) ? " and changed" : "");
    else
        printf("accepted");
    if (!refusal.number)
        print_leaves(&tables);
    putchar('\n');
    free(pattern);
    return 1;
}

static int check_sets(const char *sets_hex)
{
    uint8_t *sets = room(strlen(sets_hex) + 1);
    yindorka_refusal refusal = yindorka_check_sets(sets, read_hex(sets_hex, sets));

    free(sets);
    if (refusal.number)
        printf("fails %zu %zu\n", refusal.number, refusal.place);
    else
        puts(refusal.place ? "passes, with a place" : "passes");
    return 1;
}

static int fixed_sets(void)
{
    uint8_t table[YINDORKA_SETS_SIZE];

    yindorka_fixed_sets(table);
    print_hex(table, sizeof table);
    putchar('\n');
    return 1;
}

// The buffers of a call.
typedef struct {
    buffer table;
    buffer witness;
    buffer area;
} buffers;

static buffers lend_all(const char *table_length, const char *witness_length, const char *area_length)
{
    return (buffers){lend(strtoul(table_length, NULL, 10), TABLE_BYTE), lend(strtoul(witness_length, NULL, 10), WITNESS_BYTE), lend(strtoul(area_length, NULL, 10), AREA_BYTE)};
}

static void give_all_back(buffers b)
{
    give_back(b.table);
    give_back(b.witness);
    give_back(b.area);
}

static int all_are(const uint8_t *bytes, size_t length, uint8_t byte)
{
    for (size_t i = 0; i < length; i++)
        if (bytes[i] != byte)
            return 0;
    return 1;
}

static const char *area_now(buffer area)
{
    if (all_are(area.at, area.length, AREA_BYTE))
        return "kept";
    if (area.length >= YINDORKA_AREA_SIZE && all_are(area.at, YINDORKA_AREA_SIZE, 0) && all_are(area.at + YINDORKA_AREA_SIZE, area.length - YINDORKA_AREA_SIZE, AREA_BYTE))
        return "zeroed";
    return "changed";
}

static int check(char *pattern_hex, buffers lent)
{
    uint8_t *pattern = room(strlen(pattern_hex) + 1);
    size_t length = read_hex(pattern_hex, pattern);
    yindorka_outcome outcome = CALL(yindorka_check, pattern, length, lent.table.at, lent.table.length, lent.witness.at, lent.witness.length, lent.area.at, lent.area.length);

    print_result(outcome, lent.witness);
    print_buffer(lent.table);
    print_buffer(lent.witness);
    printf(" : %s", area_now(lent.area));
    puts(guards_kept(lent.table) && guards_kept(lent.witness) && guards_kept(lent.area) ? "" : " : guard bytes changed");
    free(pattern);
    return 1;
}

static int equal_buffers(buffer a, buffer b)
{
    return a.length == b.length && memcmp(a.at, b.at, a.length) == 0 && guards_kept(a) && guards_kept(b);
}

static int looking(char *pattern_hex, buffers lent, buffers other)
{
    uint8_t *pattern = room(strlen(pattern_hex) + 1);
    size_t length = read_hex(pattern_hex, pattern);
    yindorka_looking x = CALL(yindorka_check_looking, pattern, length, lent.table.at, lent.table.length, lent.witness.at, lent.witness.length, lent.area.at, lent.area.length);
    yindorka_outcome y = CALL(yindorka_check, pattern, length, other.table.at, other.table.length, other.witness.at, other.witness.length, other.area.at, other.area.length);
    int same = x.outcome.kind == y.kind && x.outcome.first == y.first && x.outcome.second == y.second;

    printf("looks %zu comparisons %zu ", x.looks, x.comparisons);
    print_result(x.outcome, lent.witness);
    puts(same && equal_buffers(lent.table, other.table) && equal_buffers(lent.witness, other.witness) && equal_buffers(lent.area, other.area) ? "" : " : not as yindorka_check");
    free(pattern);
    return 1;
}

static int fields(char *pattern_hex, char *line_hex)
{
    uint8_t *pattern = room(strlen(pattern_hex) + 1), *line = room(strlen(line_hex) + 1);
    size_t length = read_hex(pattern_hex, pattern);

    print_fields(pattern, length, line, read_hex(line_hex, line));
    free(pattern);
    free(line);
    return 1;
}

static int spans(const char *pattern_hex, const char *line_hex)
{
    static yindorka_tables tables;
    uint8_t *pattern = room(strlen(pattern_hex) + 1), *line = room(strlen(line_hex) + 1);
    yindorka_refusal refusal = CALL(yindorka_read, pattern, read_hex(pattern_hex, pattern), &tables);
    size_t places[3];

    if (refusal.number)
        printf("refused %zu %zu\n", refusal.number, refusal.place);
    else if (!yindorka_spans(line, read_hex(line_hex, line), &tables, places))
        puts("none");
    else
        printf("greedy %zu %zu posix %zu %zu\n", places[0], places[1], places[0], places[2]);
    free(pattern);
    free(line);
    return 1;
}

// The checker, or the checker with how much looking it takes, by the pattern and three lengths.
static int call_lending(const char *what, char *pattern_hex, const char *t, const char *w, const char *a)
{
    buffers lent = lend_all(t, w, a), other = lend_all(t, w, a);
    int called = strcmp(what, "looking") == 0 ? looking(pattern_hex, lent, other) : strcmp(what, "check") == 0 ? check(pattern_hex, lent) : 0;

    give_all_back(lent);
    give_all_back(other);
    return called;
}

static int call_named(const char *what, char *first, char *second, const char *third, const char *fourth)
{
    if (strcmp(what, "fixed") == 0)
        return fixed_sets();
    if (!first)
        return 0;
    if (strcmp(what, "sets") == 0)
        return check_sets(first);
    if (strcmp(what, "leaves") == 0)
        return leaves(first);
    if (strcmp(what, "groups") == 0)
        return groups(first);
    if (strcmp(what, "lengths") == 0)
        return lengths(first);
    if (strcmp(what, "record") == 0)
        return record(first);
    if (!second)
        return 0;
    if (strcmp(what, "fields") == 0)
        return fields(first, second);
    if (strcmp(what, "readable") == 0)
        return readable(first, second);
    if (strcmp(what, "spans") == 0)
        return spans(first, second);
    if (!third || !fourth)
        return 0;
    return call_lending(what, first, second, third, fourth);
}

// The word of the call, after the table that it is to be made with, if there is one.
static char *load_sets(char *word)
{
    static uint8_t sets[65536];

    own_sets = NULL;
    if (!word || strcmp(word, "with") != 0)
        return word;
    word = strtok(NULL, " \n");
    if (!word || strlen(word) > sizeof sets)
        return NULL;
    own_sets_length = read_hex(word, sets);
    own_sets = sets;
    return strtok(NULL, " \n");
}

int main(void)
{
    char *line = NULL;
    size_t size = 0;

    while (getline(&line, &size, stdin) >= 0) {
        char *what = load_sets(strtok(line, " \n")), *first = strtok(NULL, " \n"), *second = strtok(NULL, " \n"), *third = strtok(NULL, " \n"), *fourth = strtok(NULL, " \n");

        if (!what || !call_named(what, first, second, third, fourth))
            return 2;
    }
    free(line);
    return 0;
}
