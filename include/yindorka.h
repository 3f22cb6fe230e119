/* Yindorka for C: both readings of a line, the fields of the greedy one, how long the spans and what the byte groups of a pattern are, and the checker; each with the fixed
 * named sets, those of the POSIX locale over ASCII, or with a carrier's own.
 *
 * Every function is proved to meet the promise beside it, for every content of every buffer (crates/yindorka/src/lib.rt has the contracts).
 * No function allocates, keeps a state between calls or writes anywhere but to the buffers named; so each may be called from any number of threads,
 * as long as no two calls share a buffer that one of them writes. No function fails: what is no pattern is refused with a number and a place.
 * A pointer to a buffer of length 0 must not be null. Linux on x86-64.
 *
 * The greedy reading takes the first alternative first and leaves a repeat (*, + or {m,}) after a turn that takes nothing, as Perl does; a repeat with a ? after it is
 * lazy, and then it leaves as soon as the rest of the pattern allows. The POSIX reading takes the longest match and does not look at that ?. Both begin at the leftmost
 * start.
 *
 * The stack is not proved. It was measured over some 25,000 patterns, the deepest and the heaviest among them, for 1.0.0, and for each version since over those that
 * took the most; tests/embedding holds it:
 * yindorka_check takes at most 180 KB, yindorka_prepare 180 KB, yindorka_cut 2 KB, yindorka_prepare_fields 180 KB, yindorka_cut_fields 20 KB, yindorka_groups 180 KB,
 * yindorka_readable 180 KB, yindorka_check_looking 180 KB, yindorka_lengths 180 KB, yindorka_record_bytes 180 KB. The calls that end in _with_sets take no more than those
 * without, and yindorka_check_sets takes 1 KB. The size of a line or a table changes nothing in this.
 */
#ifndef YINDORKA_H
#define YINDORKA_H

#include <stddef.h>
#include <stdint.h>

/* The version of this header: 10,000 times the first number, 100 times the second, and the third. */
#define YINDORKA_VERSION "1.9.0"
#define YINDORKA_VERSION_NUMBER 10900

#ifdef __cplusplus
extern "C" {
#endif

/* The version of the library that is linked; it fits this header if it is YINDORKA_VERSION_NUMBER. */
uint32_t yindorka_version(void);

/* The tables of an accepted pattern: filled by yindorka_prepare, read by yindorka_cut. They hold no pointer and may be copied.
 * next and hows are facts that follow from the others, worked out once for all lines: what the first leaves want after each byte and the leaves after which an end
 * stands; and how the bytes that begin or end a match are looked for. */
typedef struct {
    uint64_t masks[256];
    uint8_t rows[4225];
    uint8_t lens[65];
    uint64_t sets[65];
    uint8_t ends[65];
    uint64_t next[257];
    uint8_t hows[10];
} yindorka_tables;

/* Their size in bytes, padding included. */
#define YINDORKA_TABLES_SIZE 9008

/* number 0: accepted. Else the pattern is refused with that number (1 to 8) at that place, a byte offset; or, by a call with a table of named sets of its own, with 14 if the
 * table fails: see yindorka_check_sets. */
typedef struct {
    size_t number;
    size_t place;
} yindorka_refusal;

/* The named sets of a table: entry b, of 256, has the bits of the sets that hold the byte b. So a pattern's [[:alpha:]] holds b if entry b has the bit YINDORKA_ALPHA. */
#define YINDORKA_SETS_SIZE 256
#define YINDORKA_ALPHA 128
#define YINDORKA_DIGIT 64
#define YINDORKA_ALNUM 32
#define YINDORKA_UPPER 16
#define YINDORKA_LOWER 8
#define YINDORKA_XDIGIT 4
#define YINDORKA_SPACE 2
#define YINDORKA_PUNCT 1

/* How long the spans of an accepted pattern can be. number 0: every span of either reading has least bytes or more; and, if limited is 1, greatest bytes or fewer. If limited
 * is 0 there is no limit, and greatest is 0. Else the pattern is refused with that number (1 to 8, or 14) at that place, and the others are 0. */
typedef struct {
    size_t number;
    size_t place;
    size_t least;
    size_t limited;
    size_t greatest;
} yindorka_span_lengths;

/* The tables of an accepted pattern for fields: filled by yindorka_read_fields, read by yindorka_fields. marks has for each outcome of a row the fields that are opened
 * and closed on the way to it; count is how many fields the pattern has, at most 8. */
typedef struct {
    yindorka_tables tables;
    uint16_t marks[4225];
    size_t count;
} yindorka_field_tables;

#define YINDORKA_FIELD_TABLES_SIZE 17472

/* What the bracket of a field takes of a line, from its start to before its end; both are YINDORKA_ABSENT if the field is absent. */
typedef struct {
    size_t start;
    size_t end;
} yindorka_field;

#define YINDORKA_ABSENT SIZE_MAX

/* number 0: accepted, with count fields. Else the pattern is refused with that number (1 to 8, 12, or 14) at that place, and count is 0. */
typedef struct {
    size_t number;
    size_t place;
    size_t count;
} yindorka_fields_refusal;

/* The byte groups of an accepted pattern: two bytes share a group exactly if each leaf's set holds both or neither, so that no line is cut otherwise where one stands for the
 * other. group has the number of each byte's group. Groups are numbered by their lowest byte, upwards from 0: a pattern's numbers are the same in every version from 1.3.0 on.
 * lowest has the lowest byte of each group, with zeros after the last; count is how many there are, at most 256. */
typedef struct {
    uint8_t group[256];
    uint8_t lowest[256];
    size_t count;
} yindorka_group_table;

/* number 0: accepted, with count groups. Else the pattern is refused with that number (1 to 8, or 14) at that place, and count is 0. */
typedef struct {
    size_t number;
    size_t place;
    size_t count;
} yindorka_groups_refusal;

/* found 1: the greedy span. Bit f - 1 of known: field f has a start; bit f + 7: it has an end. Without either it is absent. found 0: no part of the line matches. */
typedef struct {
    size_t found;
    size_t start;
    size_t end;
    size_t known;
} yindorka_spanned;

/* number 0: accepted, and a record of the pattern has so many bytes: 13, and six bits for each of its leaves written out, rounded up: 13 to 61. Else the pattern is refused
 * with that number (1 to 8, or 14) at that place, and bytes is 0. */
typedef struct {
    size_t number;
    size_t place;
    size_t bytes;
} yindorka_record_size;

/* kind 0, alike: no line of any length is cut differently; first is the number of records, 0 if the test settled it and no record was needed.
 * kind 1, unlike: first is the number of records, second the length of the first line that is cut differently.
 * kind 2, refused: first is the number (1 to 8, 10, 11, 13, or 14), second the place. */
typedef struct {
    size_t kind;
    size_t first;
    size_t second;
} yindorka_outcome;

/* An outcome, and how much looking through the records it took. There is a look for each record's line carried on by the lowest byte of each group, until the verdict is
 * reached. It compares the records that there are one by one, from record 0 on, up to the first of the same standing: that one's number plus 1, or all of them if none has
 * the standing. looks is how many looks there were, comparisons how many records they compared in all; a number above SIZE_MAX would be SIZE_MAX. A refusal 1 to 8, 13 or 14
 * takes none, and neither does a pattern that the test settles. */
typedef struct {
    yindorka_outcome outcome;
    size_t looks;
    size_t comparisons;
} yindorka_looking;

/* Fills an array with the fixed table of named sets, from which a carrier's own can be made: for a code page where 0xC4 is a capital letter its entry 0xC4 gets the bits
 * YINDORKA_ALPHA | YINDORKA_ALNUM | YINDORKA_UPPER. */
void yindorka_fixed_sets(uint8_t table[YINDORKA_SETS_SIZE]);

/* Checks a table of named sets of any length and content. number 0: it passes. Else number is 14, and place its lowest failing entry, or 256 if its length is not 256, which
 * is looked at first. An entry passes if alnum is alpha or digit (its bit is set exactly if one of theirs is); upper and lower lie within alpha, digit within xdigit; alpha and
 * digit are not both set; and neither are punct and alnum, nor punct and space. */
yindorka_refusal yindorka_check_sets(const uint8_t *sets, size_t sets_length);

/* Each call that takes a pattern has one that takes a table of named sets before it, and ends in _with_sets: spans, fields, groups, lengths and verdicts are then those of the
 * sets loaded. A table that fails is 14 at its place, ahead of every refusal of the pattern and of 13, and every buffer keeps every byte. The tables of a pattern that is
 * read with such sets serve yindorka_cut and yindorka_cut_fields as those of any other. */

/* The functions as the library has them. yindorka_read, yindorka_spans, yindorka_read_fields and yindorka_fields below are easier to call. */
yindorka_refusal yindorka_prepare(const uint8_t *pattern, size_t pattern_length, uint64_t masks[256], uint8_t rows[4225], uint8_t lens[65], uint64_t sets[65],
                                  uint8_t ends[65], uint64_t next[257], uint8_t hows[10]);
yindorka_refusal yindorka_prepare_with_sets(const uint8_t *own_sets, size_t own_sets_length, const uint8_t *pattern, size_t pattern_length, uint64_t masks[256],
                                            uint8_t rows[4225], uint8_t lens[65], uint64_t sets[65], uint8_t ends[65], uint64_t next[257], uint8_t hows[10]);
size_t yindorka_cut(const uint8_t *line, size_t line_length, const uint64_t masks[256], const uint8_t rows[4225], const uint8_t lens[65], const uint64_t sets[65],
                    const uint8_t ends[65], const uint64_t next[257], const uint8_t hows[10], size_t spans[3]);

yindorka_fields_refusal yindorka_prepare_fields(const uint8_t *pattern, size_t pattern_length, uint64_t masks[256], uint8_t rows[4225], uint8_t lens[65], uint64_t sets[65],
                                                uint8_t ends[65], uint64_t next[257], uint8_t hows[10], uint16_t marks[4225]);
yindorka_fields_refusal yindorka_prepare_fields_with_sets(const uint8_t *own_sets, size_t own_sets_length, const uint8_t *pattern, size_t pattern_length, uint64_t masks[256],
                                                          uint8_t rows[4225], uint8_t lens[65], uint64_t sets[65], uint8_t ends[65], uint64_t next[257], uint8_t hows[10],
                                                          uint16_t marks[4225]);
yindorka_spanned yindorka_cut_fields(const uint8_t *line, size_t line_length, const uint64_t masks[256], const uint8_t rows[4225], const uint8_t lens[65],
                                     const uint64_t sets[65], const uint8_t ends[65], const uint64_t next[257], const uint8_t hows[10], const uint16_t marks[4225],
                                     size_t places[16]);

/* The least and the greatest length that the pattern could match, neither above 64, each leaf counted as 1 whatever its set: a class that holds no byte counts too. There is
 * no limit if *, + or {m,} stands over a part whose greatest length is not 0, unless {0} or {0,0} stands over it. A ? after a repeat changes nothing. Where each class holds
 * some byte, some line has a span of the least length, and some a POSIX span of the greatest, or of more than any number of bytes. */
yindorka_span_lengths yindorka_lengths(const uint8_t *pattern, size_t pattern_length);
yindorka_span_lengths yindorka_lengths_with_sets(const uint8_t *sets, size_t sets_length, const uint8_t *pattern, size_t pattern_length);

/* The groups as arrays; yindorka_read_groups below is easier to call. */
yindorka_groups_refusal yindorka_groups(const uint8_t *pattern, size_t pattern_length, uint8_t group[256], uint8_t lowest[256]);
yindorka_groups_refusal yindorka_groups_with_sets(const uint8_t *sets, size_t sets_length, const uint8_t *pattern, size_t pattern_length, uint8_t group[256],
                                                  uint8_t lowest[256]);

/* Replaces each byte of the line that is not printable ASCII (32 to 126) by a printable one of its group, where there is one: the first of 48 to 126, then of 33 to 47, then
 * the space. Both readings cut the line at the same places as before; so a witness with bytes that nobody can type is shown by one that is cut differently at the same
 * places. A refused pattern leaves the line as it is. */
yindorka_refusal yindorka_readable(const uint8_t *pattern, size_t pattern_length, uint8_t *line, size_t line_length);
yindorka_refusal yindorka_readable_with_sets(const uint8_t *sets, size_t sets_length, const uint8_t *pattern, size_t pattern_length, uint8_t *line, size_t line_length);

/* How many bytes each record of the pattern takes in the table of yindorka_check: a table for n records has n times as many. */
yindorka_record_size yindorka_record_bytes(const uint8_t *pattern, size_t pattern_length);
yindorka_record_size yindorka_record_bytes_with_sets(const uint8_t *sets, size_t sets_length, const uint8_t *pattern, size_t pattern_length);

/* The bytes of the area that yindorka_check needs. */
#define YINDORKA_AREA_SIZE 1024

/* Decides whether a greedy and a POSIX reading of the pattern can ever cut a line differently.
 * First a test that needs no table: it passes exactly if no string that the pattern matches extends to a longer one that it matches, as of patterns with a fixed ending. Then
 * the pattern is alike, with 0 records, whatever table and witness buffer are, and they keep every byte. Else the records decide.
 * Writes: the table, whose slots are its length divided by the bytes of a record (yindorka_record_bytes), at most 65,535: the records found, from its start on, the rest
 * kept; the witness buffer, only for kind 1: the first line that is cut differently, at its start, the rest kept; the area, in which the test runs: its first 1,024 bytes are
 * zero afterwards, whatever they held, and the rest is kept. A refusal 1 to 8 or 14 keeps all three, and so does 13: the area is below 1,024 bytes. 10: more records are needed
 * than there are slots, all slots hold records; 11: all records are written, but the witness is longer than its buffer. A witness has fewer bytes than there are records,
 * so a buffer with a byte for each slot is never too short. Buffers of any lengths, 0 included; no two of them may overlap. */
yindorka_outcome yindorka_check(const uint8_t *pattern, size_t pattern_length, uint8_t *table, size_t table_length, uint8_t *witness, size_t witness_length, uint8_t *area,
                                size_t area_length);
yindorka_outcome yindorka_check_with_sets(const uint8_t *sets, size_t sets_length, const uint8_t *pattern, size_t pattern_length, uint8_t *table, size_t table_length,
                                          uint8_t *witness, size_t witness_length, uint8_t *area, size_t area_length);

/* The same, and how much looking it took. */
yindorka_looking yindorka_check_looking(const uint8_t *pattern, size_t pattern_length, uint8_t *table, size_t table_length, uint8_t *witness, size_t witness_length,
                                        uint8_t *area, size_t area_length);
yindorka_looking yindorka_check_looking_with_sets(const uint8_t *sets, size_t sets_length, const uint8_t *pattern, size_t pattern_length, uint8_t *table, size_t table_length,
                                                  uint8_t *witness, size_t witness_length, uint8_t *area, size_t area_length);

/* Reads a pattern and fills its tables, which then serve any number of lines. A refused pattern leaves them as they are. */
static inline yindorka_refusal yindorka_read(const uint8_t *pattern, size_t length, yindorka_tables *t)
{
    return yindorka_prepare(pattern, length, t->masks, t->rows, t->lens, t->sets, t->ends, t->next, t->hows);
}

static inline yindorka_refusal yindorka_read_with_sets(const uint8_t *sets, size_t sets_length, const uint8_t *pattern, size_t length, yindorka_tables *t)
{
    return yindorka_prepare_with_sets(sets, sets_length, pattern, length, t->masks, t->rows, t->lens, t->sets, t->ends, t->next, t->hows);
}

/* Both spans of a line of any length, by the tables of an accepted pattern: 1, with the start of both in spans[0], the greedy end in spans[1] and the POSIX end in
 * spans[2]; or 0, and spans kept, if no part of the line matches. Linear in the line. */
static inline int yindorka_spans(const uint8_t *line, size_t length, const yindorka_tables *t, size_t spans[3])
{
    return (int)yindorka_cut(line, length, t->masks, t->rows, t->lens, t->sets, t->ends, t->next, t->hows, spans);
}

/* The byte groups of a pattern, for the operators' screen, which colours bytes by group. A refused pattern leaves the table as it is. */
static inline yindorka_groups_refusal yindorka_read_groups(const uint8_t *pattern, size_t length, yindorka_group_table *t)
{
    yindorka_groups_refusal refusal = yindorka_groups(pattern, length, t->group, t->lowest);

    if (refusal.number == 0)
        t->count = refusal.count;
    return refusal;
}

static inline yindorka_groups_refusal yindorka_read_groups_with_sets(const uint8_t *sets, size_t sets_length, const uint8_t *pattern, size_t length, yindorka_group_table *t)
{
    yindorka_groups_refusal refusal = yindorka_groups_with_sets(sets, sets_length, pattern, length, t->group, t->lowest);

    if (refusal.number == 0)
        t->count = refusal.count;
    return refusal;
}

/* Fields. Field 1 is the pattern's first opening (, field 2 the second, and so on; every ( counts but \( and one in a class. A field is what its bracket took in the last
 * turn along the most preferred way of the greedy reading; it is absent if that way never enters the bracket. An empty turn is a turn: it starts and ends at one place.
 * A field keeps its last turn although a later turn of a bracket around it does not enter it: by (a|(b))* on ba field 1 is a and field 2 is b. The copies that a repeat
 * is written out to belong to one field, and under {0} a field is always absent. More than eight ( in an accepted pattern are refused with 12, at the ninth. */

/* Reads a pattern for fields. A refused pattern leaves the tables as they are. */
static inline yindorka_fields_refusal yindorka_read_fields(const uint8_t *pattern, size_t length, yindorka_field_tables *t)
{
    yindorka_tables *own = &t->tables;
    yindorka_fields_refusal refusal = yindorka_prepare_fields(pattern, length, own->masks, own->rows, own->lens, own->sets, own->ends, own->next, own->hows, t->marks);

    if (refusal.number == 0)
        t->count = refusal.count;
    return refusal;
}

static inline yindorka_fields_refusal yindorka_read_fields_with_sets(const uint8_t *sets, size_t sets_length, const uint8_t *pattern, size_t length, yindorka_field_tables *t)
{
    yindorka_tables *own = &t->tables;
    yindorka_fields_refusal refusal =
        yindorka_prepare_fields_with_sets(sets, sets_length, pattern, length, own->masks, own->rows, own->lens, own->sets, own->ends, own->next, own->hows, t->marks);

    if (refusal.number == 0)
        t->count = refusal.count;
    return refusal;
}

/* The greedy span of a line of any length and its fields, by the tables of an accepted pattern: 1, with its start in span[0] and its end in span[1], and each of the
 * eight fields, those that the pattern has not being absent; or 0, and both kept, if no part of the line matches. Linear in the line. */
static inline int yindorka_fields(const uint8_t *line, size_t length, const yindorka_field_tables *t, size_t span[2], yindorka_field fields[8])
{
    const yindorka_tables *own = &t->tables;
    size_t places[16];
    yindorka_spanned x = yindorka_cut_fields(line, length, own->masks, own->rows, own->lens, own->sets, own->ends, own->next, own->hows, t->marks, places);

    if (x.found != 1)
        return 0;
    span[0] = x.start;
    span[1] = x.end;
    for (size_t f = 0; f < 8; f++) {
        int there = (x.known >> f & 1) && (x.known >> (f + 8) & 1);

        fields[f].start = there ? places[f] : YINDORKA_ABSENT;
        fields[f].end = there ? places[f + 8] : YINDORKA_ABSENT;
    }
    return 1;
}

#ifdef __cplusplus
}
#endif

#endif
