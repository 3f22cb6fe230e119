/* One build of the library as a shared object of its own, for bench/engines: compiled against the header and the archive of that build, it keeps their names to itself, so that two
 * builds, even with different tables, can be loaded into one process. Whoever loads it knows the size of the tables, and no more of them. */
#include "yindorka.h"

/* The tables are the caller's to keep, so the caller needs their size. */
size_t side_size(void)
{
    return sizeof(yindorka_tables);
}

/* 1 if the pattern is taken; its tables then serve every line, as in a program that reads a pattern once. */
int side_read(const uint8_t *pattern, size_t length, void *tables)
{
    return yindorka_read(pattern, length, tables).number == 0;
}

/* Both spans of one line. This call on top of the library's own is part of our time; it takes a nanosecond or two a line. */
int side_spans(const uint8_t *line, size_t length, const void *tables, size_t spans[3])
{
    return yindorka_spans(line, length, tables, spans);
}
