/* Times the checker on each word of the command line, with a table of 65,535 slots and a witness buffer of 8,192 bytes: milliseconds of processor time, the best of three, the verdict, how many
 * records a second it wrote, how many records its looks compared, and the nanoseconds that each comparison took if all the time is theirs. Last, without a table, and so without a search: milliseconds of reading the pattern, its
 * follow tables and the test, and of these how many are the test's: what an area that is too short for it saves. */
#include <stdio.h>
#include <string.h>
#include <time.h>
#include "../include/yindorka.h"

static uint8_t table[64 * 65535];
static uint8_t witness[8192];
static uint8_t area[YINDORKA_AREA_SIZE];

static double now(void)
{
    struct timespec t;
    clock_gettime(CLOCK_PROCESS_CPUTIME_ID, &t);
    return 1e3 * (double)t.tv_sec + (double)t.tv_nsec / 1e6;
}

/* The best of so many calls without a slot, with an area of that length. */
static double without_a_table(const char *pattern, size_t area_length)
{
    double best = 0;
    for (int k = 0; k < 200; k++) {
        double start = now();
        yindorka_check((const uint8_t *)pattern, strlen(pattern), table, 0, witness, 0, area, area_length);
        double t = now() - start;
        best = k == 0 || t < best ? t : best;
    }
    return best;
}

int main(int n, char **words)
{
    static const char *kinds[] = {"alike", "unlike", "refused"};
    for (int i = 1; i < n; i++) {
        double best = 0;
        yindorka_looking x = {{0, 0, 0}, 0, 0};
        for (int k = 0; k < 3; k++) {
            double start = now();
            x = yindorka_check_looking((const uint8_t *)words[i], strlen(words[i]), table, sizeof table, witness, sizeof witness, area, sizeof area);
            double t = now() - start;
            best = k == 0 || t < best ? t : best;
        }
        yindorka_outcome o = x.outcome;
        /* Of the refusals only 10 leaves records, all slots of them. */
        size_t records = o.kind < 2 ? o.first : o.first == 10 ? 65535 : 0;
        double tested = without_a_table(words[i], sizeof area);
        printf("%-42.42s %10.2f ms  %-7s %6zu %6zu %12.0f records/s %12zu comparisons %8.2f ns each %8.3f ms without a table, %7.4f the test's\n", words[i], best, kinds[o.kind], o.first, o.second,
               1e3 * (double)records / best, x.comparisons, x.comparisons ? 1e6 * best / (double)x.comparisons : 0.0, tested, tested - without_a_table(words[i], 0));
        fflush(stdout);
    }
    return 0;
}
