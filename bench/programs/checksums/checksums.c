/*
 * The checksum beside a table of 256 entries and zlib's.
 *
 *     checksums agree    all must agree with the checksum bit by bit, at every length up to 4,096
 *     checksums time     nanoseconds a call: bytes, proved, 256 entries, zlib
 *     checksums count    each call once, between two marks, for bench/count.py: way, bytes
 *     checksums zlib     the version of zlib
 */
#include "bits.h"
#include "mark.h"
#include "bench/programs/rivals/table.h"
#include "turns.h"

#include <stdbool.h>
#include <stdio.h>
#include <string.h>

typedef uint32_t checksum_fn(const uint8_t *bytes, size_t count);

/* Rattle: the export of checksum::checksum_of. */
checksum_fn proved_checksum;

/* As zlib.h has them, which a cross compiler has not. */
unsigned long crc32(unsigned long sum, const unsigned char *bytes, unsigned count);
const char *zlibVersion(void);

/* zlib inverts at the end, and we do not. */
static uint32_t zlib_checksum(const uint8_t *bytes, size_t count)
{
    return ~(uint32_t)crc32(0, bytes, (unsigned)count);
}

static uint32_t no_checksum(const uint8_t *bytes, size_t count)
{
    (void)bytes, (void)count;
    return 0;
}

enum { PROVED, TABLE, ZLIB, NOTHING, WAYS };
enum { LONGEST = 65536, CALLS_MOST = 4096, PASSES = 40, TURNS = 25 };

static const size_t sizes[] = {1, 8, 33, 64, 1024, 1721, 65536};
enum { SIZES = sizeof sizes / sizeof *sizes };

static struct way {
    const char *name;
    checksum_fn *sum;
    size_t count;
} ways[WAYS] = {
    [PROVED] = {"proved", proved_checksum, 0},
    [TABLE] = {"256 entries", table_checksum, 0},
    [ZLIB] = {"zlib", zlib_checksum, 0},
    [NOTHING] = {"nothing", no_checksum, 0},
};

static uint8_t bytes[LONGEST];
static volatile uint32_t sink;

static void sum_often(void *subject, size_t calls)
{
    const struct way *way = subject;
    for (size_t i = 0; i < calls; i++)
        sink = way->sum(bytes, way->count);
}

static bool all_agree(void)
{
    for (size_t count = 0; count <= 4096; count++)
        for (int way = 0; way < NOTHING; way++)
            if (ways[way].sum(bytes, count) != checksum_by_bits(bytes, count)) {
                fprintf(stderr, "%s differs at %zu bytes\n", ways[way].name, count);
                return false;
            }
    return true;
}

static void time_size(size_t count, double *best)
{
    struct contender contenders[WAYS];
    for (int way = 0; way < WAYS; way++) {
        ways[way].count = count;
        contenders[way] = (struct contender){NULL, sum_often, &ways[way], best[way]};
    }
    take_turns(contenders, WAYS, calls_in_a_turn(contenders, WAYS, CALLS_MOST), TURNS);
    for (int way = 0; way < WAYS; way++)
        best[way] = contenders[way].best;
}

static void time_all(void)
{
    double best[SIZES][WAYS];
    for (int size = 0; size < SIZES; size++)
        for (int way = 0; way < WAYS; way++)
            best[size][way] = 1e18;
    for (int pass = 0; pass < PASSES; pass++)
        for (int size = 0; size < SIZES; size++)
            time_size(sizes[size], best[size]);
    for (int size = 0; size < SIZES; size++) {
        printf("%zu", sizes[size]);
        for (int way = 0; way < NOTHING; way++)
            printf("\t%.2f", best[size][way] - best[size][NOTHING]);
        printf("\n");
    }
}

static void count_all(void)
{
    for (int size = 0; size < SIZES; size++)
        for (int way = 0; way < NOTHING; way++) {
            printf("%s\t%zu\n", ways[way].name, sizes[size]);
            mark();
            sink = ways[way].sum(bytes, sizes[size]);
            mark();
        }
}

int main(int count, char **words)
{
    if (count != 2)
        return 2;
    uint32_t noise = 1;
    for (size_t i = 0; i < LONGEST; i++)
        bytes[i] = (uint8_t)((noise = noise * 1664525u + 1013904223u) >> 24);
    make_table();
    if (strcmp(words[1], "agree") == 0)
        return all_agree() ? 0 : 1;
    if (strcmp(words[1], "time") == 0)
        time_all();
    if (strcmp(words[1], "count") == 0)
        count_all();
    if (strcmp(words[1], "zlib") == 0)
        puts(zlibVersion());
    return 0;
}
