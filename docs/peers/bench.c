/* bench MODE PATH N: N inserts, N updates, N lookups that hit and N that miss by the peer that is linked, every answer checked. Prints
 * one line: processor time of each of the four in microseconds a call, bytes written by an insert and by an update, bytes of memory.
 * run.py builds and runs it.
 */
#define _POSIX_C_SOURCE 199309L
#include <stdio.h>
#include <stdlib.h>
#include <string.h>
#include <time.h>
#include "peer.h"

void fail(const char *what)
{
    fprintf(stderr, "bench: %s\n", what);
    exit(1);
}

/* Of the whole process, so that other threads' work counts too. */
static double micros(void)
{
    struct timespec t;
    clock_gettime(CLOCK_PROCESS_CPUTIME_ID, &t);
    return (double)t.tv_sec * 1e6 + (double)t.tv_nsec / 1e3;
}

/* The number behind a word in a file of /proc. */
static uint64_t number(const char *file, const char *word)
{
    char line[256];
    uint64_t n = 0;
    FILE *f = fopen(file, "r");
    if (f == NULL)
        fail(file);
    while (fgets(line, sizeof line, f) != NULL)
        if (strncmp(line, word, strlen(word)) == 0)
            n = strtoull(line + strlen(word), NULL, 10);
    fclose(f);
    return n;
}

static uint64_t written(void) { return number("/proc/self/io", "wchar:") + peer_written(); }
static uint64_t memory(void) { return 1024 * number("/proc/self/status", "RssAnon:"); }

/* Level number i: all differ, and have no order. */
static uint32_t level(uint32_t i)
{
    i = (i ^ i >> 16) * 0x7FEB352D;
    i = (i ^ i >> 15) * 0x846CA68B;
    return i ^ i >> 16;
}

static uint32_t random_below(uint32_t bound)
{
    static uint64_t x = 0x9E3779B97F4A7C15;
    x ^= x << 13;
    x ^= x >> 7;
    x ^= x << 17;
    return (uint32_t)((x >> 32) * bound >> 32);
}

static uint32_t n, *moves; /* of each level */

static void insert(uint32_t i)
{
    record r = {level(i), moves[i] = i, 100, 0};
    peer_insert(&r);
}

static void update(uint32_t i)
{
    uint32_t which = random_below(n);
    record r = {level(which), moves[which] = n + i, 200, 0};
    peer_update(&r);
}

static void hit(uint32_t i)
{
    uint32_t which = random_below(n);
    record r;
    (void)i;
    if (!peer_lookup(level(which), &r) || r.key != level(which) || r.moves != moves[which])
        fail("wrong answer");
}

static void miss(uint32_t i)
{
    record r;
    if (peer_lookup(level(n + i), &r))
        fail("wrong hit");
}

int main(int argc, char **argv)
{
    static void (*const calls[])(uint32_t) = {insert, update, hit, miss};
    double time[4];
    uint64_t bytes[5], before, most = 0;
    uint32_t i;
    unsigned which;
    if (argc != 4)
        fail("usage: bench MODE PATH N");
    n = (uint32_t)atol(argv[3]);
    moves = calloc(n, sizeof *moves);
    if (moves == NULL)
        fail("no memory");
    for (i = 0; i < n; i++)
        moves[i] = 1; /* the pages are there now, and not counted */
    before = memory();
    peer_open(argv[2], argv[1], 2 * n, n);
    bytes[0] = written();
    for (which = 0; which < 4; which++) {
        double start = micros();
        for (i = 0; i < n; i++)
            calls[which](i);
        time[which] = (micros() - start) / n;
        bytes[which + 1] = written();
        most = memory() - before > most ? memory() - before : most;
    }
    if (peer_memory() != 0)
        most = peer_memory();
    printf("%.3f %.3f %.3f %.3f %.1f %.1f %llu\n", time[0], time[1], time[2], time[3], (double)(bytes[1] - bytes[0]) / n,
        (double)(bytes[2] - bytes[1]) / n, (unsigned long long)most);
    peer_close();
    return 0;
}
