/* One level tuned again and again and then deleted: what a lookup takes before and after the deletion, and an insert of the level behind
 * it; the table of PERFORMANCE.md, "A level tuned often and then deleted":
 *   tools/staticlib
 *   gcc -std=c11 -Wall -Wextra -O2 -Iinclude docs/hot_level.c target/staticlib/libcapi.a -o target/hot_level && target/hot_level
 * Processor time; of each number the least of five rounds.
 */
#define _POSIX_C_SOURCE 199309L
#include <stdio.h>
#include <stdlib.h>
#include <string.h>
#include <time.h>
#include "level_store.h"

enum { K = 4, LEVEL = 7, ROUNDS = 5 };

static uint8_t *data, *spare, *ram;
static size_t data_len, spare_len, ram_len;
static level_store_state state;
#define LENT data, data_len, spare, spare_len, ram, ram_len

static void hold(int condition, const char *what)
{
    if (!condition) {
        fprintf(stderr, "hot_level: %s\n", what);
        exit(1);
    }
}

static void after(level_store_change c)
{
    hold(c.refusal == LEVEL_STORE_OK, level_store_refusal_text(c.refusal));
    state = c.state;
}

static double micros(void)
{
    struct timespec t;
    clock_gettime(CLOCK_PROCESS_CPUTIME_ID, &t);
    return (double)t.tv_sec * 1e6 + (double)t.tv_nsec / 1e3;
}

/* Lookups, so many in a round that it can be timed. */
static double lookup(unsigned calls, level_store_lookup_result *answer)
{
    double best = 1e12, start;
    unsigned round, i;
    for (round = 0; round < ROUNDS; round++) {
        start = micros();
        for (i = 0; i < calls; i++)
            *answer = level_store_lookup(state, LEVEL, LENT);
        start = (micros() - start) / calls;
        best = start < best ? start : best;
    }
    return best;
}

/* Inserts, each undone by a deletion: the next one tests a record more. */
static double insert(void)
{
    double best = 1e12, start;
    unsigned round;
    for (round = 0; round < ROUNDS; round++) {
        start = micros();
        after(level_store_insert(state, LEVEL, 40, 0, 0, LENT));
        start = micros() - start;
        best = start < best ? start : best;
        after(level_store_delete(state, LEVEL, LENT));
    }
    return best;
}

static void row(uint32_t S, uint32_t tunings)
{
    uint32_t R = (tunings + ROUNDS) / (4 * S) + 1, D = (tunings + ROUNDS) / (16 * S) + 1, i;
    level_store_state none;
    level_store_lookup_result found, missed;
    double before, behind;
    memset(&none, 0, sizeof none);
    data = malloc(data_len = LEVEL_STORE_DATA_SIZE(S, R, D));
    spare = malloc(spare_len = LEVEL_STORE_SPARE_SIZE(S, R, D));
    ram = malloc(ram_len = LEVEL_STORE_RAM_SIZE(S));
    hold(data && spare && ram, "no memory");
    after(level_store_format(none, S, R, D, K, LENT));
    for (i = 0; i < tunings; i++)
        after(level_store_update(state, LEVEL, i, 0, 0, LENT));
    before = lookup(1000, &found);
    after(level_store_delete(state, LEVEL, LENT));
    behind = lookup(1, &missed);
    hold(found.found == 1 && missed.found == 0 && missed.refusal == LEVEL_STORE_OK, "wrong answer");
    printf("| %u | %u | %.2f | %llu | %.0f | %u | %llu | %.0f |\n", S, tunings, before, (unsigned long long)found.deletion_count, behind,
        missed.count, (unsigned long long)missed.deletion_count, insert());
    fflush(stdout);
    free(data);
    free(spare);
    free(ram);
}

int main(void)
{
    static const uint32_t sizes[] = {16, 64, 512}, tunings[] = {1000, 10000, 100000};
    unsigned i, j;
    puts("| S | tunings | lookup us | DA pages | lookup after the deletion us | pages | DA pages | insert us |");
    puts("|---|---|---|---|---|---|---|---|");
    for (i = 0; i < 3; i++)
        for (j = 0; j < 3; j++)
            row(sizes[i], tunings[j]);
    return 0;
}
