/* What it costs a driver to learn a call's steps, by two recipes, beside the call itself; the tables of PERFORMANCE.md, "A driver's steps":
 *   tools/staticlib
 *   gcc -std=c11 -Wall -Wextra -O2 -Iinclude docs/driver_cost.c target/staticlib/libcapi.a -o target/driver_cost && target/driver_cost
 * Growing: the call with budget 1, then restarts on the same bytes with a budget of 1 that grows while there are only erases, as
 * examples/driver.c has it. From a copy: the call with budgets 1, 2, 3 and so on, each on the bytes before the call. Both find the step by
 * the spare bytes and do it on the chip proper, another array, which has to be equal to the lent copy in the end. Processor time; of each
 * number the least of five rounds.
 */
#define _POSIX_C_SOURCE 199309L
#include <stdio.h>
#include <stdlib.h>
#include <string.h>
#include <time.h>
#include "level_store.h"

enum way { WHOLE, GROWING, FROM_A_COPY, WAYS };
enum { ROUNDS = 5, K = 4 };

typedef struct {
    size_t data_len, spare_len, ram_len;
    uint8_t *data, *spare, *ram;
    level_store_state state;
} volume;
#define LENT(v) (v).data, (v).data_len, (v).spare, (v).spare_len, (v).ram, (v).ram_len

static volume filled, lent, chip, before; /* the start of each round; what is lent; the unit's; the bytes before a call */
static unsigned long calls, steps;

static void hold(int condition, const char *what)
{
    if (!condition) {
        fprintf(stderr, "driver_cost: %s\n", what);
        exit(1);
    }
}

static void make(volume *v, uint32_t S, uint32_t R, uint32_t D)
{
    v->data_len = LEVEL_STORE_DATA_SIZE(S, R, D);
    v->spare_len = LEVEL_STORE_SPARE_SIZE(S, R, D);
    v->ram_len = LEVEL_STORE_RAM_SIZE(S);
    v->data = malloc(v->data_len);
    v->spare = malloc(v->spare_len);
    v->ram = malloc(v->ram_len);
    hold(v->data && v->spare && v->ram, "no memory");
}

static void give_back(volume *v)
{
    free(v->data);
    free(v->spare);
    free(v->ram);
}

static void copy(volume *to, const volume *from)
{
    memcpy(to->data, from->data, from->data_len);
    memcpy(to->spare, from->spare, from->spare_len);
    memcpy(to->ram, from->ram, from->ram_len);
    to->state = from->state;
}

/* The step that the copy shows and the chip does not; 1 if a sector was programmed. */
static int carry_over(void)
{
    size_t S = lent.state.sector_size, b, s;
    for (b = 0; b < lent.spare_len; b += 64) {
        if (memcmp(lent.spare + b, chip.spare + b, 64) == 0)
            continue;
        steps++;
        for (s = b; s < b + 64 && lent.spare[s] == 0xFF; s++)
            ;
        if (s == b + 64) {
            memset(chip.data + S * b, 0xFF, 64 * S);
            memset(chip.spare + b, 0xFF, 64);
            return 0;
        }
        for (s = b; lent.spare[s] == chip.spare[s]; s++)
            ;
        memcpy(chip.data + S * s, lent.data + S * s, S);
        chip.spare[s] = 0;
        return 1;
    }
    return 0;
}

static void store_ram(void)
{
    memcpy(chip.ram, lent.ram, lent.ram_len);
    steps++;
}

static void update(enum way way, uint32_t key)
{
    level_store_cut_result r;
    uint64_t budget;
    if (way == WHOLE) {
        level_store_change c = level_store_update(lent.state, key, 7, 8, 9, LENT(lent));
        hold(c.refusal == LEVEL_STORE_OK, "refused");
        lent.state = c.state;
        calls++;
        return;
    }
    if (way == GROWING) {
        r = level_store_update_cut(1, lent.state, key, 7, 8, 9, LENT(lent));
        calls++;
        store_ram();
        for (budget = 1;; budget = carry_over() ? 1 : budget + 1) {
            r = level_store_restart_cut(budget, lent.state, LENT(lent));
            hold(r.refusal == LEVEL_STORE_OK, "refused");
            calls++;
            if (r.finished)
                break;
        }
    } else {
        copy(&before, &lent);
        for (budget = 1;; budget++) {
            copy(&lent, &before);
            r = level_store_update_cut(budget, lent.state, key, 7, 8, 9, LENT(lent));
            hold(r.refusal == LEVEL_STORE_OK, "refused");
            calls++;
            if (r.finished)
                break;
            if (budget == 1)
                store_ram();
            else
                carry_over();
        }
    }
    store_ram();
    lent.state = r.state;
}

static double seconds(void)
{
    struct timespec t;
    clock_gettime(CLOCK_PROCESS_CPUTIME_ID, &t);
    return (double)t.tv_sec + (double)t.tv_nsec / 1e9;
}

/* Level number i, of those in the volume and of others. */
static uint32_t key_of(uint32_t i) { return i * 2654435761u; }

/* Restarts with budget 1 alone: at the first erase behind which nothing is programmed they stay where they are. */
static int budget_one_ends(uint32_t key)
{
    unsigned i;
    level_store_cut_result r;
    copy(&lent, &filled);
    level_store_update_cut(1, lent.state, key, 7, 8, 9, LENT(lent));
    for (i = 0; i < 100000; i++) {
        r = level_store_restart_cut(1, lent.state, LENT(lent));
        if (r.finished)
            return 1;
    }
    return 0;
}

/* Updates of `first` and the following levels on a volume of n records. */
static void row(uint32_t S, uint32_t n, uint32_t first, uint32_t updates, const char *what)
{
    uint32_t R = (n + updates + 4 * S - 1) / (4 * S), D = (updates + 16 * S - 1) / (16 * S), i;
    level_store_state none;
    level_store_change c;
    double best[WAYS] = {1e9, 1e9, 1e9};
    unsigned way, round;
    unsigned long calls_of[WAYS], steps_of[WAYS];
    make(&filled, S, R, D);
    make(&lent, S, R, D);
    make(&chip, S, R, D);
    make(&before, S, R, D);
    memset(&none, 0, sizeof none);
    c = level_store_format(none, S, R, D, K, LENT(filled));
    for (i = 0; i < n && c.refusal == LEVEL_STORE_OK; i++)
        c = level_store_insert(c.state, key_of(i), 1, 2, 3, LENT(filled));
    hold(c.refusal == LEVEL_STORE_OK, "refused");
    filled.state = c.state;
    for (round = 0; round < ROUNDS; round++)
        for (way = 0; way < WAYS; way++) {
            double start;
            copy(&lent, &filled);
            copy(&chip, &filled);
            calls = steps = 0;
            start = seconds();
            for (i = 0; i < updates; i++)
                update((enum way)way, key_of(first + i));
            start = seconds() - start;
            best[way] = start < best[way] ? start : best[way];
            calls_of[way] = calls;
            steps_of[way] = steps;
            if (way != WHOLE)
                hold(memcmp(chip.data, lent.data, lent.data_len) == 0 && memcmp(chip.spare, lent.spare, lent.spare_len) == 0
                    && memcmp(chip.ram, lent.ram, lent.ram_len) == 0, "the chip is not equal to the copy");
        }
    hold(steps_of[GROWING] == steps_of[FROM_A_COPY], "the recipes differ");
    printf("| %u | %s | %u | %.0f | %.2f | %.2f | %.1f | %.1f | %.0f | %.1f | %.0f | %s |\n", S, what, n,
        (double)(lent.data_len + lent.spare_len + lent.ram_len) / 1000, (double)steps_of[GROWING] / updates,
        (double)calls_of[GROWING] / updates, best[WHOLE] / updates * 1e6, best[GROWING] / updates * 1e6,
        best[FROM_A_COPY] / updates * 1e6, best[GROWING] / best[WHOLE], best[FROM_A_COPY] / best[GROWING],
        updates > 1 ? "" : budget_one_ends(key_of(first)) ? "yes" : "no");
    fflush(stdout);
    give_back(&filled);
    give_back(&lent);
    give_back(&chip);
    give_back(&before);
}

int main(void)
{
    puts("| S | call | n | volume KB | steps | library calls | whole us | growing us | from a copy us | growing/whole | copy/growing "
         "| ends with 1 |");
    puts("|---|---|---|---|---|---|---|---|---|---|---|---|");
    row(16, 10000, 0, 512, "update, average of 512");
    row(64, 10000, 0, 512, "update, average of 512");
    row(512, 10000, 0, 512, "update, average of 512");
    row(16, 4095, 4095, 1, "insert, ends round 4");
    row(64, 65535, 65535, 1, "insert, ends round 16");
    row(512, 524287, 524287, 1, "insert, ends round 16");
    return 0;
}
