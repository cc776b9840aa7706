/* What firmware does at power-up: `power_up` restarts and handles every refusal. The program makes each case happen, holds the unit
 * to be usable afterwards where it should be, and prints a line for each:
 *   tools/staticlib && mkdir -p target/examples
 *   gcc -std=c11 -Wall -Wextra -Werror -O2 -Iinclude examples/power_up.c target/staticlib/libcapi.a -o target/examples/power_up
 */
#include <stdio.h>
#include <stdlib.h>
#include <string.h>
#include "level_store.h"

/* This firmware's volume. */
enum { S = 16, R = 5, D = 1, K = 4 };

/* What power_up finds. */
enum power {
    POWER_READY,     /* the volume as it was left; a call that was cut is finished */
    POWER_FORMATTED, /* an empty volume, because there was none or its pending call cannot be finished: load the levels again */
    POWER_OTHER,     /* a sound volume, but the S, R, D or k of its state are not this firmware's */
    POWER_LARGER,    /* nothing is touched: the header names a volume that needs more than is lent; a format if there is no more */
    POWER_SHORT      /* nothing is touched: the program lends less than its own volume needs, and has to be mended */
};

/* To be called first at power-up, with a ram as long as at the format: its last bytes are the header. Gives the state to go on with;
 * with POWER_LARGER and POWER_SHORT there is none. */
static enum power power_up(level_store_state *state, uint8_t *data, size_t data_len, uint8_t *spare, size_t spare_len,
    uint8_t *ram, size_t ram_len)
{
    const level_store_state none = {0, 0, 0, 0, 0, 0};
    level_store_change c;
    *state = none;
    if (data_len < LEVEL_STORE_DATA_SIZE(S, R, D) || spare_len < LEVEL_STORE_SPARE_SIZE(S, R, D) || ram_len < LEVEL_STORE_RAM_SIZE(S))
        return POWER_SHORT;
    c = level_store_restart(none, data, data_len, spare, spare_len, ram, ram_len);
    if (c.refusal == LEVEL_STORE_TOO_SHORT) /* perhaps a sound volume, which a format would destroy: the caller decides */
        return POWER_LARGER;
    if (c.refusal != LEVEL_STORE_OK) { /* 1: never formatted, or the RAM is lost; else the pending call cannot be finished */
        c = level_store_format(none, S, R, D, K, data, data_len, spare, spare_len, ram, ram_len);
        *state = c.state; /* the format is not refused: S, R, D and K are allowed, and enough is lent for them */
        return POWER_FORMATTED;
    }
    *state = c.state;
    if (c.state.sector_size != S || c.state.ra_blocks != R || c.state.da_blocks != D || c.state.hash_count != K)
        return POWER_OTHER;
    return POWER_READY;
}

/* The memory that survives, with room for a block of records more than this firmware's volume has. */
static uint8_t chip[LEVEL_STORE_DATA_SIZE(S, R + 1, D)], chip_spare[LEVEL_STORE_SPARE_SIZE(S, R + 1, D)];
static uint8_t battery_ram[LEVEL_STORE_RAM_SIZE(S)];
static uint8_t old_chip[sizeof chip], old_spare[sizeof chip_spare], old_ram[sizeof battery_ram];

/* What this firmware lends, and what one with a block more lends. */
#define DATA_LEN LEVEL_STORE_DATA_SIZE(S, R, D)
#define SPARE_LEN LEVEL_STORE_SPARE_SIZE(S, R, D)
#define RAM_LEN LEVEL_STORE_RAM_SIZE(S)
#define LENT chip, DATA_LEN, chip_spare, SPARE_LEN, battery_ram, RAM_LEN
#define LENT_MORE chip, sizeof chip, chip_spare, sizeof chip_spare, battery_ram, RAM_LEN

enum { LEVELS = 100 };

static void hold(int condition, int line, const char *what)
{
    if (!condition) {
        fprintf(stderr, "examples/power_up.c:%d: %s\n", line, what);
        exit(1);
    }
}
#define HOLD(condition) hold(condition, __LINE__, #condition)

static level_store_state accepted(level_store_change c)
{
    HOLD(c.refusal == LEVEL_STORE_OK);
    return c.state;
}

/* A new volume of so many blocks of records, by a firmware that lends enough for it. */
static level_store_state formatted(uint32_t blocks, uint32_t hash_count)
{
    const level_store_state none = {0, 0, 0, 0, 0, 0};
    return accepted(level_store_format(none, S, blocks, D, hash_count, LENT_MORE));
}

static level_store_state insert(level_store_state s, uint32_t first, uint32_t count)
{
    uint32_t key;
    for (key = first; key < first + count; key++)
        s = accepted(level_store_insert(s, key, 30 + key % 9, 100 * key, 0, LENT_MORE));
    return s;
}

/* The move limit of a level, or -1. */
static long moves(level_store_state s, uint32_t key)
{
    level_store_lookup_result r = level_store_lookup(s, key, LENT_MORE);
    HOLD(r.refusal == LEVEL_STORE_OK);
    return r.found ? (long)level_store_record_moves((r.in_ram ? battery_ram : chip) + r.offset) : -1;
}

static void levels_are_there(level_store_state s)
{
    uint32_t key;
    for (key = 0; key < LEVELS; key++)
        HOLD(moves(s, key) == (long)(30 + key % 9));
}

/* A level goes in, is tuned, found and taken out again, and the next power-up has the same counts. */
static void unit_is_usable(level_store_state s)
{
    level_store_state next;
    HOLD(moves(s, 5000) == -1);
    s = accepted(level_store_insert(s, 5000, 20, 400, 0, LENT_MORE));
    HOLD(moves(s, 5000) == 20);
    s = accepted(level_store_update(s, 5000, 21, 400, 0, LENT_MORE));
    HOLD(moves(s, 5000) == 21);
    s = accepted(level_store_delete(s, 5000, LENT_MORE));
    HOLD(moves(s, 5000) == -1);
    power_up(&next, LENT);
    HOLD(memcmp(&next, &s, sizeof s) == 0);
}

/* Word i of the header is altered: 0 to 5 are the state, 6 the kind of the pending call, 7 to 10 its arguments. */
static void alter(unsigned i, uint32_t number)
{
    uint8_t *word = battery_ram + RAM_LEN - LEVEL_STORE_HEADER_SIZE + 4 * i;
    unsigned j;
    for (j = 0; j < 4; j++)
        word[j] = (uint8_t)(number >> 8 * j);
}

static void alter_pending(uint32_t kind, uint32_t first, uint32_t second, uint32_t third, uint32_t fourth)
{
    alter(6, kind);
    alter(7, first);
    alter(8, second);
    alter(9, third);
    alter(10, fourth);
}

/* Power comes back: by what the restart is refused, what power_up finds, and the line that tells both. A budget of 0 changes nothing. */
static level_store_state power_comes(const char *what, size_t data_len, size_t spare_len, size_t ram_len, uint32_t refusal,
    enum power expected)
{
    static const char *const words[] = {"ready", "formatted", "ready, of another firmware", "nothing touched, the volume is larger",
        "nothing touched, the program lends too little"};
    const level_store_state none = {0, 0, 0, 0, 0, 0};
    level_store_state s;
    level_store_cut_result r = level_store_restart_cut(0, none, chip, data_len, chip_spare, spare_len, battery_ram, ram_len);
    enum power found;
    memcpy(old_chip, chip, sizeof chip);
    memcpy(old_spare, chip_spare, sizeof chip_spare);
    memcpy(old_ram, battery_ram, sizeof battery_ram);
    found = power_up(&s, chip, data_len, chip_spare, spare_len, battery_ram, ram_len);
    HOLD(r.refusal == refusal && found == expected);
    if (found == POWER_LARGER || found == POWER_SHORT) {
        HOLD(memcmp(old_chip, chip, sizeof chip) == 0 && memcmp(old_spare, chip_spare, sizeof chip_spare) == 0);
        HOLD(memcmp(old_ram, battery_ram, sizeof battery_ram) == 0);
    }
    printf("%-50s %u %-32s -> %s", what, refusal, level_store_refusal_text(refusal), words[found]);
    if (s.sector_size != 0)
        printf(", %u levels", s.records - s.deletions);
    putchar('\n');
    return s;
}

static level_store_state power_comes_to(const char *what, uint32_t refusal, enum power expected)
{
    return power_comes(what, DATA_LEN, SPARE_LEN, RAM_LEN, refusal, expected);
}

/* Only a format helps, and power_up has made it. */
static void only_a_format(const char *what, uint32_t refusal)
{
    level_store_state s = power_comes_to(what, refusal, POWER_FORMATTED);
    HOLD(s.records == 0 && s.deletions == 0);
    unit_is_usable(s);
}

/* Memory of one byte, and of bytes without an order. */
static void fresh_memory(void)
{
    uint32_t x = 1, i;
    memset(chip, 0xFF, sizeof chip);
    memset(chip_spare, 0xFF, sizeof chip_spare);
    memset(battery_ram, 0, sizeof battery_ram);
    only_a_format("an erased chip, the RAM zero", LEVEL_STORE_BAD_STATE);
    for (i = 0; i < sizeof battery_ram; i++)
        battery_ram[i] = (uint8_t)((x = x * 1664525 + 1013904223) >> 24);
    for (i = 0; i < sizeof chip_spare; i++)
        chip_spare[i] = (uint8_t)((x = x * 1664525 + 1013904223) >> 24);
    only_a_format("a chip and a RAM of any bytes", LEVEL_STORE_BAD_STATE);
}

/* The update of level 7 that fills a page of records and one of entries: its intent, eight sectors, the RAM. */
static void cut_calls(void)
{
    char what[80];
    level_store_state s;
    level_store_cut_result r;
    unsigned budget, steps = 10;
    s = insert(formatted(R, K), 0, LEVELS);
    s = power_comes_to("a sound volume", LEVEL_STORE_OK, POWER_READY);
    levels_are_there(s);
    unit_is_usable(s);
    for (budget = 0; budget < steps; budget++) {
        s = insert(insert(formatted(R, K), 0, LEVELS), 200, 3);
        r = level_store_update_cut(budget, s, 7, 12, 700, 0, LENT);
        HOLD(r.refusal == LEVEL_STORE_OK && !r.finished && r.steps == budget);
        sprintf(what, "an update cut after %u of its %u steps", budget, steps);
        s = power_comes_to(what, LEVEL_STORE_OK, POWER_READY);
        HOLD(s.records == LEVELS + 3u + (budget > 0) && s.deletions == (budget > 0));
        HOLD(moves(s, 7) == (budget > 0 ? 12 : 37)); /* wholly done, or not begun */
        unit_is_usable(s);
    }
    s = insert(insert(formatted(R, K), 0, LEVELS), 200, 3);
    HOLD(level_store_update_cut(4, s, 7, 12, 700, 0, LENT).steps == 4 && level_store_restart_cut(3, s, LENT).steps == 3);
    s = power_comes_to("an update cut after 4, its restart after 3 steps", LEVEL_STORE_OK, POWER_READY);
    HOLD(moves(s, 7) == 12);
    unit_is_usable(s);
    r = level_store_format_cut(3, insert(formatted(R, K), 0, LEVELS), S, R, D, K, LENT);
    HOLD(r.refusal == LEVEL_STORE_OK && !r.finished);
    s = power_comes_to("a format cut after 3 of its steps", LEVEL_STORE_OK, POWER_READY);
    HOLD(s.records == 0);
    unit_is_usable(s);
}

/* Headers that no call leaves: someone altered them, or the battery was low. */
static void altered_headers(void)
{
    level_store_state s;
    insert(formatted(R, K), 0, LEVELS);
    alter_pending(9, 7, 0, 0, 0);
    only_a_format("an unknown kind of pending call", LEVEL_STORE_BAD_STATE);
    insert(formatted(R, K), 0, LEVELS);
    alter(4, LEVEL_STORE_RECORD_CAPACITY(S, R) + 1);
    only_a_format("more records than fit", LEVEL_STORE_BAD_STATE);
    insert(formatted(R, K), 0, LEVELS);
    alter_pending(1, 7, 40, 0, 0);
    only_a_format("a pending insert of a level that is there", LEVEL_STORE_PRESENT);
    insert(formatted(R, K), 0, LEVELS);
    alter_pending(3, 777, 0, 0, 0);
    only_a_format("a pending delete of a level that is not", LEVEL_STORE_ABSENT);
    insert(formatted(R, K), 0, LEVEL_STORE_RECORD_CAPACITY(S, R));
    alter_pending(2, 7, 40, 0, 0);
    only_a_format("a pending update, the records at their capacity", LEVEL_STORE_FULL);
    s = insert(formatted(R, K), 7, 1);
    while (s.deletions < LEVEL_STORE_DELETION_CAPACITY(S, D))
        s = accepted(level_store_update(s, 7, s.records, 0, 0, LENT));
    alter_pending(2, 7, 40, 0, 0);
    only_a_format("a pending update, the deletions at their capacity", LEVEL_STORE_DELETIONS_FULL);
    insert(formatted(R, K), 0, 3);
    battery_ram[4 * S + 8 * 2 + 4] = 9; /* the record number of level 2's entry, on the second page of ram */
    alter_pending(2, 2, 40, 0, 0);
    only_a_format("a pending update, its entry names no record", LEVEL_STORE_CORRUPT_ENTRY);
}

/* Refusal 2: never formatted blindly. */
static void too_short(void)
{
    level_store_state s;
    insert(formatted(R, K), 0, LEVELS);
    power_comes("data lent a byte short", DATA_LEN - 1, SPARE_LEN, RAM_LEN, LEVEL_STORE_TOO_SHORT, POWER_SHORT);
    power_comes("spare lent a byte short", DATA_LEN, SPARE_LEN - 1, RAM_LEN, LEVEL_STORE_TOO_SHORT, POWER_SHORT);
    power_comes("ram lent without room for a header", DATA_LEN, SPARE_LEN, LEVEL_STORE_HEADER_SIZE - 1, LEVEL_STORE_TOO_SHORT, POWER_SHORT);
    power_comes("ram lent four bytes short, the header elsewhere", DATA_LEN, SPARE_LEN, RAM_LEN - 4, LEVEL_STORE_BAD_STATE, POWER_SHORT);
    s = power_comes_to("the same volume, lent in full", LEVEL_STORE_OK, POWER_READY);
    levels_are_there(s);

    insert(formatted(R + 1, K), 0, LEVELS);
    power_comes_to("a volume of a firmware with a block more", LEVEL_STORE_TOO_SHORT, POWER_LARGER);
    s = power_comes("the same volume, lent in full", sizeof chip, sizeof chip_spare, RAM_LEN, LEVEL_STORE_OK, POWER_OTHER);
    HOLD(s.ra_blocks == R + 1);
    levels_are_there(s);
    insert(s, 200, 1);

    insert(formatted(R, K), 0, LEVELS);
    alter_pending(4, S, 4096, D, K);
    power_comes_to("a pending format of a larger volume", LEVEL_STORE_TOO_SHORT, POWER_LARGER);
    s = formatted(R, K); /* the caller has asked whether the levels may go */
    printf("%-50s formatted, %u levels\n", "its caller formats", s.records - s.deletions);
    unit_is_usable(s);
}

static void other_firmware(void)
{
    level_store_state s;
    insert(formatted(R - 1, K), 0, LEVELS);
    s = power_comes_to("a volume of a firmware with a block less", LEVEL_STORE_OK, POWER_OTHER);
    levels_are_there(s);
    unit_is_usable(s);
    insert(formatted(R, K - 1), 0, LEVELS);
    s = power_comes_to("a volume of a firmware with another k", LEVEL_STORE_OK, POWER_OTHER);
    levels_are_there(s);
    unit_is_usable(s);
}

int main(void)
{
    fresh_memory();
    cut_calls();
    altered_headers();
    too_short();
    other_firmware();
    return 0;
}
