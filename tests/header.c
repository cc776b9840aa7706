/* The sizes, refusals, calls and accessors of include/level_store.h, held to the library. Plain C89, also C++, so that it can be compiled
 * as each of them, and for every processor (tests/processors/run):
 *   gcc -std=c11 -Wall -Wextra -Werror -O2 -Iinclude tests/header.c target/staticlib/libcapi.a -o target/examples/header
 */
#include <stdio.h>
#include <stdlib.h>
#include <string.h>
#include "level_store.h"

/* Compile time: an array of -1 elements is refused. The examples of document 01, and the largest volume. */
#define HOLDS(name, condition) extern char name[(condition) ? 1 : -1]
HOLDS(blocks_1, LEVEL_STORE_BLOCKS(16, 1, 1) == 21);
HOLDS(blocks_32, LEVEL_STORE_BLOCKS(16, 32, 1) == 67);
HOLDS(blocks_63, LEVEL_STORE_BLOCKS(16, 63, 1) == 114);
HOLDS(blocks_64, LEVEL_STORE_BLOCKS(16, 64, 1) == 119);
HOLDS(blocks_512, LEVEL_STORE_BLOCKS(512, 2048, 1) == 3715);
HOLDS(blocks_of_terms, LEVEL_STORE_BLOCKS(8 + 8, 60 + 4, 0 + 16) == 138);
HOLDS(capacity_1, LEVEL_STORE_RECORD_CAPACITY(16, 1) == 64);
HOLDS(capacity_of_terms, LEVEL_STORE_RECORD_CAPACITY(8 + 8, 0 + 1) == 64 && LEVEL_STORE_DELETION_CAPACITY(8 + 8, 0 + 1) == 256);
HOLDS(ram_of_terms, LEVEL_STORE_RAM_SIZE(8 + 8) == 448 && LEVEL_STORE_RAM_SIZE(512) == 12352 && LEVEL_STORE_HEADER_SIZE == 64);
HOLDS(largest, LEVEL_STORE_DATA_SIZE(512, 4096, 4096) == 394330112 && LEVEL_STORE_SPARE_SIZE(512, 4096, 4096) == 770176);
HOLDS(largest_counts, LEVEL_STORE_RECORD_CAPACITY(512, 4096) == 8388608 && LEVEL_STORE_DELETION_CAPACITY(512, 4096) == 33554432);
HOLDS(sizes_are_size_t, sizeof LEVEL_STORE_BLOCKS(16, 1, 1) == sizeof(size_t) && sizeof LEVEL_STORE_RAM_SIZE(16) == sizeof(size_t));
HOLDS(pending, LEVEL_STORE_PENDING == 10);
#if LEVEL_STORE_VERSION != LEVEL_STORE_VERSION_MAJOR * 1000 + LEVEL_STORE_VERSION_MINOR || LEVEL_STORE_VERSION < 4001
#error "version"
#endif

/* Bytes of a chip that there is memory for: a small board cannot lend the largest volumes, which are left out and told. */
#ifndef MOST_DATA
#define MOST_DATA 0x40000000
#endif

static unsigned checks, failures, left_out;

static void hold(int condition, int line, const char *what)
{
    checks++;
    if (!condition) {
        failures++;
        fprintf(stderr, "tests/header.c:%d: %s\n", line, what);
    }
}
#define CHECK(condition) hold(condition, __LINE__, #condition)

/* A volume in arrays of exactly the sizes that the header gives. */
static uint8_t *data, *spare, *ram;
static size_t data_len, spare_len, ram_len;
static level_store_state state;

#define LENT data, data_len, spare, spare_len, ram, ram_len

/* A number of the header at the end of ram. */
static uint32_t header_word(size_t i) { return level_store_read32(ram + ram_len - LEVEL_STORE_HEADER_SIZE + 4 * i); }

static uint8_t *array(size_t len)
{
    uint8_t *bytes = (uint8_t *)malloc(len);
    if (bytes == NULL) {
        fputs("tests/header.c: no memory\n", stderr);
        exit(1);
    }
    return bytes;
}

static void lend(uint32_t S, uint32_t R, uint32_t D)
{
    data = array(data_len = LEVEL_STORE_DATA_SIZE(S, R, D));
    spare = array(spare_len = LEVEL_STORE_SPARE_SIZE(S, R, D));
    ram = array(ram_len = LEVEL_STORE_RAM_SIZE(S));
}

static void give_back(void)
{
    free(data);
    free(spare);
    free(ram);
}

/* The refusal of a changing call; its state is handed on. */
static uint32_t after(level_store_change c)
{
    state = c.state;
    return c.refusal;
}

static uint32_t format_k(uint32_t S, uint32_t R, uint32_t D, uint32_t k) { return after(level_store_format(state, S, R, D, k, LENT)); }
static uint32_t format(uint32_t S, uint32_t R, uint32_t D) { return format_k(S, R, D, 3); }
static uint32_t insert(uint32_t key) { return after(level_store_insert(state, key, 40, 0, 0, LENT)); }
static uint32_t update(uint32_t key) { return after(level_store_update(state, key, 41, 0, 0, LENT)); }
static uint32_t take_out(uint32_t key) { return after(level_store_delete(state, key, LENT)); }

/* The refusal of a load; its state is handed on, and so many rows were loaded. */
static uint32_t rows;
static uint32_t load(const char *tab)
{
    level_store_load_result r = level_store_load(state, (const uint8_t *)tab, strlen(tab), LENT);
    state = r.state;
    rows = r.rows;
    return r.refusal;
}

/* Run time: the same examples of document 01. */
static void check_blocks(void)
{
    static const uint32_t examples[][4] = {{16, 1, 1, 21}, {16, 32, 1, 67}, {16, 63, 1, 114}, {16, 64, 1, 119}, {512, 2048, 1, 3715}};
    size_t i;
    for (i = 0; i < sizeof examples / sizeof *examples; i++)
        CHECK(LEVEL_STORE_BLOCKS(examples[i][0], examples[i][1], examples[i][2]) == examples[i][3]);
}

/* The sizes are enough, and none of them is too large. */
static void check_sizes(uint32_t S, uint32_t R, uint32_t D)
{
    if (LEVEL_STORE_DATA_SIZE(S, R, D) > MOST_DATA) {
        left_out++;
        return;
    }
    lend(S, R, D);
    data_len--;
    CHECK(format(S, R, D) == LEVEL_STORE_TOO_SHORT);
    data_len++;
    spare_len--;
    CHECK(format(S, R, D) == LEVEL_STORE_TOO_SHORT);
    spare_len++;
    ram_len--;
    CHECK(format(S, R, D) == LEVEL_STORE_TOO_SHORT);
    ram_len++;
    CHECK(format(S, R, D) == LEVEL_STORE_OK);
    CHECK(state.sector_size == S && state.ra_blocks == R && state.da_blocks == D && state.hash_count == 3);
    CHECK(state.records == 0 && state.deletions == 0);
    CHECK(spare[spare_len - 1] == 0xFF && data[data_len - 1] == 0xFF && ram[ram_len - 1] == 0);
    CHECK(header_word(0) == S && header_word(1) == R && header_word(2) == D && header_word(3) == 3 && header_word(6) == 0);
    give_back();
}

/* Each refusal by its name: the examples of document 01's table. */
static void check_refusals(void)
{
    uint32_t i;
    lend(16, 1, 1);
    CHECK(format(24, 1, 1) == LEVEL_STORE_BAD_STATE);
    CHECK(format(16, 1, 1) == LEVEL_STORE_OK);
    CHECK(take_out(7) == LEVEL_STORE_ABSENT);
    CHECK(update(7) == LEVEL_STORE_OK && state.records == 1 && state.deletions == 0);
    CHECK(insert(7) == LEVEL_STORE_PRESENT);
    for (i = 1; i < LEVEL_STORE_RECORD_CAPACITY(16, 1); i++)
        CHECK(insert(1000 + i) == LEVEL_STORE_OK);
    CHECK(state.records == 64);
    CHECK(insert(2000) == LEVEL_STORE_FULL);
    CHECK(update(7) == LEVEL_STORE_FULL && update(2000) == LEVEL_STORE_FULL);
    CHECK(format(16, 1, 1) == LEVEL_STORE_OK);
    spare[0] = 0;
    CHECK(insert(1) == LEVEL_STORE_OK && insert(2) == LEVEL_STORE_OK && insert(3) == LEVEL_STORE_OK);
    CHECK(insert(4) == LEVEL_STORE_NOT_FRESH && update(4) == LEVEL_STORE_NOT_FRESH);
    CHECK(format(16, 1, 1) == LEVEL_STORE_OK);
    CHECK(insert(7) == LEVEL_STORE_OK);
    ram[4 * 16 + 4] = 9; /* the record number of entry 0, on the second page of ram */
    CHECK(take_out(7) == LEVEL_STORE_CORRUPT_ENTRY && update(7) == LEVEL_STORE_CORRUPT_ENTRY);
    CHECK(level_store_lookup(state, 7, LENT).refusal == LEVEL_STORE_CORRUPT_ENTRY);
    give_back();

    lend(16, 5, 1);
    CHECK(format(16, 5, 1) == LEVEL_STORE_OK);
    for (i = 0; i <= LEVEL_STORE_DELETION_CAPACITY(16, 1); i++)
        CHECK(insert(i) == LEVEL_STORE_OK);
    for (i = 0; i < LEVEL_STORE_DELETION_CAPACITY(16, 1); i++)
        CHECK(take_out(i) == LEVEL_STORE_OK);
    CHECK(state.deletions == 256);
    CHECK(take_out(i) == LEVEL_STORE_DELETIONS_FULL && update(i) == LEVEL_STORE_DELETIONS_FULL);
    CHECK(update(0) == LEVEL_STORE_OK && state.records == 258 && state.deletions == 256);
    CHECK(update(0) == LEVEL_STORE_DELETIONS_FULL);
    give_back();
}

/* A k outside 1 to 8 is refused by each call, which leaves the state as it was. */
static void check_wrong_hash_count(uint32_t k)
{
    level_store_state good = state, bad = state;
    CHECK(format_k(16, 4, 1, k) == LEVEL_STORE_BAD_STATE && memcmp(&state, &good, sizeof state) == 0);
    bad.hash_count = k;
    state = bad;
    CHECK(insert(1000) == LEVEL_STORE_BAD_STATE && update(0) == LEVEL_STORE_BAD_STATE && take_out(0) == LEVEL_STORE_BAD_STATE);
    CHECK(load("level,moves,goal\n1,2,3\n") == LEVEL_STORE_BAD_STATE && rows == 0);
    CHECK(level_store_lookup(state, 0, LENT).refusal == LEVEL_STORE_BAD_STATE);
    CHECK(memcmp(&state, &bad, sizeof state) == 0);
    state = good;
}

/* Every k: each call hands it on, all levels are found, and as many pages are opened as in the model. */
static void check_hash_counts(void)
{
    static const uint32_t opened[] = {3148, 1799, 1109, 783, 903, 1100, 1372, 1740};
    const uint32_t step = 0x9E3779B1; /* keys without an order; those in order are alike in their filters */
    uint32_t k, i;
    lend(16, 4, 1);
    for (k = 1; k <= 8; k++) {
        uint32_t count = 0;
        CHECK(format_k(16, 4, 1, k) == LEVEL_STORE_OK && state.hash_count == k);
        for (i = 0; i < 200; i++)
            CHECK(insert(i * step) == LEVEL_STORE_OK);
        CHECK(update(7 * step) == LEVEL_STORE_OK && take_out(8 * step) == LEVEL_STORE_OK);
        CHECK(load("level,moves,goal\n0,2,3") == LEVEL_STORE_OK);
        CHECK(state.hash_count == k && state.records == 202 && state.deletions == 3);
        for (i = 0; i < 400; i++) {
            level_store_lookup_result r = level_store_lookup(state, i * step, LENT);
            CHECK(r.refusal == LEVEL_STORE_OK && r.found == (i < 200 && i != 8));
            count += r.count;
        }
        CHECK(count == opened[k - 1]);
        check_wrong_hash_count(0);
        check_wrong_hash_count(9);
        check_wrong_hash_count(k + 256);
        check_wrong_hash_count(0xFFFFFFFF);
    }
    give_back();
}

/* Pages of deletions opened: none while the deletions are in ram, then as many as in the model; 0 on a refusal. */
static void check_deletion_counts(void)
{
    const uint32_t step = 0x9E3779B1;
    level_store_lookup_result r;
    uint64_t opened = 0;
    uint32_t i;
    lend(64, 4, 1);
    CHECK(format(64, 4, 1) == LEVEL_STORE_OK);
    for (i = 0; i < 300; i++)
        CHECK(insert(i * step) == LEVEL_STORE_OK);
    for (i = 0; i < 63; i++)
        CHECK(update(7) == LEVEL_STORE_OK);
    CHECK(take_out(7) == LEVEL_STORE_OK && state.records == 363 && state.deletions == 63);
    for (i = 0; i < 300; i++)
        CHECK(level_store_lookup(state, i * step, LENT).deletion_count == 0);
    for (i = 0; i < 250; i++)
        CHECK(update(i * step) == LEVEL_STORE_OK);
    CHECK(state.records == 613 && state.deletions == 313); /* four full pages of deletions */
    for (i = 0; i < 300; i++) {
        r = level_store_lookup(state, i * step, LENT);
        CHECK(r.refusal == LEVEL_STORE_OK && r.found == 1 && r.deletion_count <= 4);
        opened += r.deletion_count;
    }
    CHECK(opened == 531);
    r = level_store_lookup(state, 7, LENT);
    CHECK(r.refusal == LEVEL_STORE_OK && r.found == 0 && r.deletion_count == 135);
    ram[4 * 64 + 5] = 3; /* the record number, 608 before, of the first entry in ram, level 245's */
    r = level_store_lookup(state, 245 * step, LENT);
    CHECK(r.refusal == LEVEL_STORE_CORRUPT_ENTRY && r.found == 0 && r.count == 0 && r.deletion_count == 0);
    give_back();
}

/* A load: whole, ended by a malformed row and by a row of each refusal that a row can get, and refused at once. */
static void check_load(void)
{
    level_store_lookup_result r;
    uint32_t i;
    lend(16, 5, 1);
    memset(&state, 0, sizeof state);
    CHECK(load("level") == LEVEL_STORE_BAD_STATE && rows == 0);
    CHECK(load("") == LEVEL_STORE_BAD_STATE && rows == 0);
    CHECK(format(16, 5, 1) == LEVEL_STORE_OK);
    ram_len--;
    CHECK(load("level") == LEVEL_STORE_TOO_SHORT && rows == 0);
    CHECK(load("") == LEVEL_STORE_TOO_SHORT && rows == 0);
    ram_len++;
    CHECK(load("") == LEVEL_STORE_OK && rows == 0 && state.records == 0);
    CHECK(level_store_load(state, NULL, 0, LENT).refusal == LEVEL_STORE_OK);
    CHECK(level_store_restart(state, NULL, 0, NULL, 0, NULL, 0).refusal == LEVEL_STORE_TOO_SHORT);
    CHECK(level_store_lookup(state, 1, NULL, 0, NULL, 0, NULL, 0).refusal == LEVEL_STORE_TOO_SHORT);
    CHECK(load("\n") == LEVEL_STORE_MALFORMED && rows == 0);
    CHECK(load("\r\n") == LEVEL_STORE_MALFORMED && rows == 0);
    CHECK(load("level,moves\n1,2\n") == LEVEL_STORE_MALFORMED && rows == 0);
    CHECK(load("level,moves,goal") == LEVEL_STORE_OK && rows == 0 && state.records == 0);
    CHECK(load("level,\"moves\",goal\r\n1,2,3\n\"4294967295\",0031,\"0\"\r\n1,40,300") == LEVEL_STORE_OK && rows == 3);
    CHECK(state.records == 3 && state.deletions == 1);
    r = level_store_lookup(state, 1, LENT);
    CHECK(r.found == 1 && r.in_ram == 1);
    CHECK(level_store_record_moves(ram + r.offset) == 40 && level_store_record_goal(ram + r.offset) == 300);
    CHECK(level_store_record_word(ram + r.offset) == 0);
    CHECK(load("level,moves,goal\n5,5,5\n6,6,4294967296\n7,7,7\n") == LEVEL_STORE_MALFORMED && rows == 1);
    CHECK(state.records == 4 && level_store_lookup(state, 7, LENT).found == 0);
    spare[64] = 0; /* sector 64 is the first of the second block, for records 64 and up */
    for (i = 0; i < 63; i++)
        CHECK(insert(1000 + i) == LEVEL_STORE_OK);
    CHECK(load("level,moves,goal\n") == LEVEL_STORE_OK && rows == 0 && state.records == 67);
    CHECK(load("level,moves,goal\n8,8,8\n9,9,9\n") == LEVEL_STORE_NOT_FRESH && rows == 0 && state.records == 67);
    spare[64] = 0xFF;
    CHECK(load("level,moves,goal\n8,8,8\n9,9,9\n") == LEVEL_STORE_OK && rows == 2 && state.records == 69);
    ram[4 * 16 + 4 * 8 + 4] = 200; /* entry 4 of the second page of ram is level 9's */
    CHECK(load("level,moves,goal\n10,1,1\n9,9,9\n") == LEVEL_STORE_CORRUPT_ENTRY && rows == 1 && state.records == 70);
    CHECK(format(16, 5, 1) == LEVEL_STORE_OK && insert(7) == LEVEL_STORE_OK);
    for (i = 0; i < LEVEL_STORE_DELETION_CAPACITY(16, 1); i++)
        CHECK(load("level,moves,goal\n7,1,1") == LEVEL_STORE_OK && rows == 1);
    CHECK(load("level,moves,goal\n8,1,1\n7,1,1\n") == LEVEL_STORE_DELETIONS_FULL && rows == 1 && state.deletions == 256);
    while (state.records < LEVEL_STORE_RECORD_CAPACITY(16, 5) && insert(2000 + state.records) == LEVEL_STORE_OK)
        ;
    CHECK(load("level,moves,goal\n9,1,1") == LEVEL_STORE_FULL && rows == 0 && state.records == 320);
    give_back();
}

/* Every refusal has a text of its own, and so have all other numbers together. */
static void check_texts(void)
{
    uint32_t i, j;
    for (i = 0; i <= 11; i++) {
        CHECK(level_store_refusal_text(i) != NULL && level_store_refusal_text(i)[0] != '\0');
        for (j = 0; j < i; j++)
            CHECK(strcmp(level_store_refusal_text(i), level_store_refusal_text(j)) != 0);
    }
    CHECK(strcmp(level_store_refusal_text(0xFFFFFFFF), level_store_refusal_text(11)) == 0);
}

/* The refusal of a call with a budget; its state is handed on, and so many steps were done. */
static uint32_t finished, steps;
static uint32_t after_cut(level_store_cut_result r)
{
    state = r.state;
    finished = r.finished;
    steps = (uint32_t)r.steps;
    return r.refusal;
}

static uint32_t insert_cut(uint64_t budget, uint32_t key) { return after_cut(level_store_insert_cut(budget, state, key, 40, 0, 0, LENT)); }
static uint32_t restart_cut(uint64_t budget) { return after_cut(level_store_restart_cut(budget, state, LENT)); }

/* A restart goes by the header: it is handed zeros. */
static uint32_t restart(void)
{
    memset(&state, 0, sizeof state);
    return after(level_store_restart(state, LENT));
}

/* Seven inserts; the eighth fills a page of records and one of entries: its intent, eight sectors, and the ram. */
#define EIGHTH_STEPS 10
static void seven(void)
{
    uint32_t i;
    CHECK(format(16, 4, 1) == LEVEL_STORE_OK);
    for (i = 0; i < 7; i++)
        CHECK(insert(i) == LEVEL_STORE_OK);
}

/* Each cut of a call, and one of its restart: all bytes and the state are those of the call never cut. */
static void check_every_cut(void)
{
    uint8_t *whole_data, *whole_spare, *whole_ram;
    uint32_t b;
    seven();
    CHECK(insert(7) == LEVEL_STORE_OK);
    memcpy(whole_data = array(data_len), data, data_len);
    memcpy(whole_spare = array(spare_len), spare, spare_len);
    memcpy(whole_ram = array(ram_len), ram, ram_len);
    for (b = 0; b <= EIGHTH_STEPS + 1; b++) {
        seven();
        CHECK(insert_cut(b, 7) == LEVEL_STORE_OK && finished == (b >= EIGHTH_STEPS));
        CHECK(steps == (b < EIGHTH_STEPS ? b : EIGHTH_STEPS) && state.records == (b < EIGHTH_STEPS ? 7 : 8));
        CHECK(spare[4] == (b < 2 ? 0xFF : 0) && header_word(6) == (b > 0 && b < EIGHTH_STEPS));
        if (b > 0 && b < EIGHTH_STEPS)
            CHECK(restart_cut(2) == LEVEL_STORE_OK && finished == (b >= EIGHTH_STEPS - 2) && steps == (b < EIGHTH_STEPS - 1 ? 2 : 1));
        CHECK(restart() == LEVEL_STORE_OK && state.records == (b == 0 ? 7 : 8) && state.deletions == 0 && state.sector_size == 16);
        if (b == 0)
            CHECK(insert(7) == LEVEL_STORE_OK);
        CHECK(memcmp(data, whole_data, data_len) == 0 && memcmp(spare, whole_spare, spare_len) == 0);
        CHECK(memcmp(ram, whole_ram, ram_len) == 0);
    }
    free(whole_data);
    free(whole_spare);
    free(whole_ram);
}

/* The header of a pending call; what is refused meanwhile, by 10 straight after 2; and the calls that are not. */
static void check_pending(void)
{
    uint32_t i;
    seven();
    CHECK(after_cut(level_store_update_cut(1, state, 6, 11, 12, 13, LENT)) == LEVEL_STORE_OK && finished == 0 && steps == 1);
    CHECK(header_word(0) == 16 && header_word(1) == 4 && header_word(2) == 1 && header_word(3) == 3);
    CHECK(header_word(4) == 7 && header_word(5) == 0);
    CHECK(header_word(6) == 2 && header_word(7) == 6 && header_word(8) == 11 && header_word(9) == 12 && header_word(10) == 13);
    for (i = 11; i < 16; i++)
        CHECK(header_word(i) == 0);
    CHECK(insert(6) == LEVEL_STORE_PENDING && update(6) == LEVEL_STORE_PENDING && take_out(100) == LEVEL_STORE_PENDING);
    CHECK(load("") == LEVEL_STORE_PENDING && load("level") == LEVEL_STORE_PENDING && rows == 0);
    CHECK(level_store_lookup(state, 6, LENT).refusal == LEVEL_STORE_PENDING);
    CHECK(insert_cut(0, 6) == LEVEL_STORE_PENDING && finished == 0 && steps == 0 && state.records == 7);
    data_len--;
    CHECK(insert(6) == LEVEL_STORE_TOO_SHORT && level_store_restart(state, LENT).refusal == LEVEL_STORE_TOO_SHORT);
    data_len++;
    CHECK(restart() == LEVEL_STORE_OK && state.records == 8 && state.deletions == 1);
    CHECK(restart_cut(0) == LEVEL_STORE_OK && finished == 1 && steps == 0 && state.records == 8);
    CHECK(after_cut(level_store_delete_cut(1, state, 6, LENT)) == LEVEL_STORE_OK && header_word(6) == 3 && header_word(7) == 6);
    CHECK(after_cut(level_store_format_cut(1, state, 16, 2, 1, 5, LENT)) == LEVEL_STORE_OK && finished == 0 && state.records == 8);
    CHECK(header_word(1) == 4 && header_word(4) == 8 && header_word(6) == 4 && header_word(8) == 2 && header_word(10) == 5);
    CHECK(restart() == LEVEL_STORE_OK && state.ra_blocks == 2 && state.hash_count == 5 && state.records == 0);
    CHECK(after_cut(level_store_format_cut(1000, state, 16, 4, 1, 3, LENT)) == LEVEL_STORE_OK && finished == 1);
    CHECK(steps == LEVEL_STORE_BLOCKS(16, 4, 1) + 2);
}

/* Restarts that are refused hand back the state that they were handed. */
static void check_refused_restarts(void)
{
    level_store_state handed;
    seven();
    handed = state;
    ram[ram_len - LEVEL_STORE_HEADER_SIZE + 4 * 6] = 5; /* the kind */
    CHECK(after(level_store_restart(state, LENT)) == LEVEL_STORE_BAD_STATE && memcmp(&state, &handed, sizeof state) == 0);
    CHECK(level_store_restart(state, data, data_len, spare, spare_len, ram, 63).refusal == LEVEL_STORE_TOO_SHORT);
    memset(ram, 0, ram_len);
    CHECK(after(level_store_restart(state, LENT)) == LEVEL_STORE_BAD_STATE && memcmp(&state, &handed, sizeof state) == 0);
}

static void check_power_loss(void)
{
    lend(16, 4, 1);
    check_every_cut();
    check_pending();
    check_refused_restarts();
    give_back();
}

/* The accessors read what an insert wrote: in ram, on the chip, and at an odd address. */
static void check_accessors(void)
{
    uint32_t i, in_ram = 0;
    lend(16, 1, 1);
    CHECK(format(16, 1, 1) == LEVEL_STORE_OK);
    for (i = 0; i < 5; i++)
        CHECK(after(level_store_insert(state, 0xF1E2D3C0 + i, 0x81726350 + i, 0x94857660 + i, 0xA7B8C9D0 + i, LENT)) == LEVEL_STORE_OK);
    for (i = 0; i < 5; i++) {
        level_store_lookup_result r = level_store_lookup(state, 0xF1E2D3C0 + i, LENT);
        const uint8_t *record = (r.in_ram ? ram : data) + r.offset;
        uint8_t copy[LEVEL_STORE_RECORD_SIZE + 1];
        CHECK(r.refusal == LEVEL_STORE_OK && r.found == 1);
        if (!r.found)
            continue;
        in_ram += r.in_ram;
        CHECK(level_store_record_key(record) == 0xF1E2D3C0 + i);
        CHECK(level_store_record_moves(record) == 0x81726350 + i);
        CHECK(level_store_record_goal(record) == 0x94857660 + i);
        CHECK(level_store_record_word(record) == 0xA7B8C9D0 + i);
        memcpy(copy + 1, record, LEVEL_STORE_RECORD_SIZE);
        CHECK(level_store_record_key(copy + 1) == 0xF1E2D3C0 + i && level_store_record_word(copy + 1) == 0xA7B8C9D0 + i);
    }
    CHECK(in_ram == 1); /* the fifth; the page of the first four is on the chip */
    give_back();
}

int main(void)
{
    uint32_t S;
    memset(&state, 0, sizeof state);
    check_blocks();
    for (S = 16; S <= 512; S *= 2)
        check_sizes(S, 1, 1);
    check_sizes(16, 32, 1);
    check_sizes(16, 63, 3);
    check_sizes(16, 64, 2);
    check_sizes(16, 64, 16);
    check_sizes(32, 300, 65);
    check_sizes(512, 2048, 1);
    check_refusals();
    check_hash_counts();
    check_deletion_counts();
    check_load();
    check_texts();
    check_power_loss();
    check_accessors();
    printf("header: %u checks, %u failed", checks, failures);
    if (left_out > 0)
        printf(", %u volumes left out for their size", left_out);
    printf("\n");
    return failures != 0;
}
