/* The proved store; the mode is S. Its medium is the lent bytes, which are put into a file in the end, to be compared. */
#include <stdio.h>
#include <stdlib.h>
#include <string.h>
#include "level_store.h"
#include "peer.h"

enum { K = 4 };

static uint8_t *data, *spare, *ram;
static size_t data_len, spare_len, ram_len;
static level_store_state state;
static const char *file;
static uint64_t programmed; /* bytes */
#define LENT data, data_len, spare, spare_len, ram, ram_len

void peer_open(const char *path, const char *mode, uint32_t records, uint32_t updates)
{
    uint32_t S = (uint32_t)atoi(mode), R = (records + 4 * S - 1) / (4 * S), D = (updates + 16 * S - 1) / (16 * S);
    level_store_change c;
    data = malloc(data_len = LEVEL_STORE_DATA_SIZE(S, R, D));
    spare = malloc(spare_len = LEVEL_STORE_SPARE_SIZE(S, R, D));
    ram = malloc(ram_len = LEVEL_STORE_RAM_SIZE(S));
    if (data == NULL || spare == NULL || ram == NULL)
        fail("no memory");
    memset(&state, 0, sizeof state);
    c = level_store_format(state, S, R, D, K, LENT);
    if (c.refusal != LEVEL_STORE_OK)
        fail("format");
    state = c.state;
    file = path;
}

/* Blocks that a call erases in an index when it is the one that makes its records or deletions so many: at the end of a round, which has
 * 64S of them, L1 and the set before the new one, if any (LAYOUT.md, "Sets"). */
static uint64_t erased(uint32_t count)
{
    uint32_t round = 64 * state.sector_size, earlier, blocks = 1;
    if (count == 0 || count % round != 0)
        return 0;
    earlier = (count / round - 1) % (state.sector_size / 4);
    while (blocks < earlier)
        blocks *= 2;
    return earlier == 0 ? 1 : 1 + blocks;
}

/* Of the steps the first and the last are stores of ram. */
static void after(level_store_cut_result r)
{
    if (r.refusal != LEVEL_STORE_OK || !r.finished)
        fail(level_store_refusal_text(r.refusal));
    r.steps -= r.state.deletions != state.deletions ? erased(r.state.deletions) : 0;
    r.steps -= erased(r.state.records);
    programmed += (r.steps - 2) * state.sector_size;
    state = r.state;
}

/* With so large a budget it is the call without one, and tells its steps. */
void peer_insert(const record *r) { after(level_store_insert_cut(UINT64_MAX, state, r->key, r->moves, r->goal, r->word, LENT)); }
void peer_update(const record *r) { after(level_store_update_cut(UINT64_MAX, state, r->key, r->moves, r->goal, r->word, LENT)); }

int peer_lookup(uint32_t key, record *r)
{
    level_store_lookup_result found = level_store_lookup(state, key, LENT);
    if (found.refusal != LEVEL_STORE_OK)
        fail(level_store_refusal_text(found.refusal));
    if (!found.found)
        return 0;
    memcpy(r, (found.in_ram ? ram : data) + found.offset, sizeof *r);
    return 1;
}

void peer_close(void)
{
    FILE *f = fopen(file, "wb");
    if (f == NULL || fwrite(data, 1, data_len, f) != data_len || fwrite(spare, 1, spare_len, f) != spare_len
        || fwrite(ram, 1, ram_len, f) != ram_len || fclose(f) != 0)
        fail(file);
}

uint64_t peer_written(void) { return programmed; }
uint64_t peer_memory(void) { return ram_len; }
