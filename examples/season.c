/* Formats a small volume, inserts, updates, deletes, loads and looks up a few levels, loses power in the middle of an update, restarts,
 * and prints what comes back:
 *   tools/staticlib && mkdir -p target/examples
 *   gcc -std=c11 -Wall -Wextra -Werror -O2 -Iinclude examples/season.c target/staticlib/libcapi.a -o target/examples/season
 */
#include <stdio.h>
#include <string.h>
#include "level_store.h"

enum { S = 16, R = 1, D = 1, K = 3 };

static uint8_t data[LEVEL_STORE_DATA_SIZE(S, R, D)], spare[LEVEL_STORE_SPARE_SIZE(S, R, D)], ram[LEVEL_STORE_RAM_SIZE(S)];

static level_store_state report(const char *what, level_store_change c)
{
    if (c.refusal != LEVEL_STORE_OK)
        printf("%-8s refused: %s\n", what, level_store_refusal_text(c.refusal));
    else
        printf("%-8s ok, %u records, %u deletions\n", what, c.state.records, c.state.deletions);
    return c.state;
}

/* A tab as the spreadsheet exports it: the rows before a malformed one are loaded. */
static level_store_state load(level_store_state s, const char *tab)
{
    level_store_load_result r =
        level_store_load(s, (const uint8_t *)tab, strlen(tab), data, sizeof data, spare, sizeof spare, ram, sizeof ram);
    printf("load     %u rows", r.rows);
    if (r.refusal != LEVEL_STORE_OK)
        printf(", then refused: %s", level_store_refusal_text(r.refusal));
    printf(", %u records, %u deletions\n", r.state.records, r.state.deletions);
    return r.state;
}

static void look(level_store_state s, uint32_t key)
{
    level_store_lookup_result r = level_store_lookup(s, key, data, sizeof data, spare, sizeof spare, ram, sizeof ram);
    if (r.refusal != LEVEL_STORE_OK) {
        printf("level %u: refused: %s\n", key, level_store_refusal_text(r.refusal));
    } else if (r.found) {
        const uint8_t *record = (r.in_ram ? ram : data) + r.offset;
        printf("level %u: %u moves, goal %u\n", key, level_store_record_moves(record), level_store_record_goal(record));
    } else {
        printf("level %u: not there\n", key);
    }
}

/* An update that loses power when its intent is stored. */
static void cut_update(level_store_state s, uint32_t key)
{
    level_store_cut_result r = level_store_update_cut(1, s, key, 36, 800, 0, data, sizeof data, spare, sizeof spare, ram, sizeof ram);
    printf("update   %s after %u steps\n", r.finished ? "finished" : "cut", (unsigned)r.steps);
}

/* The first call after power-up: of all that is in this program's memory only data, spare and ram are there. */
static level_store_state power_up(void)
{
    level_store_state any;
    memset(&any, 0, sizeof any);
    return report("restart", level_store_restart(any, data, sizeof data, spare, sizeof spare, ram, sizeof ram));
}

int main(void)
{
    level_store_state s;
    memset(&s, 0, sizeof s);
    s = report("format", level_store_format(s, S, R, D, K, data, sizeof data, spare, sizeof spare, ram, sizeof ram));
    for (uint32_t key = 1; key <= 9; key++)
        s = report("insert", level_store_insert(s, key, 30 + key, 100 * key, 0, data, sizeof data, spare, sizeof spare, ram, sizeof ram));
    s = report("insert", level_store_insert(s, 7, 41, 0, 0, data, sizeof data, spare, sizeof spare, ram, sizeof ram));
    s = report("update", level_store_update(s, 7, 42, 1000, 0, data, sizeof data, spare, sizeof spare, ram, sizeof ram));
    s = report("delete", level_store_delete(s, 3, data, sizeof data, spare, sizeof spare, ram, sizeof ram));
    look(s, 1);
    look(s, 3);
    look(s, 7);
    look(s, 9);
    s = load(s, "level,moves,goal\r\n3,33,350\r\n7,40,\"0900\"\r\n10,25,1200\r\n");
    s = load(s, "level,moves,goal\n9,38,850\n11,twelve,500\n12,30,400\n");
    look(s, 3);
    look(s, 7);
    look(s, 9);
    look(s, 12);
    cut_update(s, 9);
    look(s, 9);
    s = power_up();
    look(s, 9);
    return 0;
}
