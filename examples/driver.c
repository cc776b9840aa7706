/* A driver for a chip that is not memory. What is lent to the store is a copy; each call is carried out on the unit's chip and RAM step by
 * step, in the order of its steps, so that power may be lost between any two of them. The chip refuses to program a sector that is not
 * erased, or before an earlier sector of its page. Seasons of calls are made while power is lost again and again:
 *   tools/staticlib && mkdir -p target/examples
 *   gcc -std=c11 -Wall -Wextra -Werror -O2 -Iinclude examples/driver.c target/staticlib/libcapi.a -o target/examples/driver
 */
#include <stdio.h>
#include <stdlib.h>
#include <string.h>
#include "level_store.h"

enum { S = 16, R = 96, D = 20, K = 4, BLOCKS = LEVEL_STORE_BLOCKS(S, R, D), LEVELS = 700, SEASONS = 12, CALLS = 6000 };

typedef struct {
    uint8_t data[LEVEL_STORE_DATA_SIZE(S, R, D)], spare[LEVEL_STORE_SPARE_SIZE(S, R, D)], ram[LEVEL_STORE_RAM_SIZE(S)];
} memory;

static memory unit;  /* the chip with its spare bytes, and the RAM with its battery: all that is left when power is lost */
static memory copy;  /* lent to the store */
static memory uncut; /* of another unit, which has the same calls and never loses power */
#define LENT copy.data, sizeof copy.data, copy.spare, sizeof copy.spare, copy.ram, sizeof copy.ram
#define LENT_UNCUT uncut.data, sizeof uncut.data, uncut.spare, sizeof uncut.spare, uncut.ram, sizeof uncut.ram

static void hold(int condition, int line, const char *what)
{
    if (!condition) {
        fprintf(stderr, "examples/driver.c:%d: %s\n", line, what);
        exit(1);
    }
}
#define HOLD(condition) hold(condition, __LINE__, #condition)

static uint32_t random_below(uint32_t bound)
{
    static uint64_t x = 0x9E3779B97F4A7C15;
    x ^= x << 13;
    x ^= x >> 7;
    x ^= x << 17;
    return (uint32_t)((x >> 32) * bound >> 32);
}

/* The hardware: an operation happens wholly or, if power is lost or the chip refuses it, not at all. */

enum answer { DONE, REFUSED, POWER_LOST };

static unsigned programs, programs_behind_erases, erases, stores, losses, losses_behind_erases;
static unsigned lasts = 0xFFFFFFFF, lasts_behind_erases = 0xFFFFFFFF; /* operations that power lasts for, on the average */
static int erased_last;

static int power_is_lost(void)
{
    if (random_below(erased_last ? lasts_behind_erases : lasts) != 0)
        return 0;
    losses++;
    losses_behind_erases += erased_last;
    erased_last = 0;
    return 1;
}

static int all_ones(const uint8_t *bytes, size_t count)
{
    size_t i;
    for (i = 0; i < count && bytes[i] == 0xFF; i++)
        ;
    return i == count;
}

static enum answer chip_program(size_t sector, const uint8_t *bytes)
{
    size_t earlier;
    if (power_is_lost())
        return POWER_LOST;
    if (unit.spare[sector] != 0xFF || !all_ones(unit.data + S * sector, S))
        return REFUSED;
    for (earlier = sector / 4 * 4; earlier < sector; earlier++)
        if (unit.spare[earlier] == 0xFF)
            return REFUSED;
    memcpy(unit.data + S * sector, bytes, S);
    unit.spare[sector] = 0;
    programs_behind_erases += erased_last;
    erased_last = 0;
    programs++;
    return DONE;
}

static enum answer chip_erase(size_t block)
{
    if (power_is_lost())
        return POWER_LOST;
    memset(unit.data + 64 * S * block, 0xFF, 64 * S);
    memset(unit.spare + 64 * block, 0xFF, 64);
    erased_last = 1;
    erases++;
    return DONE;
}

static enum answer ram_store(const uint8_t *bytes)
{
    if (power_is_lost())
        return POWER_LOST;
    memcpy(unit.ram, bytes, sizeof unit.ram);
    erased_last = 0;
    stores++;
    return DONE;
}

/* The driver. */

static unsigned questions; /* restarts that were asked for a step */

/* Does on the chip what the copy shows and the chip does not, one operation at most. The spare bytes tell where it is: a volume that was
 * formatted has no block whose spare bytes are all ones and whose other bytes are not. This chip shows no wrong bits; on one that does,
 * compare with a second copy of the spare bytes in memory. */
static enum answer carry_over(int *programmed)
{
    size_t block, sector;
    *programmed = 0;
    for (block = 0; block < BLOCKS; block++) {
        if (memcmp(copy.spare + 64 * block, unit.spare + 64 * block, 64) == 0)
            continue;
        if (all_ones(copy.spare + 64 * block, 64))
            return chip_erase(block);
        for (sector = 64 * block; copy.spare[sector] == unit.spare[sector]; sector++)
            ;
        *programmed = 1;
        return chip_program(sector, copy.data + S * sector);
    }
    return DONE; /* a block was erased that is erased already */
}

/* Carries out the steps that the pending call has left, each on the unit before the store is asked for the next. */
static enum answer finish(level_store_state *state)
{
    uint64_t budget = 1;
    enum answer answer = DONE;
    size_t block;
    if (level_store_read32(copy.ram + sizeof copy.ram - LEVEL_STORE_HEADER_SIZE + 4 * 6) == 4) { /* a format erases all blocks */
        for (block = 0; block < BLOCKS && answer == DONE; block++)
            answer = chip_erase(block);
        budget += BLOCKS;
    }
    while (answer == DONE) {
        int programmed;
        level_store_cut_result r = level_store_restart_cut(budget, *state, LENT);
        questions++;
        if (r.refusal != LEVEL_STORE_OK)
            return REFUSED;
        if (r.finished) {
            answer = r.steps == 0 ? DONE : ram_store(copy.ram); /* no step: nothing was pending */
            *state = answer == DONE ? r.state : *state;
            return answer;
        }
        /* All up to the last programmed sector counts as done. An erase behind it does not, and is made again, on the copy: as long as
         * there are only erases, the budget has to grow by one for each. */
        answer = carry_over(&programmed);
        budget = programmed ? 1 : budget + 1;
    }
    return answer;
}

/* Carries out a call whose first step, the intent, was done on the copy. */
static enum answer carry_out(level_store_cut_result first, level_store_state *state)
{
    enum answer answer = first.refusal == LEVEL_STORE_OK ? ram_store(copy.ram) : REFUSED;
    return answer == DONE ? finish(state) : answer;
}

/* At power-up chip and RAM are read, and the pending call is finished. Refused if there was no format yet. */
static enum answer power_up(level_store_state *state)
{
    memset(state, 0, sizeof *state);
    copy = unit;
    return finish(state);
}

/* The seasons. */

static uint32_t limits[LEVELS]; /* the move limit of each level, 0 if it is not there */
static unsigned refused, most;  /* calls; operations of one call */

static enum answer after_a_loss(level_store_state *state)
{
    enum answer answer;
    do
        answer = power_up(state);
    while (answer == POWER_LOST);
    return answer;
}

/* Again, if power was lost before the intent was stored: there is no volume yet, or still the old one. */
static level_store_state format(level_store_state s)
{
    enum answer answer;
    do {
        answer = carry_out(level_store_format_cut(1, s, S, R, D, K, LENT), &s);
        if (answer == POWER_LOST)
            answer = after_a_loss(&s);
    } while (answer == REFUSED || s.records != 0);
    HOLD(answer == DONE && memcmp(&copy, &unit, sizeof unit) == 0);
    return s;
}

static level_store_cut_result begin(level_store_state s, unsigned what, uint32_t key, uint32_t moves)
{
    return what == 0 ? level_store_insert_cut(1, s, key, moves, 0, 0, LENT)
        : what == 1 ? level_store_update_cut(1, s, key, moves, 0, 0, LENT)
                    : level_store_delete_cut(1, s, key, LENT);
}

static level_store_change uncut_call(level_store_state s, unsigned what, uint32_t key, uint32_t moves)
{
    return what == 0 ? level_store_insert(s, key, moves, 0, 0, LENT_UNCUT)
        : what == 1 ? level_store_update(s, key, moves, 0, 0, LENT_UNCUT)
                    : level_store_delete(s, key, LENT_UNCUT);
}

/* One call, again if power was lost before its intent was stored: the counts show it. Refused as the uncut call is. */
static int change(level_store_state *s, unsigned what, uint32_t key, uint32_t moves)
{
    level_store_state old = *s;
    level_store_change whole = uncut_call(old, what, key, moves);
    while (s->records == old.records && s->deletions == old.deletions) {
        level_store_cut_result first = begin(*s, what, key, moves);
        enum answer answer;
        HOLD(first.refusal == whole.refusal);
        if (first.refusal != LEVEL_STORE_OK)
            return 0;
        answer = carry_out(first, s);
        if (answer == POWER_LOST)
            answer = after_a_loss(s);
        HOLD(answer == DONE);
        HOLD(memcmp(&copy, &unit, sizeof unit) == 0);
    }
    HOLD(memcmp(s, &whole.state, sizeof *s) == 0 && memcmp(&uncut, &unit, sizeof unit) == 0);
    return 1;
}

static void hold_level(level_store_state s, uint32_t key)
{
    level_store_lookup_result r = level_store_lookup(s, key, LENT);
    HOLD(r.refusal == LEVEL_STORE_OK && r.found == (limits[key] != 0));
    if (r.found)
        HOLD(level_store_record_moves((r.in_ram ? copy.ram : copy.data) + r.offset) == limits[key]);
}

static void chip_refuses(void)
{
    HOLD(chip_program(0, copy.data) == REFUSED); /* not erased */
    HOLD(chip_erase(0) == DONE && chip_program(1, copy.data) == REFUSED); /* before sector 0 */
    HOLD(chip_program(0, copy.data) == DONE && chip_program(0, copy.data) == REFUSED && chip_program(1, copy.data) == DONE);
}

/* A format and CALLS calls. */
static level_store_state season(level_store_state s)
{
    unsigned i, levels = 0, before;
    uint32_t key;
    lasts = lasts_behind_erases = 100;
    s = format(s);
    uncut = unit;
    memset(limits, 0, sizeof limits);
    lasts = 32;
    lasts_behind_erases = 2;
    for (i = 0; i < CALLS; i++) {
        unsigned what = random_below(8);
        uint32_t moves = 1 + random_below(99);
        what = what < 2 ? 0 : what < 7 ? 1 : 2;
        key = random_below(LEVELS);
        before = programs + erases;
        if (change(&s, what, key, moves))
            limits[key] = what == 2 ? 0 : moves;
        else
            refused++;
        if (programs + erases - before > most)
            most = programs + erases - before;
        hold_level(s, key);
    }
    for (key = 0; key < LEVELS; key++) {
        hold_level(s, key);
        levels += limits[key] != 0;
    }
    HOLD(levels == s.records - s.deletions);
    return s;
}

int main(void)
{
    level_store_state s;
    unsigned i;
    memset(&unit, 0x5A, sizeof unit); /* as it came from its maker */
    chip_refuses();
    programs = erases = 0;
    HOLD(power_up(&s) == REFUSED); /* by 1: there was no format yet */
    for (i = 0; i < SEASONS; i++)
        s = season(s);
    printf("%d seasons, each a format and %d calls; %u calls refused; power lost %u times, %u of them behind an erase\n", SEASONS, CALLS,
        refused, losses, losses_behind_erases);
    printf("the chip: %u sectors programmed, %u straight behind an erase, %u blocks erased, at most %u in a call; it refused nothing\n",
        programs, programs_behind_erases, erases, most);
    printf("the RAM: stored %u times; the library: %u restarts for a step\n", stores, questions);
    printf("after each call chip and RAM equal the lent copy and those of a unit that never lost power; its level is the array's\n");
    printf("the last season: %u records, %u deletions, %u levels\n", s.records, s.deletions, s.records - s.deletions);
    return 0;
}
