/* Stack and instructions of the calls, in volumes that are filled, updated, cut and emptied; k = 4.
 * Stack: bytes below the caller that a call wrote, its arguments included; the most of all calls of a kind. The stack is painted first.
 * Instructions: on bare boards under `qemu -icount shift=0`, where one takes a nanosecond; elsewhere none are counted. */
#include <inttypes.h>
#include <stdint.h>
#include <stdio.h>
#include <stdlib.h>
#include <string.h>
#include "level_store.h"

#define OUT_OF_LINE __attribute__((noinline))

/* ---- instructions */

#if defined __riscv && __riscv_xlen == 32
static uint64_t instructions(void)
{
    uint32_t high, low, again;
    do {
        __asm__ volatile(".option push\n .option arch, +zicsr\n csrr %0, minstreth\n csrr %1, minstret\n csrr %2, minstreth\n .option pop"
                         : "=r"(high), "=r"(low), "=r"(again));
    } while (high != again);
    return (uint64_t)high << 32 | low;
}
#elif defined __ARM_ARCH_PROFILE && __ARM_ARCH_PROFILE == 'M'
/* SysTick counts down from 2^24 with the board's clock; TICK is its period in nanoseconds. */
static uint64_t instructions(void)
{
    static uint64_t ticks;
    static uint32_t last;
    volatile uint32_t *timer = (volatile uint32_t *)0xE000E010u;
    uint32_t now;
    if (!(timer[0] & 1)) {
        timer[1] = last = 0xFFFFFF;
        timer[2] = 0;
        timer[0] = 5;
    }
    now = timer[2];
    ticks += (last - now) & 0xFFFFFF;
    last = now;
    return ticks * TICK;
}
#else
#define UNCOUNTED
static uint64_t instructions(void) { return 0; }
#endif

/* ---- stack */

enum { DEEP = 20000, PAINT = 0xA5 };
static uintptr_t bottom;

static OUT_OF_LINE void paint(void)
{
    volatile uint8_t deep[DEEP];
    int i;
    for (i = 0; i < DEEP; i++)
        deep[i] = PAINT;
    bottom = (uintptr_t)deep;
}

static OUT_OF_LINE uint32_t used_below(uintptr_t top)
{
    const volatile uint8_t *at = (const volatile uint8_t *)bottom;
    while ((uintptr_t)at < top && *at == PAINT)
        at++;
    return (uint32_t)(top - (uintptr_t)at);
}

/* ---- calls */

enum kind { FORMAT, INSERT, UPDATE, DELETE, HIT, MISS, LOAD, RESTART, KINDS };
static const char *const names[KINDS] = {"format", "insert", "update", "delete", "lookup, hit", "lookup, miss", "load of 80", "restart"};
static uint64_t total[KINDS], most[KINDS];
static uint32_t stack[KINDS], calls[KINDS];
static uint32_t sizes[4], numbers[6], wrong;
static uint8_t *data, *spare, *ram;
static size_t data_len, spare_len, ram_len;
static char tab[2000];

#define LENT data, data_len, spare, spare_len, ram, ram_len

/* A call of a kind; with a budget that is not 0 it is cut. */
static OUT_OF_LINE void make(enum kind kind, uint32_t key, uint64_t budget, uintptr_t top)
{
    uint32_t answer[8], deep, first = 1;
    uint64_t wide, took;
    paint();
    took = instructions();
    switch (kind) {
    case FORMAT: level_store_format_numbers(answer, numbers, sizes[0], sizes[1], sizes[2], sizes[3], LENT); break;
    case INSERT:
        if (budget == 0) {
            level_store_insert_numbers(answer, numbers, key, 1, 2, 0, LENT);
        } else {
            level_store_insert_cut_numbers(answer, &wide, budget, numbers, key, 1, 2, 0, LENT);
            first = 2;
        }
        break;
    case UPDATE: level_store_update_numbers(answer, numbers, key, 1, 2, 0, LENT); break;
    case DELETE:
        if (budget == 0) {
            level_store_delete_numbers(answer, numbers, key, LENT);
        } else {
            level_store_delete_cut_numbers(answer, &wide, budget, numbers, key, LENT);
            first = 2;
        }
        break;
    case HIT:
    case MISS: level_store_lookup_numbers(answer, &wide, numbers, key, LENT); break;
    case LOAD:
        level_store_load_numbers(answer, numbers, (const uint8_t *)tab, strlen(tab), LENT);
        first = 2;
        break;
    default: level_store_restart_numbers(answer, numbers, LENT); break;
    }
    took = instructions() - took;
    deep = used_below(top);
    if (deep > stack[kind])
        stack[kind] = deep;
    if (budget == 0) {
        total[kind] += took;
        calls[kind]++;
        if (took > most[kind])
            most[kind] = took;
    }
    wrong += answer[0] != 0;
    if (kind == HIT || kind == MISS)
        wrong += answer[1] != (kind == HIT);
    else
        memcpy(numbers, answer + first, sizeof numbers);
}

static OUT_OF_LINE void call(enum kind kind, uint32_t key)
{
    volatile uint8_t top;
    make(kind, key, 0, (uintptr_t)&top);
}

/* A call that is cut when its intent is stored, and the restart that does the rest. */
static OUT_OF_LINE void call_in_two(enum kind kind, uint32_t key)
{
    volatile uint8_t top;
    make(kind, key, 1, (uintptr_t)&top);
    make(RESTART, 0, 0, (uintptr_t)&top);
}

static void measure(uint32_t S, uint32_t R, uint32_t D, uint32_t n)
{
    uint32_t i, length, entries = S / 2; /* of a page; every second page is filled by a restart */
    int kind;
    memset(total, 0, sizeof total);
    memset(most, 0, sizeof most);
    memset(stack, 0, sizeof stack);
    memset(calls, 0, sizeof calls);
    memset(numbers, 0, sizeof numbers);
    sizes[0] = S, sizes[1] = R, sizes[2] = D, sizes[3] = 4;
    data = malloc(data_len = LEVEL_STORE_DATA_SIZE(S, R, D));
    spare = malloc(spare_len = LEVEL_STORE_SPARE_SIZE(S, R, D));
    ram = malloc(ram_len = LEVEL_STORE_RAM_SIZE(S));
    length = (uint32_t)sprintf(tab, "level,moves,goal\n");
    for (i = 0; i < 80; i++)
        length += (uint32_t)sprintf(tab + length, "%" PRIu32 ",1,2\n", 3000000 + i);
    printf("S %" PRIu32 " R %" PRIu32 " D %" PRIu32 ", %" PRIu32 " levels", S, R, D, n);
    if (data == NULL || spare == NULL || ram == NULL) {
        printf(": no memory\n");
        return;
    }
    call(FORMAT, 0);
    for (i = 0; i < n; i++) {
        if ((i + 1) % (2 * entries) == 0)
            call_in_two(INSERT, 7 * i);
        else
            call(INSERT, 7 * i);
    }
    for (i = 0; i < n; i += 7)
        call(UPDATE, 7 * i);
    for (i = 3; i < n; i += 7) {
        if (numbers[5] % (2 * S) == 2 * S - 1)
            call_in_two(DELETE, 7 * i);
        else
            call(DELETE, 7 * i);
    }
    call(LOAD, 0);
    for (i = 0; i < n; i++) {
        if (i % 7 != 3)
            call(HIT, 7 * i);
        call(MISS, 7 * i + 1);
    }
    printf(", n %" PRIu32 ", d %" PRIu32 ", %" PRIu32 " wrong answers\n", numbers[4], numbers[5], wrong);
    for (kind = 0; kind < KINDS; kind++) {
        printf("  %-13s stack %5" PRIu32, names[kind], stack[kind]);
#ifndef UNCOUNTED
        printf("  instructions, mean %8" PRIu64 ", most %8" PRIu64, total[kind] / calls[kind], most[kind]);
#endif
        printf("  (%" PRIu32 " calls)\n", calls[kind]);
    }
    free(data);
    free(spare);
    free(ram);
}

int main(void)
{
    measure(16, 16, 4, 800);
    measure(64, 16, 4, 3200);
    measure(512, 1, 1, 1500);
    return wrong != 0;
}
