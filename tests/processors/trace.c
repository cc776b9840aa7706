/* Runs a trace, a script of calls, over the library: reads the file `trace` of the current folder and writes the file `out`, a line for
 * each call. Both are described in tests/vectors/README.md, whose desk, cells and marks are ram, data and spare here.
 *   cc -O2 -Iinclude tests/processors/trace.c liblevel_store.a
 * Status: 0; 1 without memory for what a trace lends; 2 for a line that it does not know; 3 if a file cannot be read or written. */
#include <inttypes.h>
#include <stdint.h>
#include <stdio.h>
#include <stdlib.h>
#include <string.h>
#include "level_store.h"

enum { WORDS = 8, LINE = 4096 };

static FILE *out;
static level_store_state state;
static uint8_t *data, *spare, *ram;
static size_t data_len, spare_len, ram_len;
static int fill, digests = 1;

/* The next changing call or restart is cut after so many steps. */
static int cutting;
static uint64_t budget;

#define LENT data, data_len, spare, spare_len, ram, ram_len

static uint8_t *lend(uint8_t *old, size_t len)
{
    uint8_t *bytes;
    free(old);
    bytes = malloc(len + 1); /* so that none is empty */
    if (bytes == NULL) {
        fputs("trace: no memory\n", stderr);
        exit(1);
    }
    memset(bytes, fill, len);
    return bytes;
}

/* FNV-1a with 64 bits */
static uint64_t digest(const uint8_t *bytes, size_t len)
{
    uint64_t hash = 0xcbf29ce484222325u;
    size_t i;
    for (i = 0; i < len; i++)
        hash = (hash ^ bytes[i]) * 0x100000001b3u;
    return hash;
}

/* The end of a line: the state and the digests. */
static void end_line(void)
{
    fprintf(out, " | %" PRIu32 " %" PRIu32 " %" PRIu32 " %" PRIu32 " %" PRIu32 " %" PRIu32, state.sector_size, state.ra_blocks,
        state.da_blocks, state.hash_count, state.records, state.deletions);
    if (digests)
        fprintf(out, " | %016" PRIx64 " %016" PRIx64 " %016" PRIx64, digest(data, data_len), digest(spare, spare_len),
            digest(ram, ram_len));
    fputc('\n', out);
}

static void go_on_with(uint32_t refusal, level_store_state next)
{
    if (refusal != LEVEL_STORE_OK && memcmp(&next, &state, sizeof state) != 0)
        fputs("STATE CHANGED BY A REFUSAL ", out);
    state = next;
}

static void answer_change(level_store_change c)
{
    go_on_with(c.refusal, c.state);
    if (c.refusal == LEVEL_STORE_OK)
        fputs("ok", out);
    else
        fprintf(out, "no %" PRIu32, c.refusal);
    end_line();
}

static void answer_cut(level_store_cut_result c)
{
    cutting = 0;
    go_on_with(c.refusal, c.state);
    if (c.refusal != LEVEL_STORE_OK)
        fprintf(out, "no %" PRIu32, c.refusal);
    else if (c.finished)
        fputs("ok", out);
    else
        fprintf(out, "cut %" PRIu64, c.steps);
    end_line();
}

static void answer_lookup(level_store_lookup_result r)
{
    if (r.refusal != LEVEL_STORE_OK) {
        fprintf(out, "no %" PRIu32, r.refusal);
    } else {
        fprintf(out, "%s %" PRIu32 " %" PRIu64, r.found ? "hit" : "miss", r.count, r.deletion_count);
        if (r.found) {
            const uint8_t *record = (r.in_ram ? ram : data) + r.offset;
            int i;
            fprintf(out, " %s %" PRIu32 " ", r.in_ram ? "desk" : "cells", r.offset);
            for (i = 0; i < LEVEL_STORE_RECORD_SIZE; i++)
                fprintf(out, "%02x", record[i]);
        }
    }
    end_line();
}

static void answer_load(level_store_load_result r)
{
    state = r.state;
    fprintf(out, "rows %" PRIu32, r.rows);
    if (r.refusal == LEVEL_STORE_OK)
        fputs(" ok", out);
    else
        fprintf(out, " no %" PRIu32, r.refusal);
    end_line();
}

/* A tab in hexadecimal, `-` for none; its bytes take the place of its digits. */
static void load(char *text)
{
    uint8_t *tab = (uint8_t *)text;
    size_t len = 0, digits = strcmp(text, "-") == 0 ? 0 : strlen(text);
    for (; len < digits / 2; len++) {
        unsigned byte;
        sscanf(text + 2 * len, "%2x", &byte);
        tab[len] = (uint8_t)byte;
    }
    answer_load(level_store_load(state, tab, len, LENT));
}

static void put32(uint8_t *bytes, uint32_t number)
{
    int i;
    for (i = 0; i < 4; i++)
        bytes[i] = (uint8_t)(number >> (8 * i));
}

#define CHANGE(name, ...) \
    do { \
        if (cutting) \
            answer_cut(level_store_##name##_cut(budget, __VA_ARGS__, LENT)); \
        else \
            answer_change(level_store_##name(__VA_ARGS__, LENT)); \
    } while (0)

/* A command and its numbers; 0 if there is no such command. */
static int run(const char *command, const uint32_t *n)
{
    if (strcmp(command, "FILL") == 0) {
        fill = (int)n[0];
    } else if (strcmp(command, "LEND") == 0) {
        data = lend(data, data_len = n[0]);
        spare = lend(spare, spare_len = n[1]);
        ram = lend(ram, ram_len = n[2]);
    } else if (strcmp(command, "F") == 0) {
        CHANGE(format, state, n[0], n[1], n[2], n[3]);
    } else if (strcmp(command, "I") == 0) {
        CHANGE(insert, state, n[0], n[1], n[2], n[3]);
    } else if (strcmp(command, "U") == 0) {
        CHANGE(update, state, n[0], n[1], n[2], n[3]);
    } else if (strcmp(command, "D") == 0) {
        CHANGE(delete, state, n[0]);
    } else if (strcmp(command, "RESTART") == 0) {
        CHANGE(restart, state);
    } else if (strcmp(command, "L") == 0) {
        answer_lookup(level_store_lookup(state, n[0], LENT));
    } else if (strcmp(command, "CUT") == 0) {
        cutting = 1;
        budget = n[0];
    } else if (strcmp(command, "PC") == 0) {
        data[n[0]] = (uint8_t)n[1];
    } else if (strcmp(command, "PM") == 0) {
        spare[n[0]] = (uint8_t)n[1];
    } else if (strcmp(command, "PD") == 0) {
        ram[n[0]] = (uint8_t)n[1];
    } else if (strcmp(command, "PH") == 0) {
        put32(ram + ram_len - LEVEL_STORE_HEADER_SIZE + 4 * n[0], n[1]);
    } else if (strcmp(command, "PS") == 0) {
        state = level_store_state_from(n);
    } else if (strcmp(command, "DIG") == 0) {
        digests = n[0] != 0;
    } else {
        return 0;
    }
    return 1;
}

int main(void)
{
    static char line[LINE];
    FILE *in = fopen("trace", "r");
    out = fopen("out", "w");
    if (in == NULL || out == NULL) {
        fputs("trace: no file trace, or out cannot be written\n", stderr);
        return 3;
    }
    while (fgets(line, sizeof line, in) != NULL) {
        uint32_t numbers[WORDS] = {0};
        char *word, *command = strtok(line, " \n");
        int count = 0;
        if (command == NULL || command[0] == '#')
            continue;
        if (strcmp(command, "LOAD") == 0) {
            word = strtok(NULL, " \n");
            if (word != NULL)
                load(word);
            continue;
        }
        while (count < WORDS && (word = strtok(NULL, " \n")) != NULL)
            numbers[count++] = (uint32_t)strtoul(word, NULL, 10);
        if (!run(command, numbers)) {
            fprintf(stderr, "trace: no command %s\n", command);
            return 2;
        }
    }
    if (ferror(in) || fclose(out) != 0)
        return 3;
    return 0;
}
