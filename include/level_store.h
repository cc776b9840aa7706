/* level_store.h - a level store on a flash chip, proved.
 *
 * Every function may be called with any state and any bytes, of the lengths given beside them. A call that cannot be done is
 * refused by a number, and a refused call changes nothing: neither a byte nor the state, which comes back as it was handed in. A
 * load is a call for each row of its tab, and keeps the rows before a refused one. Nothing is allocated or printed.
 *
 * Lent bytes. Three arrays hold a volume; they need no alignment and must not overlap.
 *   data   the chip's data bytes        at least LEVEL_STORE_DATA_SIZE(S, R, D) bytes
 *   spare  one byte for each sector     at least LEVEL_STORE_SPARE_SIZE(S, R, D) bytes
 *   ram    working memory               at least LEVEL_STORE_RAM_SIZE(S) bytes; between calls it belongs to the store, and it has to
 *                                       survive a loss of power, as the chip does
 * S is the sector size in bytes: 16, 32, 64, 128, 256 or 512. A page is four sectors, a block sixteen pages. R blocks hold the
 * records, D blocks the deletions; both are 1 to 4096. Longer arrays are allowed: of data and spare the bytes past these sizes never
 * change; of ram the last 64 bytes lent are the header, and the bytes between 24S and it never change. All lengths are in bytes; an array
 * of length 0 may be NULL.
 * Multi-byte numbers in the arrays are little-endian.
 *
 * Header. The last 64 bytes of ram, wherever it ends, are the header, sixteen numbers of 4 bytes: S, R, D, k, n and d, as the state
 * has them; the kind of a pending call (1 insert, 2 update, 3 delete, 4 format, 0 none); its arguments (key, moves, goal, word; key;
 * or the new S, R, D, k); zeros. Lend ram with the same length each time, or the header is not where it was.
 *
 * Filters. A level sets k bits in the filter of its page of keys, and a search opens the pages whose filter has all k of its
 * level's. Deleted record numbers have filters too, two for each of their pages, by which a search finds out whether a record is
 * deleted. k is 1 to 8, named by the format; on an unaltered volume it decides how many pages are opened, and no other answer. Of
 * random keys 4 opens the fewest; document 01's 3 opens 1.6 to 2.5 times as many (misses among 10^5 records).
 *
 * Spare bytes. A sector is fresh if five or more of the eight bits of its spare byte are one, else it is programmed. Erasing writes FF,
 * programming writes 00; otherwise a spare byte is left as it is. So up to three wrong bits in each spare byte of a formatted volume change
 * no answer and no other byte, of calls and of loads, of calls that are cut and of restarts, though more bits wear between any two of them;
 * spare bytes past the volume may be any. A format, and a restart that finishes one, read none.
 *
 * Power. At power-up call level_store_restart before anything else, with any state, zeros too, and go on with the state that it gives
 * back: the header has the state of the last finished call, so it need not be kept elsewhere. An accepted changing call is a list of
 * steps: it stores its intent in the header, does its operations on the chip, each a sector programmed or a block erased, and stores the
 * finished ram with the new state and without the intent. The hardware has to see to it that each step happens wholly or not at all,
 * and that they happen in this order: here a step is many plain stores, so the arrays are a copy, out of which a driver commits step
 * after step (level_store_format_cut says how). Power may then be lost between any two steps, during a restart too: restart
 * finishes the call, and all bytes and the state are those of the call never cut. Before the intent is stored nothing has changed, and
 * the call is not made. Which of the two it was is seen by the state: every accepted insert, update and delete raises n or d, or both.
 * Each row of a load is such a call, and the rows behind the one that was cut are not loaded. While a call is pending, all calls but
 * restart and format are refused by 10. A format may be cut like the others, and makes a volume whatever was there. If ram is lost,
 * only a format helps: the pages that are not full yet and the counts are nowhere else. Calls stay safe then, but what they answer is
 * no longer what was stored.
 *
 * Several callers. There is no static data, so calls on different volumes may run at the same time. Two calls on the same volume
 * must not, unless both are lookups.
 *
 * Time. Every call ends, within a time that the size of the volume bounds, not that of the answer: a search tries the records of
 * its level, from the newest on, against the deletions, by their filters, until one is live. A level that was updated often and
 * then deleted takes longest: 0.06 to 0.12 ms after 1,000 updates, 0.09 to 0.18 s after 100,000 (docs/PERFORMANCE.md). A load takes the
 * time of reading its tab and of its rows' calls.
 *
 * Needs. For x86-64 the library has 69 KB of code with its constants, and no other data. Of C it calls memcpy and memset alone. It
 * takes at most 4.5 KB of stack, arguments included (measured: format 0.6, lookup 2.1, restart 4.2, load 4.3, insert, update and
 * delete 4.5). For other processors tools/cross compiles it, and this header is the same; what it takes there is in docs/PERFORMANCE.md,
 * which helpers of the compiler it calls, as for divisions, in README.md.
 */
#ifndef LEVEL_STORE_H
#define LEVEL_STORE_H

#include <stddef.h>
#include <stdint.h>

#if defined __cplusplus || (defined __STDC_VERSION__ && __STDC_VERSION__ >= 199901L)
#define LEVEL_STORE_INLINE static inline
#elif defined __GNUC__
#define LEVEL_STORE_INLINE static __inline__
#else
#define LEVEL_STORE_INLINE static
#endif

#ifdef __cplusplus
extern "C" {
#endif

/* The major number stands for the bytes of a volume and the words of its state. Where it differs from that of the code which
 * formatted a volume, they do not fit. The minor number rises with any other change. A volume of version 1, document 01's, has the
 * bytes of one formatted with hash_count 3: it fits version 2 once its state has a 3 between D and n. Version 3 has filters over
 * deletions, and with them more blocks and a page of ram more: no earlier volume fits it. Version 4 has the header: a volume of version 3
 * fits it once 64 bytes stand behind its ram, the six numbers of its state and then zeros. */
#define LEVEL_STORE_VERSION_MAJOR 4
#define LEVEL_STORE_VERSION_MINOR 1
#define LEVEL_STORE_VERSION (LEVEL_STORE_VERSION_MAJOR * 1000 + LEVEL_STORE_VERSION_MINOR)

/* Sizes, as constant expressions where the arguments are constants. An argument may be evaluated more than once. */

/* The volume's blocks: records, their entries, deletions, and the filters' first level, two sides and full sets, of the entries and
 * then of the deletions. */
#define LEVEL_STORE_BLOCKS(S, R, D) \
    ((size_t)(R) + ((size_t)(R) + 1) / 2 + (size_t)(D) + 1 + (size_t)(S) / 2 + (size_t)(R) / (4 * (size_t)(S)) * ((size_t)(S) / 4) \
        + 1 + (size_t)(S) / 2 + (size_t)(D) / (size_t)(S) * ((size_t)(S) / 4))

/* Bytes to lend. The ram is six pages and the header. */
#define LEVEL_STORE_DATA_SIZE(S, R, D) (64 * (size_t)(S) * LEVEL_STORE_BLOCKS(S, R, D))
#define LEVEL_STORE_SPARE_SIZE(S, R, D) (64 * LEVEL_STORE_BLOCKS(S, R, D))
#define LEVEL_STORE_RAM_SIZE(S) (24 * (size_t)(S) + LEVEL_STORE_HEADER_SIZE)

/* Bytes of the header, the last ones of ram. */
#define LEVEL_STORE_HEADER_SIZE 64

/* Records and deletions that fit between two formats. */
#define LEVEL_STORE_RECORD_CAPACITY(S, R) (4 * (size_t)(R) * (size_t)(S))
#define LEVEL_STORE_DELETION_CAPACITY(S, D) (16 * (size_t)(D) * (size_t)(S))

/* Bytes of a record: key, moves, goal, free word, 4 bytes each. */
#define LEVEL_STORE_RECORD_SIZE 16

/* What a call was refused by, tested in the order 1, 2, 10, 9, 8, 3, 4, 5, 6, 7; the first that applies is given. On a volume that was
 * formatted, its bytes and state handed on unaltered, 1, 2, 7 and 8 never occur, and 10 only after a cut without a restart. */
enum level_store_refusal {
    LEVEL_STORE_OK = 0,             /* accepted */
    LEVEL_STORE_BAD_STATE = 1,      /* S, R, D or k not allowed, or n or d above its capacity, or d above n */
    LEVEL_STORE_TOO_SHORT = 2,      /* data, spare or ram too short */
    LEVEL_STORE_PRESENT = 3,        /* insert of a level that is there */
    LEVEL_STORE_ABSENT = 4,         /* delete of a level that is not there */
    LEVEL_STORE_FULL = 5,           /* insert or update without room for a record */
    LEVEL_STORE_DELETIONS_FULL = 6, /* update or delete of a level that is there, without room for a deletion */
    LEVEL_STORE_NOT_FRESH = 7,      /* a sector to be programmed is not fresh */
    LEVEL_STORE_CORRUPT_ENTRY = 8,  /* the search met an entry of the level with a record number of n or more */
    LEVEL_STORE_MALFORMED = 9,      /* load: a tab without its first line, or a row that is not three numbers */
    LEVEL_STORE_PENDING = 10        /* a call was cut and has to be finished: restart first. Never of restart and format */
};

/* A refusal in words. */
LEVEL_STORE_INLINE const char *level_store_refusal_text(uint32_t refusal)
{
    switch (refusal) {
    case LEVEL_STORE_OK: return "accepted";
    case LEVEL_STORE_BAD_STATE: return "sizes or counts not allowed";
    case LEVEL_STORE_TOO_SHORT: return "data, spare or ram too short";
    case LEVEL_STORE_PRESENT: return "level already there";
    case LEVEL_STORE_ABSENT: return "level not there";
    case LEVEL_STORE_FULL: return "no room for a record";
    case LEVEL_STORE_DELETIONS_FULL: return "no room for a deletion";
    case LEVEL_STORE_NOT_FRESH: return "sector not fresh";
    case LEVEL_STORE_CORRUPT_ENTRY: return "entry with a wrong record number";
    case LEVEL_STORE_MALFORMED: return "header missing or row malformed";
    case LEVEL_STORE_PENDING: return "a call is pending";
    default: return "unknown refusal";
    }
}

/* S, R, D, k, n, d. The caller hands in what the last call gave back; before any format, and for a restart, it may be all zero. */
typedef struct {
    uint32_t sector_size; /* S, bytes */
    uint32_t ra_blocks;   /* R, blocks of records */
    uint32_t da_blocks;   /* D, blocks of deletions */
    uint32_t hash_count;  /* k, filter bits of a level, 1 to 8 */
    uint32_t records;     /* n, records accepted since the format */
    uint32_t deletions;   /* d, deletions accepted since the format; n - d levels are live */
} level_store_state;

/* What a changing call gives: LEVEL_STORE_OK and the new state, or a refusal and the state handed in. */
typedef struct {
    uint32_t refusal;
    level_store_state state;
} level_store_change;

/* What a lookup gives. found 1: the record's 16 bytes start at `offset` of ram (in_ram 1) or of data (in_ram 0). found 0: the
 * level is not there, in_ram and offset are 0. count is the number of pages of keys opened, deletion_count that of pages of
 * deletions, one opened for several records counted each time. A refusal has 0 in all other fields. */
typedef struct {
    uint32_t refusal;
    uint32_t found;
    uint32_t count;
    uint32_t in_ram;
    uint32_t offset;
    uint64_t deletion_count;
} level_store_lookup_result;

/* What a load gives: the number of rows loaded, LEVEL_STORE_OK if these are all rows of the tab, else the refusal of the row behind
 * them or, with no row loaded, of the state, the lent bytes or the header; and the state after the rows loaded. */
typedef struct {
    uint32_t refusal;
    uint32_t rows;
    level_store_state state;
} level_store_load_result;

/* What a call with a budget of steps gives. finished 1: all its steps were done, so many, and the state is the new one. finished 0 with
 * LEVEL_STORE_OK: the call stopped after `steps` of them, and the state is the one handed in. A refusal has finished 0, steps 0 and the
 * state handed in. */
typedef struct {
    uint32_t refusal;
    uint32_t finished;
    uint64_t steps;
    level_store_state state;
} level_store_cut_result;

/* A little-endian number, at any address. */
LEVEL_STORE_INLINE uint32_t level_store_read32(const uint8_t *bytes)
{
    uint32_t number = bytes[3];
    number = number << 8 | bytes[2];
    number = number << 8 | bytes[1];
    return number << 8 | bytes[0];
}

/* The four numbers of a record. */
LEVEL_STORE_INLINE uint32_t level_store_record_key(const uint8_t *record) { return level_store_read32(record); }
LEVEL_STORE_INLINE uint32_t level_store_record_moves(const uint8_t *record) { return level_store_read32(record + 4); }
LEVEL_STORE_INLINE uint32_t level_store_record_goal(const uint8_t *record) { return level_store_read32(record + 8); }
LEVEL_STORE_INLINE uint32_t level_store_record_word(const uint8_t *record) { return level_store_read32(record + 12); }

/* ---- the library's functions, the same on every processor and from every language
 *
 * They take pointers and numbers of 32 and 64 bits and return nothing, which all processors pass alike. A length has 64 bits, also where
 * size_t has 32. A state is its six numbers S, R, D, k, n, d. An answer is the fields of the call's result in their order, but for those
 * of 64 bits, which have a pointer of their own. No two arrays may overlap; numbers are aligned as C aligns uint32_t and uint64_t. These
 * functions are what is proved. C programs need not call them: the calls below do, with structs, and copy fields only. */
void level_store_format_numbers(uint32_t answer[7], const uint32_t old[6],
    uint32_t sector_size, uint32_t ra_blocks, uint32_t da_blocks, uint32_t hash_count,
    uint8_t *data, uint64_t data_len, uint8_t *spare, uint64_t spare_len, uint8_t *ram, uint64_t ram_len);
void level_store_insert_numbers(uint32_t answer[7], const uint32_t state[6],
    uint32_t key, uint32_t moves, uint32_t goal, uint32_t word,
    uint8_t *data, uint64_t data_len, uint8_t *spare, uint64_t spare_len, uint8_t *ram, uint64_t ram_len);
void level_store_update_numbers(uint32_t answer[7], const uint32_t state[6],
    uint32_t key, uint32_t moves, uint32_t goal, uint32_t word,
    uint8_t *data, uint64_t data_len, uint8_t *spare, uint64_t spare_len, uint8_t *ram, uint64_t ram_len);
void level_store_delete_numbers(uint32_t answer[7], const uint32_t state[6], uint32_t key,
    uint8_t *data, uint64_t data_len, uint8_t *spare, uint64_t spare_len, uint8_t *ram, uint64_t ram_len);
void level_store_lookup_numbers(uint32_t answer[5], uint64_t *deletion_count, const uint32_t state[6], uint32_t key,
    const uint8_t *data, uint64_t data_len, const uint8_t *spare, uint64_t spare_len, const uint8_t *ram, uint64_t ram_len);
void level_store_load_numbers(uint32_t answer[8], const uint32_t state[6], const uint8_t *tab, uint64_t tab_len,
    uint8_t *data, uint64_t data_len, uint8_t *spare, uint64_t spare_len, uint8_t *ram, uint64_t ram_len);
void level_store_restart_numbers(uint32_t answer[7], const uint32_t state[6],
    uint8_t *data, uint64_t data_len, uint8_t *spare, uint64_t spare_len, uint8_t *ram, uint64_t ram_len);
void level_store_format_cut_numbers(uint32_t answer[8], uint64_t *steps, uint64_t budget, const uint32_t old[6],
    uint32_t sector_size, uint32_t ra_blocks, uint32_t da_blocks, uint32_t hash_count,
    uint8_t *data, uint64_t data_len, uint8_t *spare, uint64_t spare_len, uint8_t *ram, uint64_t ram_len);
void level_store_insert_cut_numbers(uint32_t answer[8], uint64_t *steps, uint64_t budget, const uint32_t state[6],
    uint32_t key, uint32_t moves, uint32_t goal, uint32_t word,
    uint8_t *data, uint64_t data_len, uint8_t *spare, uint64_t spare_len, uint8_t *ram, uint64_t ram_len);
void level_store_update_cut_numbers(uint32_t answer[8], uint64_t *steps, uint64_t budget, const uint32_t state[6],
    uint32_t key, uint32_t moves, uint32_t goal, uint32_t word,
    uint8_t *data, uint64_t data_len, uint8_t *spare, uint64_t spare_len, uint8_t *ram, uint64_t ram_len);
void level_store_delete_cut_numbers(uint32_t answer[8], uint64_t *steps, uint64_t budget, const uint32_t state[6], uint32_t key,
    uint8_t *data, uint64_t data_len, uint8_t *spare, uint64_t spare_len, uint8_t *ram, uint64_t ram_len);
void level_store_restart_cut_numbers(uint32_t answer[8], uint64_t *steps, uint64_t budget, const uint32_t state[6],
    uint8_t *data, uint64_t data_len, uint8_t *spare, uint64_t spare_len, uint8_t *ram, uint64_t ram_len);

/* A state as its six numbers, and back. */
LEVEL_STORE_INLINE void level_store_state_to(uint32_t numbers[6], level_store_state state)
{
    numbers[0] = state.sector_size;
    numbers[1] = state.ra_blocks;
    numbers[2] = state.da_blocks;
    numbers[3] = state.hash_count;
    numbers[4] = state.records;
    numbers[5] = state.deletions;
}
LEVEL_STORE_INLINE level_store_state level_store_state_from(const uint32_t numbers[6])
{
    level_store_state state;
    state.sector_size = numbers[0];
    state.ra_blocks = numbers[1];
    state.da_blocks = numbers[2];
    state.hash_count = numbers[3];
    state.records = numbers[4];
    state.deletions = numbers[5];
    return state;
}

/* The results of changing calls, without and with a budget, out of their numbers. */
LEVEL_STORE_INLINE level_store_change level_store_change_from(const uint32_t answer[7])
{
    level_store_change change;
    change.refusal = answer[0];
    change.state = level_store_state_from(answer + 1);
    return change;
}
LEVEL_STORE_INLINE level_store_cut_result level_store_cut_from(const uint32_t answer[8], uint64_t steps)
{
    level_store_cut_result result;
    result.refusal = answer[0];
    result.finished = answer[1];
    result.steps = steps;
    result.state = level_store_state_from(answer + 2);
    return result;
}

/* ---- the calls */

/* Starts an empty volume of S, R, D and k: erases its blocks, zeroes ram's pages and stores the header. `old` is not judged; it comes
 * back on a refusal. A pending call is forgotten. Refused by 1, 2. */
LEVEL_STORE_INLINE level_store_change level_store_format(level_store_state old,
    uint32_t sector_size, uint32_t ra_blocks, uint32_t da_blocks, uint32_t hash_count,
    uint8_t *data, size_t data_len, uint8_t *spare, size_t spare_len, uint8_t *ram, size_t ram_len)
{
    uint32_t numbers[6], answer[7];
    level_store_state_to(numbers, old);
    level_store_format_numbers(answer, numbers, sector_size, ra_blocks, da_blocks, hash_count,
        data, data_len, spare, spare_len, ram, ram_len);
    return level_store_change_from(answer);
}

/* A new level. Refused by 1, 2, 10, 8, 3, 5, 7. */
LEVEL_STORE_INLINE level_store_change level_store_insert(level_store_state state,
    uint32_t key, uint32_t moves, uint32_t goal, uint32_t word,
    uint8_t *data, size_t data_len, uint8_t *spare, size_t spare_len, uint8_t *ram, size_t ram_len)
{
    uint32_t numbers[6], answer[7];
    level_store_state_to(numbers, state);
    level_store_insert_numbers(answer, numbers, key, moves, goal, word, data, data_len, spare, spare_len, ram, ram_len);
    return level_store_change_from(answer);
}

/* Values for a level, there or not: its record, if there is one, is deleted, and another inserted. n rises by one, and d if the level was
 * there. Refused by 1, 2, 10, 8, 5, 6, 7; of a level that is not there never by 6. */
LEVEL_STORE_INLINE level_store_change level_store_update(level_store_state state,
    uint32_t key, uint32_t moves, uint32_t goal, uint32_t word,
    uint8_t *data, size_t data_len, uint8_t *spare, size_t spare_len, uint8_t *ram, size_t ram_len)
{
    uint32_t numbers[6], answer[7];
    level_store_state_to(numbers, state);
    level_store_update_numbers(answer, numbers, key, moves, goal, word, data, data_len, spare, spare_len, ram, ram_len);
    return level_store_change_from(answer);
}

/* Takes a level out. Refused by 1, 2, 10, 8, 4, 6, 7. */
LEVEL_STORE_INLINE level_store_change level_store_delete(level_store_state state, uint32_t key,
    uint8_t *data, size_t data_len, uint8_t *spare, size_t spare_len, uint8_t *ram, size_t ram_len)
{
    uint32_t numbers[6], answer[7];
    level_store_state_to(numbers, state);
    level_store_delete_numbers(answer, numbers, key, data, data_len, spare, spare_len, ram, ram_len);
    return level_store_change_from(answer);
}

/* Finds a level's newest record. Changes nothing. Refused by 1, 2, 10, 8. */
LEVEL_STORE_INLINE level_store_lookup_result level_store_lookup(level_store_state state, uint32_t key,
    const uint8_t *data, size_t data_len, const uint8_t *spare, size_t spare_len, const uint8_t *ram, size_t ram_len)
{
    uint32_t numbers[6], answer[5];
    level_store_lookup_result result;
    level_store_state_to(numbers, state);
    level_store_lookup_numbers(answer, &result.deletion_count, numbers, key, data, data_len, spare, spare_len, ram, ram_len);
    result.refusal = answer[0];
    result.found = answer[1];
    result.count = answer[2];
    result.in_ram = answer[3];
    result.offset = answer[4];
    return result;
}

/* Loads a comma-separated tab (RFC 4180), whose bytes are only read and must not overlap the other arrays: a header
 * level,moves,goal, then rows, if any, of three decimal numbers below 2^32. Leading zeros are allowed; each field, the header's
 * too, is quoted or not; lines end in LF or CRLF, the last ending may be missing. A row is an insert, or an update if its level
 * is there, with word 0. The load ends at the first row that is malformed or refused; that row changes nothing, the rows before
 * it remain. Refused by 1, 2, 10 and, without the tab's header, 9, all with rows 0; at a row by 9, 8, 5, 6, 7. A tab of no bytes needs
 * no header: it has no rows, is refused by 1, 2 and 10 alone, and nothing is read at tab. One with only a line end is malformed. */
LEVEL_STORE_INLINE level_store_load_result level_store_load(level_store_state state, const uint8_t *tab, size_t tab_len,
    uint8_t *data, size_t data_len, uint8_t *spare, size_t spare_len, uint8_t *ram, size_t ram_len)
{
    uint32_t numbers[6], answer[8];
    level_store_load_result result;
    level_store_state_to(numbers, state);
    level_store_load_numbers(answer, numbers, tab, tab_len, data, data_len, spare, spare_len, ram, ram_len);
    result.refusal = answer[0];
    result.rows = answer[1];
    result.state = level_store_state_from(answer + 2);
    return result;
}

/* To be called first at power-up. Finishes the pending call, or finds none and changes nothing; gives the state to go on with. It goes by
 * the header; `state` is not judged, and comes back on a refusal. What counts as done is all up to the last sector of the call's list
 * that is programmed; no sector is programmed again, an erase behind that sector perhaps made again. Refused by 2 first if ram is
 * under 64 bytes, and by 1 if the kind is unknown; then as the pending call would be, a format by its four arguments and any other by the
 * header's state, but never by 7 and 10; with none pending by 1, 2. On a volume that was formatted and not altered it is never refused.
 * Refused by 2: the header names a volume that needs more than is lent. It may be sound, and a format would destroy it: lend more. Refused
 * by another number, there is no volume, or the pending call cannot be finished, and only a format helps. S, R, D and k of the state
 * that it gives are the volume's: compare them with your own. examples/power_up.c does all this. */
LEVEL_STORE_INLINE level_store_change level_store_restart(level_store_state state,
    uint8_t *data, size_t data_len, uint8_t *spare, size_t spare_len, uint8_t *ram, size_t ram_len)
{
    uint32_t numbers[6], answer[7];
    level_store_state_to(numbers, state);
    level_store_restart_numbers(answer, numbers, data, data_len, spare, spare_len, ram, ram_len);
    return level_store_change_from(answer);
}

/* The same calls with a budget: they do the first `budget` of their steps, as if power was lost then, and leave the bytes of that moment.
 * A budget of 0 changes nothing; one of all steps or more is the call without a budget. A restart that finds nothing pending has
 * finished 1, steps 0 and the header's state. A load has no budget of its own: its rows are inserts and updates.
 *
 * So a driver that works on a copy learns the steps of a call in their order, one at a time (examples/driver.c). The call with budget 1
 * stores the intent in ram. Then level_store_restart_cut with budget 1, on the same bytes, does the next step: the spare bytes show a
 * sector programmed or a block erased, and with finished 1 it is the last one, the finished ram. Restarts count as done all up to the last
 * programmed sector, but no erase behind it, and with budget 1 alone would make the same erase for ever: as long as there are only
 * erases, the budget has to grow by one for each, and is 1 again behind a programmed sector. Erasing a block of all FF changes no byte.
 * Measured, an update takes 5.1 us so at S = 16 and 1.4 at S = 512, the call alone 0.8 and 0.5. What budgets b and b + 1 of the call
 * leave differs by one step as well, but each needs the bytes before the call, a copy of the volume a step: 42 us and 5.1 ms. */
LEVEL_STORE_INLINE level_store_cut_result level_store_format_cut(uint64_t budget, level_store_state old,
    uint32_t sector_size, uint32_t ra_blocks, uint32_t da_blocks, uint32_t hash_count,
    uint8_t *data, size_t data_len, uint8_t *spare, size_t spare_len, uint8_t *ram, size_t ram_len)
{
    uint32_t numbers[6], answer[8];
    uint64_t steps;
    level_store_state_to(numbers, old);
    level_store_format_cut_numbers(answer, &steps, budget, numbers, sector_size, ra_blocks, da_blocks, hash_count,
        data, data_len, spare, spare_len, ram, ram_len);
    return level_store_cut_from(answer, steps);
}
LEVEL_STORE_INLINE level_store_cut_result level_store_insert_cut(uint64_t budget, level_store_state state,
    uint32_t key, uint32_t moves, uint32_t goal, uint32_t word,
    uint8_t *data, size_t data_len, uint8_t *spare, size_t spare_len, uint8_t *ram, size_t ram_len)
{
    uint32_t numbers[6], answer[8];
    uint64_t steps;
    level_store_state_to(numbers, state);
    level_store_insert_cut_numbers(answer, &steps, budget, numbers, key, moves, goal, word,
        data, data_len, spare, spare_len, ram, ram_len);
    return level_store_cut_from(answer, steps);
}
LEVEL_STORE_INLINE level_store_cut_result level_store_update_cut(uint64_t budget, level_store_state state,
    uint32_t key, uint32_t moves, uint32_t goal, uint32_t word,
    uint8_t *data, size_t data_len, uint8_t *spare, size_t spare_len, uint8_t *ram, size_t ram_len)
{
    uint32_t numbers[6], answer[8];
    uint64_t steps;
    level_store_state_to(numbers, state);
    level_store_update_cut_numbers(answer, &steps, budget, numbers, key, moves, goal, word,
        data, data_len, spare, spare_len, ram, ram_len);
    return level_store_cut_from(answer, steps);
}
LEVEL_STORE_INLINE level_store_cut_result level_store_delete_cut(uint64_t budget, level_store_state state, uint32_t key,
    uint8_t *data, size_t data_len, uint8_t *spare, size_t spare_len, uint8_t *ram, size_t ram_len)
{
    uint32_t numbers[6], answer[8];
    uint64_t steps;
    level_store_state_to(numbers, state);
    level_store_delete_cut_numbers(answer, &steps, budget, numbers, key, data, data_len, spare, spare_len, ram, ram_len);
    return level_store_cut_from(answer, steps);
}
LEVEL_STORE_INLINE level_store_cut_result level_store_restart_cut(uint64_t budget, level_store_state state,
    uint8_t *data, size_t data_len, uint8_t *spare, size_t spare_len, uint8_t *ram, size_t ram_len)
{
    uint32_t numbers[6], answer[8];
    uint64_t steps;
    level_store_state_to(numbers, state);
    level_store_restart_cut_numbers(answer, &steps, budget, numbers, data, data_len, spare, spare_len, ram, ram_len);
    return level_store_cut_from(answer, steps);
}

#ifdef __cplusplus
}
#endif

#undef LEVEL_STORE_INLINE

#endif
