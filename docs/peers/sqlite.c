/* SQLite: a table whose key is the level, statements prepared once, each change a transaction of its own. Modes: wal, with
 * synchronous=FULL, and memory. */
#include <sqlite3.h>
#include <string.h>
#include "peer.h"

static sqlite3 *db;
static sqlite3_stmt *insertion, *change, *question;

static void run(const char *text)
{
    if (sqlite3_exec(db, text, NULL, NULL, NULL) != SQLITE_OK)
        fail(sqlite3_errmsg(db));
}

static sqlite3_stmt *prepared(const char *text)
{
    sqlite3_stmt *s;
    if (sqlite3_prepare_v2(db, text, -1, &s, NULL) != SQLITE_OK)
        fail(sqlite3_errmsg(db));
    return s;
}

void peer_open(const char *path, const char *mode, uint32_t records, uint32_t updates)
{
    int in_memory = strcmp(mode, "memory") == 0;
    (void)records;
    (void)updates;
    if (sqlite3_open(in_memory ? ":memory:" : path, &db) != SQLITE_OK)
        fail("open");
    if (!in_memory)
        run("pragma journal_mode = wal; pragma synchronous = full");
    run("create table levels (key integer primary key, moves integer, goal integer, word integer)");
    insertion = prepared("insert into levels values (?1, ?2, ?3, ?4)");
    change = prepared("insert into levels values (?1, ?2, ?3, ?4) on conflict (key) do update set moves = ?2, goal = ?3, word = ?4");
    question = prepared("select moves, goal, word from levels where key = ?1");
}

static void put(sqlite3_stmt *s, const record *r)
{
    sqlite3_bind_int64(s, 1, r->key);
    sqlite3_bind_int64(s, 2, r->moves);
    sqlite3_bind_int64(s, 3, r->goal);
    sqlite3_bind_int64(s, 4, r->word);
    if (sqlite3_step(s) != SQLITE_DONE)
        fail(sqlite3_errmsg(db));
    sqlite3_reset(s);
}

void peer_insert(const record *r) { put(insertion, r); }
void peer_update(const record *r) { put(change, r); }

int peer_lookup(uint32_t key, record *r)
{
    int found;
    sqlite3_bind_int64(question, 1, key);
    found = sqlite3_step(question) == SQLITE_ROW;
    if (found) {
        r->key = key;
        r->moves = (uint32_t)sqlite3_column_int64(question, 0);
        r->goal = (uint32_t)sqlite3_column_int64(question, 1);
        r->word = (uint32_t)sqlite3_column_int64(question, 2);
    }
    sqlite3_reset(question);
    return found;
}

void peer_close(void)
{
    sqlite3_finalize(insertion);
    sqlite3_finalize(change);
    sqlite3_finalize(question);
    sqlite3_close(db);
}

uint64_t peer_written(void) { return 0; }
uint64_t peer_memory(void) { return 0; }
