/* LevelDB: filters of 10 bits a key, each change synchronous. It has no insert, so that one looks first. */
#include <leveldb/c.h>
#include <string.h>
#include "peer.h"

static leveldb_t *db;
static leveldb_readoptions_t *reading;
static leveldb_writeoptions_t *writing;

static void succeeds(const char *error)
{
    if (error != NULL)
        fail(error);
}

void peer_open(const char *path, const char *mode, uint32_t records, uint32_t updates)
{
    char *error = NULL;
    leveldb_options_t *options = leveldb_options_create();
    (void)mode;
    (void)records;
    (void)updates;
    leveldb_options_set_create_if_missing(options, 1);
    leveldb_options_set_filter_policy(options, leveldb_filterpolicy_create_bloom(10));
    db = leveldb_open(options, path, &error);
    succeeds(error);
    reading = leveldb_readoptions_create();
    writing = leveldb_writeoptions_create();
    leveldb_writeoptions_set_sync(writing, 1);
}

int peer_lookup(uint32_t key, record *r)
{
    char *error = NULL, *found;
    size_t length;
    found = leveldb_get(db, reading, (const char *)&key, sizeof key, &length, &error);
    succeeds(error);
    if (found == NULL)
        return 0;
    if (length != sizeof *r)
        fail("length");
    memcpy(r, found, sizeof *r);
    leveldb_free(found);
    return 1;
}

void peer_update(const record *r)
{
    char *error = NULL;
    leveldb_put(db, writing, (const char *)&r->key, sizeof r->key, (const char *)r, sizeof *r, &error);
    succeeds(error);
}

void peer_insert(const record *r)
{
    record old;
    if (peer_lookup(r->key, &old))
        fail("level is there");
    peer_update(r);
}

void peer_close(void) { leveldb_close(db); }

uint64_t peer_written(void) { return 0; }
uint64_t peer_memory(void) { return 0; }
