/* GDBM: synchronous, without a map, so that its writes can be counted. It has no transactions. */
#include <gdbm.h>
#include <stdlib.h>
#include <string.h>
#include "peer.h"

static GDBM_FILE db;

void peer_open(const char *path, const char *mode, uint32_t records, uint32_t updates)
{
    (void)mode;
    (void)records;
    (void)updates;
    db = gdbm_open(path, 0, GDBM_NEWDB | GDBM_SYNC | GDBM_NOMMAP, 0644, NULL);
    if (db == NULL)
        fail(gdbm_strerror(gdbm_errno));
}

static datum bytes(const void *first, size_t count)
{
    datum d;
    d.dptr = (char *)first;
    d.dsize = (int)count;
    return d;
}

static void put(const record *r, int flag)
{
    if (gdbm_store(db, bytes(&r->key, sizeof r->key), bytes(r, sizeof *r), flag) != 0)
        fail(gdbm_strerror(gdbm_errno));
}

void peer_insert(const record *r) { put(r, GDBM_INSERT); }
void peer_update(const record *r) { put(r, GDBM_REPLACE); }

int peer_lookup(uint32_t key, record *r)
{
    datum found = gdbm_fetch(db, bytes(&key, sizeof key));
    if (found.dptr == NULL)
        return 0;
    memcpy(r, found.dptr, sizeof *r);
    free(found.dptr);
    return 1;
}

void peer_close(void) { gdbm_close(db); }

uint64_t peer_written(void) { return 0; }
uint64_t peer_memory(void) { return 0; }
