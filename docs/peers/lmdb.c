/* LMDB: keys are numbers, each change a transaction of its own, each lookup a transaction that is renewed. */
#include <lmdb.h>
#include <string.h>
#include "peer.h"

static MDB_env *env;
static MDB_dbi levels;
static MDB_txn *reader;

static void succeeds(int status)
{
    if (status != MDB_SUCCESS)
        fail(mdb_strerror(status));
}

void peer_open(const char *path, const char *mode, uint32_t records, uint32_t updates)
{
    MDB_txn *t;
    (void)mode;
    (void)records;
    (void)updates;
    succeeds(mdb_env_create(&env));
    succeeds(mdb_env_set_mapsize(env, (size_t)1 << 28));
    succeeds(mdb_env_open(env, path, MDB_NOSUBDIR, 0644));
    succeeds(mdb_txn_begin(env, NULL, 0, &t));
    succeeds(mdb_dbi_open(t, NULL, MDB_INTEGERKEY, &levels));
    succeeds(mdb_txn_commit(t));
}

static void put(const record *r, unsigned flags)
{
    MDB_txn *t;
    unsigned key = r->key;
    record copy = *r;
    MDB_val k, v;
    k.mv_size = sizeof key;
    k.mv_data = &key;
    v.mv_size = sizeof copy;
    v.mv_data = &copy;
    succeeds(mdb_txn_begin(env, NULL, 0, &t));
    succeeds(mdb_put(t, levels, &k, &v, flags));
    succeeds(mdb_txn_commit(t));
}

void peer_insert(const record *r) { put(r, MDB_NOOVERWRITE); }
void peer_update(const record *r) { put(r, 0); }

int peer_lookup(uint32_t key, record *r)
{
    unsigned number = key;
    MDB_val k, v;
    int status;
    k.mv_size = sizeof number;
    k.mv_data = &number;
    succeeds(reader == NULL ? mdb_txn_begin(env, NULL, MDB_RDONLY, &reader) : mdb_txn_renew(reader));
    status = mdb_get(reader, levels, &k, &v);
    if (status == MDB_SUCCESS)
        memcpy(r, v.mv_data, sizeof *r);
    else if (status != MDB_NOTFOUND)
        succeeds(status);
    mdb_txn_reset(reader);
    return status == MDB_SUCCESS;
}

void peer_close(void)
{
    if (reader != NULL)
        mdb_txn_abort(reader);
    mdb_env_close(env);
}

uint64_t peer_written(void) { return 0; }
uint64_t peer_memory(void) { return 0; }
