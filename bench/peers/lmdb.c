/* LMDB: a B+ tree in a mapped file. It is written in one transaction that is not synced, and read in one. */
#include <lmdb.h>
#include <stdlib.h>
#include <string.h>

#include "peer.h"

PEER(lmdb);

/* More than a tree of so many pairs takes. */
static size_t room_for(size_t count)
{
    return 128 * count + (16 << 20);
}

static int put_all(MDB_txn *write, const uint64_t *keys, const uint32_t *values, size_t count)
{
    MDB_dbi table;
    if (mdb_dbi_open(write, NULL, MDB_INTEGERKEY | MDB_CREATE, &table) != 0)
        return 1;
    for (size_t index = 0; index < count; index++) {
        MDB_val key = {sizeof *keys, (void *)(keys + index)};
        MDB_val value = {sizeof *values, (void *)(values + index)};
        if (mdb_put(write, table, &key, &value, 0) != 0)
            return 1;
    }
    return 0;
}

PEER_BUILD(lmdb)
{
    MDB_env *file = NULL;
    MDB_txn *write = NULL;
    int failed = mdb_env_create(&file) != 0 || mdb_env_set_mapsize(file, room_for(count)) != 0
        || mdb_env_open(file, path, MDB_NOSUBDIR | MDB_NOLOCK | MDB_NOSYNC, 0666) != 0
        || mdb_txn_begin(file, NULL, 0, &write) != 0
        || put_all(write, keys, values, count) != 0 || mdb_txn_commit(write) != 0;
    mdb_env_close(file);
    return failed;
}

struct opened {
    MDB_env *file;
    MDB_txn *read;
    MDB_dbi table;
};

PEER_OPEN(lmdb)
{
    struct opened *it = calloc(1, sizeof *it);
    if (it == NULL || mdb_env_create(&it->file) != 0
        || mdb_env_open(it->file, path, MDB_NOSUBDIR | MDB_NOLOCK | MDB_RDONLY, 0666) != 0
        || mdb_txn_begin(it->file, NULL, MDB_RDONLY, &it->read) != 0
        || mdb_dbi_open(it->read, NULL, MDB_INTEGERKEY, &it->table) != 0)
        return NULL;
    return it;
}

PEER_GET(lmdb)
{
    struct opened *it = opened;
    size_t there = 0;
    for (size_t index = 0; index < count; index++) {
        MDB_val key = {sizeof *keys, (void *)(keys + index)};
        MDB_val found;
        uint32_t value = 0;
        if (mdb_get(it->read, it->table, &key, &found) == 0) {
            memcpy(&value, found.mv_data, sizeof value);
            there++;
        }
        *sum += value;
    }
    return there;
}

PEER_CLOSE(lmdb)
{
    struct opened *it = opened;
    mdb_txn_abort(it->read);
    mdb_env_close(it->file);
    free(it);
}
