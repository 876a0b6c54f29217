/* SQLite: a table whose primary key is the number. It is written in one transaction that is not synced and has no
 * journal, and read in one, by one prepared statement, with the file mapped. */
#include <sqlite3.h>
#include <stdlib.h>

#include "peer.h"

PEER(sqlite);

static int run(sqlite3 *file, const char *text)
{
    return sqlite3_exec(file, text, NULL, NULL, NULL) != SQLITE_OK;
}

static int insert_all(sqlite3 *file, const uint64_t *keys, const uint32_t *values, size_t count)
{
    sqlite3_stmt *insert = NULL;
    if (sqlite3_prepare_v2(file, "INSERT INTO pairs VALUES (?, ?)", -1, &insert, NULL) != SQLITE_OK)
        return 1;
    int failed = 0;
    for (size_t index = 0; index < count && !failed; index++) {
        sqlite3_bind_int64(insert, 1, (sqlite3_int64)keys[index]);
        sqlite3_bind_int64(insert, 2, values[index]);
        failed = sqlite3_step(insert) != SQLITE_DONE;
        sqlite3_reset(insert);
    }
    sqlite3_finalize(insert);
    return failed;
}

PEER_BUILD(sqlite)
{
    sqlite3 *file = NULL;
    int failed = sqlite3_open(path, &file) != SQLITE_OK
        || run(file, "PRAGMA journal_mode = OFF; PRAGMA synchronous = OFF;"
                     "CREATE TABLE pairs (key INTEGER PRIMARY KEY, value INTEGER); BEGIN")
        || insert_all(file, keys, values, count) || run(file, "COMMIT");
    return sqlite3_close(file) != SQLITE_OK || failed;
}

struct opened {
    sqlite3 *file;
    sqlite3_stmt *select;
};

PEER_OPEN(sqlite)
{
    struct opened *it = calloc(1, sizeof *it);
    if (it == NULL || sqlite3_open_v2(path, &it->file, SQLITE_OPEN_READONLY, NULL) != SQLITE_OK
        || run(it->file, "PRAGMA mmap_size = 4294967296; BEGIN")
        || sqlite3_prepare_v2(it->file, "SELECT value FROM pairs WHERE key = ?", -1, &it->select,
                              NULL) != SQLITE_OK)
        return NULL;
    return it;
}

PEER_GET(sqlite)
{
    struct opened *it = opened;
    size_t there = 0;
    for (size_t index = 0; index < count; index++) {
        sqlite3_bind_int64(it->select, 1, (sqlite3_int64)keys[index]);
        if (sqlite3_step(it->select) == SQLITE_ROW) {
            *sum += (uint64_t)sqlite3_column_int64(it->select, 0);
            there++;
        }
        sqlite3_reset(it->select);
    }
    return there;
}

PEER_CLOSE(sqlite)
{
    struct opened *it = opened;
    sqlite3_finalize(it->select);
    sqlite3_close(it->file);
    free(it);
}
