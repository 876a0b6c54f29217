/* TinyCDB: a constant database, mapped, with a list of hashes for each of 256 tables. */
#define _POSIX_C_SOURCE 200809L

#include <cdb.h>
#include <fcntl.h>
#include <stdlib.h>
#include <string.h>
#include <unistd.h>

#include "peer.h"

PEER(tinycdb);

PEER_BUILD(tinycdb)
{
    int file = open(path, O_RDWR | O_CREAT | O_TRUNC, 0666);
    struct cdb_make *make = malloc(sizeof *make);
    if (file < 0 || make == NULL)
        return 1;
    int failed = cdb_make_start(make, file) != 0;
    for (size_t index = 0; index < count && !failed; index++)
        failed = cdb_make_add(make, keys + index, sizeof *keys, values + index, sizeof *values) != 0;
    failed |= cdb_make_finish(make) != 0;
    free(make);
    return close(file) != 0 || failed;
}

PEER_OPEN(tinycdb)
{
    int file = open(path, O_RDONLY);
    struct cdb *table = malloc(sizeof *table);
    if (file < 0 || table == NULL || cdb_init(table, file) != 0)
        return NULL;
    return table;
}

PEER_GET(tinycdb)
{
    size_t there = 0;
    for (size_t index = 0; index < count; index++) {
        uint32_t value = 0;
        if (cdb_find(opened, keys + index, sizeof *keys) > 0) {
            memcpy(&value, cdb_getdata((struct cdb *)opened), sizeof value);
            there++;
        }
        *sum += value;
    }
    return there;
}

PEER_CLOSE(tinycdb)
{
    close(cdb_fileno((struct cdb *)opened));
    cdb_free(opened);
    free(opened);
}
