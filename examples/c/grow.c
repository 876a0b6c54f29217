/* "Grow on FULL" of odht.h: a table in memory from malloc, which grows when an insert returns FULL. The sizes follow
   from docs/FORMAT.md. At 87 percent the maximum of 16, 32 and 64 slots is 13, 27 and 55 items. A table of s slots
   takes 32 + 13 * s + 16 bytes. */
#include "odht.h"

#include <stdio.h>
#include <stdlib.h>
#include <string.h>

static uint32_t insert_and_grow(uint8_t **bytes, size_t *len, uint64_t key, uint32_t value, uint32_t *former)
{
    uint32_t status = odht_u64_u32_insert(*bytes, *len, key, value, former);
    size_t grown_len = 0;
    uint8_t none = 0, *grown;
    if (status != ODHT_FULL)
        return status;
    status = odht_u64_u32_grow(*bytes, *len, &none, 0, &grown_len);
    if (status != ODHT_TOO_SMALL)
        return status;
    grown = (uint8_t *)malloc(grown_len);
    if (grown == NULL)
        return ODHT_MEMORY;
    status = odht_u64_u32_grow(*bytes, *len, grown, grown_len, &grown_len);
    if (status == ODHT_OK)
        status = odht_u64_u32_insert(grown, grown_len, key, value, former);
    if (status != ODHT_OK && status != ODHT_REPLACED) {
        free(grown);
        return status;
    }
    free(*bytes);
    *bytes = grown;
    *len = grown_len;
    return status;
}

static int wrong = 0;

#define EXPECT(what) \
    do { \
        if (!(what)) { \
            printf("line %d: not %s\n", __LINE__, #what); \
            wrong = 1; \
        } \
    } while (0)

/* Returns a new table for one item, or for none at 1 percent. Returns NULL if malloc fails. */
static uint8_t *made(size_t *len, uint8_t percent)
{
    uint8_t *bytes;
    if (odht_u64_u32_bytes_needed(percent == 1 ? 0 : 1, percent, len) != ODHT_OK)
        return NULL;
    bytes = (uint8_t *)malloc(*len);
    if (bytes != NULL)
        EXPECT(odht_u64_u32_init(bytes, *len, percent == 1 ? 0 : 1, percent) == ODHT_OK);
    return bytes;
}

static void grows(uint8_t *bytes, size_t len)
{
    uint32_t former = 7, value = 0;
    uint64_t key;
    for (key = 1; key <= 40; key++) {
        EXPECT(insert_and_grow(&bytes, &len, key, (uint32_t)(10 * key), &former) == ODHT_OK && former == 7);
        EXPECT(len == (key <= 13 ? 256u : key <= 27 ? 464u : 880u));
    }
    EXPECT(insert_and_grow(&bytes, &len, 7, 1000, &former) == ODHT_REPLACED && former == 70 && len == 880);
    EXPECT(odht_u64_u32_check(bytes, len) == ODHT_OK);
    for (key = 1; key <= 40; key++)
        EXPECT(odht_u64_u32_get(bytes, len, key, &value) == ODHT_OK && value == (key == 7 ? 1000 : 10 * key));
    EXPECT(odht_u64_u32_get(bytes, len, 41, &value) == ODHT_ABSENT);
    free(bytes);
}

/* At 1 percent the maximum of 16 slots is 0 items. So the table grows to 128 slots, whose maximum is 1. */
static void grows_at_once(uint8_t *bytes, size_t len)
{
    uint32_t former = 7, value = 0;
    EXPECT(len == 256 && insert_and_grow(&bytes, &len, 1, 2, &former) == ODHT_OK && len == 32 + 13 * 128 + 16);
    EXPECT(odht_u64_u32_get(bytes, len, 1, &value) == ODHT_OK && value == 2);
    free(bytes);
}

/* Two tables that cannot grow stay unchanged: one with a load factor of 0, and one with a wrong header tag. */
static void stays(uint8_t *bytes, size_t len)
{
    uint8_t *before = bytes, copy[256];
    uint32_t former = 7;
    bytes[28] = bytes[29] = 0; /* the load factor */
    memcpy(copy, bytes, 256);
    EXPECT(insert_and_grow(&bytes, &len, 1, 2, &former) == ODHT_LOAD_FACTOR_TOO_SMALL);
    EXPECT(bytes == before && len == 256 && memcmp(bytes, copy, 256) == 0);
    bytes[0] = 'X';
    EXPECT(insert_and_grow(&bytes, &len, 1, 2, &former) == ODHT_WRONG_TAG && bytes == before && former == 7);
    free(bytes);
}

int main(void)
{
    size_t len = 0;
    uint8_t *bytes = made(&len, 87);
    if (bytes == NULL) return 1;
    grows(bytes, len);
    if ((bytes = made(&len, 1)) == NULL) return 1;
    grows_at_once(bytes, len);
    if ((bytes = made(&len, 87)) == NULL) return 1;
    stays(bytes, len);
    if (!wrong)
        puts("grow: well");
    return wrong;
}
