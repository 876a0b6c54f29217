/* Tables worked out by hand. */
#include "tables.h"

#include <string.h>

#include "buffers.h"

/* What both tables have: tag, version, and 16 slots. */
static const struct change header[] = {
    { 0, 79 }, { 1, 68 }, { 2, 72 }, { 3, 84 }, { 4, 1 }, { 6, 4 }, { 7, 32 }, { 16, 16 },
    { 27, 2 }, END_OF_CHANGES
};

void change(uint8_t *bytes, const struct change *changes)
{
    for (; changes->at != NOWHERE; changes++)
        bytes[changes->at] = changes->byte;
}

/* A buffer of zeros with the header, and free control bytes in the last 32. */
static uint8_t *empty_table(size_t len)
{
    uint8_t *bytes = bytes_of(len);

    memset(bytes, 0, len);
    memset(bytes + len - 32, 255, 32);
    change(bytes, header);
    return bytes;
}

uint8_t *number_table(void)
{
    static const struct change contents[] = {
        { 5, 8 }, { 8, 3 }, { 28, 0x32 }, { 29, 0xf3 },
        { 92, 1 }, { 100, 2 }, { 140, 5 }, { 148, 6 }, { 212, 3 }, { 220, 4 },
        { 229, 0x13 }, { 233, 0x61 }, { 239, 0x3a }, { 245, 0x13 }, { 249, 0x61 }, { 255, 0x3a },
        END_OF_CHANGES
    };
    uint8_t *bytes = empty_table(256);

    change(bytes, contents);
    return bytes;
}

uint8_t *byte_table(void)
{
    static const struct change contents[] = {
        { 5, 16 }, { 8, 2 }, { 28, 0xff }, { 29, 0x7f }, { 88, 200 }, { 188, 100 },
        { 354, 1 }, { 359, 3 }, { 370, 1 }, { 375, 3 }, END_OF_CHANGES
    };
    uint8_t *bytes = empty_table(384);

    memset(bytes + 72, 2, 16);
    memset(bytes + 172, 7, 16);
    change(bytes, contents);
    return bytes;
}
