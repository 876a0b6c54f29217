/* Opens tables of both shapes once, and looks keys up in the views. */
#include <inttypes.h>
#include <stdint.h>
#include <stdio.h>

#include "odht.h"
#include "say.h"
#include "views.h"

static void say_view_value(uint64_t key, uint32_t status, uint32_t value)
{
    printf("view_");
    say_value(key, status, value);
}

/* The second opening has an error, and leaves the view unchanged. */
void look_up_in_view(const uint8_t *bytes, size_t length)
{
    static const uint64_t together[] = {41, 7, 40};
    uint32_t values[] = {5, 5, 5};
    uint8_t found[3];
    uint32_t value = 0;
    odht_view view = ODHT_NO_VIEW;

    say_line("open_view", odht_u64_u32_open_view(bytes, length, &view));
    say_line("open_view without the last byte",
             odht_u64_u32_open_view(bytes, length - 1, &view));
    uint32_t status = odht_u64_u32_view_get(&view, 7, &value);
    say_view_value(7, status, value);
    status = odht_u64_u32_view_get(&view, 41, &value);
    say_view_value(41, status, value);
    say("view_get_all 41 7 40",
        odht_u64_u32_view_get_all(&view, together, 3, values, 3, found, 3));
    say_found(3, found, values);
    printf("view_len: %zu items\n", odht_u64_u32_view_len(&view));
}

void insert_behind_view(uint8_t *bytes, size_t length, const uint8_t key[16])
{
    uint32_t value = 0;
    uint32_t former = 0;
    odht_view view = ODHT_NO_VIEW;

    say_line("open_view", odht_b16_u32_open_view(bytes, length, &view));
    uint32_t status = odht_b16_u32_view_get(&view, key, &value);
    say_view_value(6, status, value);
    status = odht_b16_u32_insert(bytes, length, key, 600, &former);
    say_former("insert 6 to 600", status, former);
    status = odht_b16_u32_view_get(&view, key, &value);
    say_view_value(6, status, value);
    printf("view_len: %zu items\n", odht_b16_u32_view_len(&view));
}
