/* The example of README. It exits with 0 if each call returns what it must. */
#include <stdint.h>
#include <stdlib.h>

#include "odht.h"

int main(void)
{
    size_t length;
    uint32_t former, value;
    odht_view view = ODHT_NO_VIEW;

    if (odht_u64_u32_bytes_needed(3, 95, &length) != ODHT_OK) return 1;
    uint8_t *bytes = malloc(length);                                           /* or a part of a mapped file */
    if (bytes == NULL || odht_u64_u32_init(bytes, length, 3, 95) != ODHT_OK) return 1;
    if (odht_u64_u32_insert(bytes, length, 1, 2, NULL) != ODHT_OK) return 1;
    if (odht_u64_u32_insert(bytes, length, 1, 5, &former) != ODHT_REPLACED) return 1;           /* former is 2 */
    if (odht_u64_u32_open_view(bytes, length, &view) != ODHT_OK) return 1;      /* checks header and ten slots */
    if (odht_u64_u32_view_get(&view, 1, &value) != ODHT_OK) return 1;                            /* value is 5 */

    if (former != 2 || value != 5) return 1;
    if (odht_u64_u32_view_get(&view, 2, &value) != ODHT_ABSENT) return 1;
    if (odht_u64_u32_check(bytes, length) != ODHT_OK) return 1;
    free(bytes);
    return 0;
}
