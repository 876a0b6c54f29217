/*
 * Makes each call of one kind of table, with NULL wherever it is allowed. null.c includes this once for each kind, and
 * defines these macros before:
 *
 *   CALL(name)       the call of this name
 *   TEST             the name of this function
 *   KEY, OTHER_KEY   two keys
 *   KEYS             an array that begins with KEY
 *   VALUE            the type of values
 *   LENGTH           the length of a table of 16 slots, in bytes
 */
static void TEST(void)
{
    uint8_t bytes[LENGTH];
    VALUE value = 5;
    VALUE values[1] = {9};
    size_t count = 77;
    size_t cursor = 0;
    odht_view view;

    /* An empty slice is too short, and nothing is written. */
    EXPECT(CALL(open)(NULL, 0), ODHT_TOO_SHORT);
    EXPECT(CALL(check)(NULL, 0), ODHT_TOO_SHORT);
    EXPECT(CALL(check_within)(NULL, 0, ODHT_DEFAULT_GROUPS), ODHT_TOO_SHORT);
    EXPECT(CALL(open_at)(NULL, 0, NULL), ODHT_TOO_SHORT);
    EXPECT(CALL(check_at)(NULL, 0, NULL), ODHT_TOO_SHORT);
    EXPECT(CALL(check_within_at)(NULL, 0, ODHT_DEFAULT_GROUPS, NULL), ODHT_TOO_SHORT);
    EXPECT(CALL(len)(NULL, 0, NULL), ODHT_TOO_SHORT);
    EXPECT(CALL(get)(NULL, 0, KEY, NULL), ODHT_TOO_SHORT);
    EXPECT(CALL(get_all)(NULL, 0, NULL, 0, NULL, 0, NULL, 0), ODHT_TOO_SHORT);
    EXPECT(CALL(insert)(NULL, 0, KEY, 1, NULL), ODHT_TOO_SHORT);
    EXPECT(CALL(insert_all)(NULL, 0, NULL, 0, NULL, 0, NULL), ODHT_TOO_SHORT);
    EXPECT(CALL(walk)(NULL, 0, &cursor, NULL, 0, NULL, 0, NULL), ODHT_TOO_SHORT);
    EXPECT(CALL(insert_order)(NULL, 0, NULL, 0), ODHT_TOO_SHORT);
    EXPECT(CALL(open_view)(NULL, 0, &view), ODHT_TOO_SHORT);
    EXPECT(CALL(sizes)(NULL, 0, NULL, NULL, NULL), ODHT_TOO_SHORT);
    EXPECT(CALL(table_len)(NULL, 0, NULL), ODHT_TOO_SHORT);
    EXPECT(CALL(grow)(NULL, 0, NULL, 0, NULL), ODHT_TOO_SHORT);

    EXPECT(CALL(bytes_needed)(13, 87, NULL), ODHT_OK);
    EXPECT(CALL(bytes_needed)(13, 101, NULL), ODHT_BAD_PERCENT);
    EXPECT(CALL(init)(NULL, 0, 13, 87), ODHT_INIT_LENGTH);
    EXPECT(CALL(init)(NULL, 0, 13, 0), ODHT_BAD_PERCENT);

    /* An empty table, and arrays without items. */
    EXPECT(CALL(init)(bytes, LENGTH, 13, 87), ODHT_OK);
    EXPECT(CALL(open_at)(bytes, LENGTH, NULL), ODHT_OK);
    EXPECT(CALL(check_at)(bytes, LENGTH, NULL), ODHT_OK);
    EXPECT(CALL(check_within_at)(bytes, LENGTH, 1, NULL), ODHT_OK);
    EXPECT(CALL(len)(bytes, LENGTH, NULL), ODHT_OK);
    EXPECT(CALL(get)(bytes, LENGTH, KEY, NULL), ODHT_ABSENT);
    EXPECT(CALL(get_all)(bytes, LENGTH, NULL, 0, NULL, 0, NULL, 0), ODHT_OK);
    EXPECT(CALL(get_all)(bytes, LENGTH, NULL, 0, values, 1, NULL, 0), ODHT_BAD_LENGTHS);
    EXPECT(CALL(insert_all)(bytes, LENGTH, NULL, 0, NULL, 0, NULL), ODHT_OK);
    EXPECT(CALL(insert_all)(bytes, LENGTH, NULL, 0, values, 1, &count), ODHT_BAD_LENGTHS);
    EXPECT(count, 77);
    EXPECT(CALL(walk)(bytes, LENGTH, &cursor, NULL, 0, NULL, 0, NULL), ODHT_OK);
    EXPECT(CALL(sizes)(bytes, LENGTH, NULL, NULL, NULL), ODHT_OK);
    EXPECT(CALL(table_len)(bytes, LENGTH, NULL), ODHT_OK);
    EXPECT(CALL(grow)(bytes, LENGTH, NULL, 0, NULL), ODHT_TOO_SMALL);
    EXPECT(CALL(grow)(bytes, LENGTH, NULL, 0, &count), ODHT_TOO_SMALL);
    EXPECT(count, LENGTH);
    EXPECT(CALL(insert_order)(bytes, LENGTH, NULL, 0), ODHT_OK);

    /* One item. */
    EXPECT(CALL(insert)(bytes, LENGTH, KEY, 7, NULL), ODHT_OK);
    EXPECT(CALL(insert)(bytes, LENGTH, KEY, 8, NULL), ODHT_REPLACED);
    EXPECT(CALL(insert_all)(bytes, LENGTH, KEYS, 1, values, 1, NULL), ODHT_OK);
    EXPECT(CALL(get)(bytes, LENGTH, KEY, NULL), ODHT_OK);
    EXPECT(CALL(get)(bytes, LENGTH, KEY, &value), ODHT_OK);
    EXPECT(value, 9);
    EXPECT(CALL(get)(bytes, LENGTH, OTHER_KEY, NULL), ODHT_ABSENT);
    cursor = 0;
    EXPECT(CALL(walk)(bytes, LENGTH, &cursor, NULL, 0, NULL, 0, NULL), ODHT_TOO_SMALL);
    EXPECT(CALL(walk)(bytes, LENGTH, &cursor, NULL, 0, values, 1, NULL), ODHT_BAD_LENGTHS);
    EXPECT(CALL(insert_order)(bytes, LENGTH, NULL, 0), ODHT_BAD_LENGTHS);

    /* The view had no value before, and an error leaves it unchanged. */
    EXPECT(CALL(open_view)(bytes, LENGTH, &view), ODHT_OK);
    EXPECT(CALL(open_view)(NULL, 0, &view), ODHT_TOO_SHORT);
    EXPECT(CALL(view_len)(&view), 1);
    EXPECT(CALL(view_get)(&view, KEY, NULL), ODHT_OK);
    EXPECT(CALL(view_get)(&view, OTHER_KEY, NULL), ODHT_ABSENT);
    EXPECT(CALL(view_get_all)(&view, NULL, 0, NULL, 0, NULL, 0), ODHT_OK);
    EXPECT(CALL(view_get_all)(&view, NULL, 0, NULL, 0, NULL, 0), ODHT_OK);
    EXPECT(CALL(view_get_all)(&view, NULL, 0, values, 1, NULL, 0), ODHT_BAD_LENGTHS);
}
