/*
 * A trend view: reads a message from standard input and shows the numeric results of each order (9.4.2), by the code of the test (10.4): whole
 * number, decimals and the text that is written of them again, or the number that the value is refused with.
 */
#include <stdio.h>
#include <string.h>
#include "sargaceu.h"

static uint8_t message[SARGACEU_SMALL_MESSAGE + 1], text[SARGACEU_SMALL_TEXT];
static uint32_t segments[SARGACEU_SMALL_SEGMENTS], leaves[SARGACEU_SMALL_LEAVES];
static size_t answer[SARGACEU_READ_ANSWER], *const card = answer + 1;
static uint8_t numbers[SARGACEU_SMALL_VALUES], decimals[SARGACEU_SMALL_VALUES];
static int64_t wholes[SARGACEU_SMALL_VALUES];

static size_t next(size_t after, uint32_t kind, size_t owner)
{
    return sargaceu_next_row(card, SARGACEU_CARD, segments, SARGACEU_SMALL_SEGMENTS, after, kind, (uint32_t)owner);
}

/* How many bytes a leaf has, and where they stand; none where it was sent empty or never sent. */
static int leaf(size_t row, uint32_t field, uint32_t subfield, const char **at)
{
    size_t found[SARGACEU_LEAF_ANSWER] = { 0, 0 };
    sargaceu_find_leaf_in_segment(card, SARGACEU_CARD, segments, SARGACEU_SMALL_SEGMENTS, leaves, SARGACEU_SMALL_LEAVES,
                                  text, SARGACEU_SMALL_TEXT, (uint32_t)row, field, 1, subfield, 1, found, SARGACEU_LEAF_ANSWER);
    *at = (const char *)text + found[0];
    return (int)found[1];
}

static void show(const char *what, size_t row, uint32_t field, uint32_t subfield, const char *end)
{
    const char *at;
    int bytes = leaf(row, field, subfield, &at);
    printf("%s %.*s%s", what, bytes, at, end);
}

static bool is_numeric(size_t result)
{
    const char *type;
    return leaf(result, 3, 1, &type) == 2 && memcmp(type, "NM", 2) == 0;
}

static void show_value(uint8_t number, int64_t whole, uint8_t count)
{
    uint8_t output[SARGACEU_VALUE_TEXT];
    size_t bytes[SARGACEU_TEXT_ANSWER];
    if (number == SARGACEU_ACCEPTED) /* a value that was read is never refused here */
        number = sargaceu_write_value(whole, count, output, SARGACEU_VALUE_TEXT, bytes, SARGACEU_TEXT_ANSWER);
    if (number == SARGACEU_ACCEPTED)
        printf("whole %lld, decimals %d, text %.*s\n", (long long)whole, count, (int)bytes[0], (const char *)output);
    else
        printf("refused: %d\n", number);
}

static void show_values(size_t order)
{
    size_t told[SARGACEU_ORDER_ANSWER], k = 0; /* answer k is that of the k-th result of type NM */
    uint8_t number = sargaceu_order_values(SARGACEU_SMALL, card, SARGACEU_CARD, segments, SARGACEU_SMALL_SEGMENTS,
                                           leaves, SARGACEU_SMALL_LEAVES, text, SARGACEU_SMALL_TEXT, (uint32_t)order,
                                           numbers, SARGACEU_SMALL_VALUES, wholes, SARGACEU_SMALL_VALUES, decimals, SARGACEU_SMALL_VALUES,
                                           told, SARGACEU_ORDER_ANSWER);
    if (number != SARGACEU_ACCEPTED)
        printf("refused: %d\n", number);
    for (size_t x = next(0, SARGACEU_OBX, order); x != 0 && k < told[1]; x = next(x, SARGACEU_OBX, order))
        if (is_numeric(x)) {
            show(" ", x, 4, 1, ": ");
            show_value(numbers[k], wholes[k], decimals[k]);
            k++;
        }
}

int main(void)
{
    size_t bytes = fread(message, 1, sizeof message, stdin);
    if (ferror(stdin))
        return 2;
    uint8_t number = sargaceu_read(SARGACEU_SMALL, message, bytes, text, SARGACEU_SMALL_TEXT, segments, SARGACEU_SMALL_SEGMENTS,
                                   leaves, SARGACEU_SMALL_LEAVES, answer, SARGACEU_READ_ANSWER);
    if (number != SARGACEU_ACCEPTED) {
        printf("refused: %d at %zu\n", number, answer[0]);
        return 1;
    }
    for (size_t row = 1; row <= card[2]; row++) {
        if (segments[(row - 1) * SARGACEU_SEGMENT_ROW] != SARGACEU_OBR)
            continue;
        show("order", row, 4, 2, "\n");
        show_values(row);
    }
    return 0;
}
