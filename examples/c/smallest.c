/* Reads a message from standard input and prints the value (10.6) of each result, and its unit (10.7) in parentheses. */
#include <stdio.h>
#include "sargaceu.h"

static uint8_t message[SARGACEU_SMALL_MESSAGE + 1], text[SARGACEU_SMALL_TEXT];
static uint32_t segments[SARGACEU_SMALL_SEGMENTS], leaves[SARGACEU_SMALL_LEAVES];
static size_t answer[SARGACEU_READ_ANSWER], *const card = answer + 1;

/* The text of a field's first leaf; a blank where it was sent empty, a dash where it was never sent. */
static void show(size_t row, uint32_t field)
{
    size_t leaf[SARGACEU_LEAF_ANSWER];
    switch (sargaceu_find_leaf_in_segment(card, SARGACEU_CARD, segments, SARGACEU_SMALL_SEGMENTS, leaves, SARGACEU_SMALL_LEAVES,
                                          text, SARGACEU_SMALL_TEXT, (uint32_t)row, field, 1, 1, 1, leaf, SARGACEU_LEAF_ANSWER)) {
    case SARGACEU_FOUND: printf("%.*s", (int)leaf[1], (const char *)text + leaf[0]); break;
    case SARGACEU_FOUND_EMPTY: printf(" "); break;
    case SARGACEU_NOT_THERE: printf("-"); break;
    }
}

int main(void)
{
    if (sargaceu_version() != SARGACEU_VERSION) /* the archive belongs to another header */
        return 2;
    size_t bytes = fread(message, 1, sizeof message, stdin); /* one byte over the limit: a longer file is refused, not cut */
    if (ferror(stdin))
        return 2;
    uint8_t number = sargaceu_read(SARGACEU_SMALL, message, bytes, text, SARGACEU_SMALL_TEXT, segments, SARGACEU_SMALL_SEGMENTS,
                                   leaves, SARGACEU_SMALL_LEAVES, answer, SARGACEU_READ_ANSWER);
    if (number != SARGACEU_ACCEPTED) {
        printf("refused: %d at %zu\n", number, answer[0]);
        return 1;
    }
    for (size_t row = 1; row <= card[2]; row++) {
        if (segments[(row - 1) * SARGACEU_SEGMENT_ROW] != SARGACEU_OBX)
            continue;
        printf("row %zu: ", row);
        show(row, 6);
        printf(" (");
        show(row, 7);
        printf(")\n");
    }
    return 0;
}
