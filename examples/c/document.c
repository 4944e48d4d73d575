/*
 * A report of up to a megabyte: reads it from standard input in the large form and writes the longest value (10.6) out as it came. Where that is
 * a document in base 64, `base64 -d` turns it into the document.
 */
#include <stdio.h>
#include "sargaceu.h"

static uint8_t message[SARGACEU_LARGE_MESSAGE + 1], text[SARGACEU_LARGE_TEXT];
static uint32_t segments[SARGACEU_LARGE_SEGMENTS], leaves[SARGACEU_LARGE_LEAVES];
static size_t answer[SARGACEU_READ_ANSWER], *const card = answer + 1;

/* Where the value of a result starts in the text area, and how many bytes it has; 0 and 0 where it was sent empty or never sent. */
static void find_value(size_t row, size_t found[SARGACEU_LEAF_ANSWER])
{
    found[0] = found[1] = 0;
    sargaceu_find_leaf_in_segment(card, SARGACEU_CARD, segments, SARGACEU_LARGE_SEGMENTS, leaves, SARGACEU_LARGE_LEAVES,
                                  text, SARGACEU_LARGE_TEXT, (uint32_t)row, 6, 1, 1, 1, found, SARGACEU_LEAF_ANSWER);
}

int main(void)
{
    size_t bytes = fread(message, 1, sizeof message, stdin), value[SARGACEU_LEAF_ANSWER], longest[SARGACEU_LEAF_ANSWER] = { 0, 0 };
    if (ferror(stdin))
        return 2;
    uint8_t number = sargaceu_read(SARGACEU_LARGE, message, bytes, text, SARGACEU_LARGE_TEXT, segments, SARGACEU_LARGE_SEGMENTS,
                                   leaves, SARGACEU_LARGE_LEAVES, answer, SARGACEU_READ_ANSWER);
    if (number != SARGACEU_ACCEPTED) {
        printf("refused: %d at %zu\n", number, answer[0]);
        return 1;
    }
    for (size_t row = 1; row <= card[2]; row++) {
        if (segments[(row - 1) * SARGACEU_SEGMENT_ROW] != SARGACEU_OBX)
            continue;
        find_value(row, value);
        if (value[1] > longest[1])
            longest[0] = value[0], longest[1] = value[1];
    }
    return fwrite(text + longest[0], 1, longest[1], stdout) == longest[1] ? 0 : 2;
}
