/*
 * Moves one table of the archive over: takes it from standard input, widens it, and prints each row whose owner is another one now. The table
 * comes as text, to show what it has: five numbers, the card; four for each segment row; seven for each leaf row; a line feed, and the text.
 */
#include <inttypes.h>
#include <stdio.h>
#include "sargaceu.h"

static size_t card[SARGACEU_CARD], answer[SARGACEU_READ_ANSWER];
static uint16_t old_segments[SARGACEU_SMALL_SEGMENTS], old_leaves[SARGACEU_SMALL_LEAVES];
static uint8_t old_text[SARGACEU_SMALL_TEXT], text[SARGACEU_SMALL_TEXT];
static uint32_t segments[SARGACEU_SMALL_SEGMENTS], leaves[SARGACEU_SMALL_LEAVES];

static bool take_rows(uint16_t *rows, size_t room, size_t numbers)
{
    bool taken = numbers <= room;
    for (size_t i = 0; i < numbers && taken; i++)
        taken = scanf("%" SCNu16, rows + i) == 1;
    return taken;
}

static bool take_table(void)
{
    for (int i = 0; i < SARGACEU_CARD; i++)
        if (scanf("%zu", card + i) != 1 || card[i] > SARGACEU_SMALL_MESSAGE)
            return false;
    return take_rows(old_segments, SARGACEU_SMALL_SEGMENTS, card[2] * SARGACEU_SEGMENT_ROW) &&
           take_rows(old_leaves, SARGACEU_SMALL_LEAVES, card[3] * SARGACEU_LEAF_ROW) && getchar() == '\n' &&
           fread(old_text, 1, card[4], stdin) == card[4];
}

int main(void)
{
    if (!take_table())
        return 2;
    uint8_t number = sargaceu_widen(card, SARGACEU_CARD, old_segments, SARGACEU_SMALL_SEGMENTS, old_leaves, SARGACEU_SMALL_LEAVES,
                                    old_text, SARGACEU_SMALL_TEXT, text, SARGACEU_SMALL_TEXT, segments, SARGACEU_SMALL_SEGMENTS,
                                    leaves, SARGACEU_SMALL_LEAVES, answer, SARGACEU_READ_ANSWER);
    if (number != SARGACEU_ACCEPTED) {
        printf("refused: %d at %zu\n", number, answer[0]);
        return 1;
    }
    for (size_t row = 1; row <= card[2]; row++) {
        size_t at = (row - 1) * SARGACEU_SEGMENT_ROW + 1;
        if (segments[at] != old_segments[at])
            printf("row %zu belongs to row %" PRIu32 ", and belonged to row %" PRIu16 "\n", row, segments[at], old_segments[at]);
    }
    printf("widened: %zu segments, %zu leaves, %zu bytes of text\n", answer[3], answer[4], answer[5]);
    return 0;
}
