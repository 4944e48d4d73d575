/* Reads a message from standard input and goes from patients to their orders, from orders to results, with the comments. */
#include <stdio.h>
#include "sargaceu.h"

static uint8_t message[SARGACEU_SMALL_MESSAGE + 1], text[SARGACEU_SMALL_TEXT];
static uint32_t segments[SARGACEU_SMALL_SEGMENTS], leaves[SARGACEU_SMALL_LEAVES];
static size_t answer[SARGACEU_READ_ANSWER], *const card = answer + 1;

static size_t next(size_t after, uint32_t kind, size_t owner)
{
    return sargaceu_next_row(card, SARGACEU_CARD, segments, SARGACEU_SMALL_SEGMENTS, after, kind, (uint32_t)owner);
}

/* A line with the leaf at a place: a blank where it was sent empty, a dash where it was never sent. */
static void show(const char *what, size_t row, uint32_t field, uint32_t subfield)
{
    size_t leaf[SARGACEU_LEAF_ANSWER];
    printf("%s ", what);
    switch (sargaceu_find_leaf_in_segment(card, SARGACEU_CARD, segments, SARGACEU_SMALL_SEGMENTS, leaves, SARGACEU_SMALL_LEAVES,
                                          text, SARGACEU_SMALL_TEXT, (uint32_t)row, field, 1, subfield, 1, leaf, SARGACEU_LEAF_ANSWER)) {
    case SARGACEU_FOUND: printf("%.*s\n", (int)leaf[1], (const char *)text + leaf[0]); break;
    case SARGACEU_FOUND_EMPTY: printf("\n"); break;
    case SARGACEU_NOT_THERE: printf("-\n"); break;
    }
}

/* A line with every leaf of a field: a unit of 10^9/L is two repetitions, and the second line of a text is one. */
static void show_whole(const char *what, size_t row, uint32_t field)
{
    const uint32_t *segment = segments + (row - 1) * SARGACEU_SEGMENT_ROW;
    bool sent = false;
    for (size_t i = 0; i < segment[3]; i++) {
        const uint32_t *leaf = leaves + (segment[2] - 1 + i) * SARGACEU_LEAF_ROW;
        if (leaf[1] != field)
            continue;
        printf("%s %.*s", sent ? " /" : what, (int)leaf[6], (const char *)text + leaf[5]);
        sent = true;
    }
    if (sent)
        printf("\n");
    else
        printf("%s -\n", what);
}

static void comments(size_t row) /* a C belongs to the segment before it */
{
    for (size_t c = next(0, SARGACEU_C, row); c != 0; c = next(c, SARGACEU_C, row))
        show_whole("    comment", c, 4);
}

static void results(size_t order)
{
    for (size_t x = next(0, SARGACEU_OBX, order); x != 0; x = next(x, SARGACEU_OBX, order)) {
        show("  result", x, 4, 1);
        show_whole("    value", x, 6);
        show_whole("    unit", x, 7);
        comments(x);
    }
}

int main(void)
{
    size_t bytes = fread(message, 1, sizeof message, stdin);
    if (ferror(stdin))
        return 2;
    uint8_t number = sargaceu_read(SARGACEU_SMALL, message, bytes, text, SARGACEU_SMALL_TEXT, segments, SARGACEU_SMALL_SEGMENTS,
                                   leaves, SARGACEU_SMALL_LEAVES, answer, SARGACEU_READ_ANSWER);
    if (number != SARGACEU_ACCEPTED) {
        printf("refused: %d at %zu\n", number, answer[0]);
        return 1;
    }
    for (size_t p = next(0, SARGACEU_P, 1); p != 0; p = next(p, SARGACEU_P, 1)) { /* H, row 1, owns every patient */
        show("patient", p, 6, 1);
        comments(p);
        for (size_t o = next(0, SARGACEU_OBR, p); o != 0; o = next(o, SARGACEU_OBR, p)) {
            show(" order", o, 4, 2);
            comments(o);
            results(o);
        }
    }
    return 0;
}
