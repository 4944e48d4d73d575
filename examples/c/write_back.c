/* Reads a message from standard input, writes its table, and reads what was written: it is the same table again. */
#include <stdio.h>
#include <string.h>
#include "sargaceu.h"

struct table {
    uint8_t text[SARGACEU_SMALL_TEXT];
    uint32_t segments[SARGACEU_SMALL_SEGMENTS], leaves[SARGACEU_SMALL_LEAVES];
    size_t answer[SARGACEU_READ_ANSWER]; /* the place, then the card */
};

static uint8_t message[SARGACEU_SMALL_MESSAGE + 1], output[SARGACEU_SMALL_OUTPUT];
static struct table first, again;

static uint8_t read_into(struct table *t, const uint8_t *from, size_t bytes)
{
    return sargaceu_read(SARGACEU_SMALL, from, bytes, t->text, SARGACEU_SMALL_TEXT, t->segments, SARGACEU_SMALL_SEGMENTS,
                         t->leaves, SARGACEU_SMALL_LEAVES, t->answer, SARGACEU_READ_ANSWER);
}

/* The card and all that it counts; what lies past the counted entries belongs to no table. */
static bool same(const struct table *a, const struct table *b)
{
    const size_t *card = a->answer + 1;
    return memcmp(a->answer, b->answer, sizeof a->answer) == 0 &&
           memcmp(a->segments, b->segments, card[2] * SARGACEU_SEGMENT_ROW * sizeof *a->segments) == 0 &&
           memcmp(a->leaves, b->leaves, card[3] * SARGACEU_LEAF_ROW * sizeof *a->leaves) == 0 &&
           memcmp(a->text, b->text, card[4]) == 0;
}

int main(void)
{
    size_t written[SARGACEU_WRITE_ANSWER];
    size_t bytes = fread(message, 1, sizeof message, stdin);
    if (ferror(stdin))
        return 2;
    uint8_t number = read_into(&first, message, bytes);
    if (number != SARGACEU_ACCEPTED) {
        printf("refused: %d at %zu\n", number, first.answer[0]);
        return 1;
    }
    number = sargaceu_write(SARGACEU_SMALL, first.answer + 1, SARGACEU_CARD, first.segments, SARGACEU_SMALL_SEGMENTS,
                            first.leaves, SARGACEU_SMALL_LEAVES, first.text, SARGACEU_SMALL_TEXT,
                            output, SARGACEU_SMALL_OUTPUT, written, SARGACEU_WRITE_ANSWER);
    if (number != SARGACEU_ACCEPTED) {
        printf("not written: %d\n", number);
        return 1;
    }
    printf("wrote %zu bytes in %zu lines\n", written[1], written[2]);
    bool back = read_into(&again, output, written[1]) == SARGACEU_ACCEPTED && same(&first, &again);
    puts(back ? "the same table" : "another table");
    return back ? 0 : 1;
}
