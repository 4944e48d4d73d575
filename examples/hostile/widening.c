/* Trials of the widening of archived tables, and of the version. */
#include "hostile.h"

#include <string.h>

enum { ANSWER_MOST = SARGACEU_READ_ANSWER + 3 };

static struct table drawn;
static uint16_t segments[SARGACEU_SMALL_SEGMENTS + SEGMENTS_SLACK], leaves[SARGACEU_SMALL_LEAVES + LEAVES_SLACK]; /* as the archive has them */

/* Whether the owners of all rows can be told: the context is one, all rows are there, and each has a kind. */
static bool has_kinds(const struct table *t)
{
    size_t context = t->card[CARD_CONTEXT], rows = segments_there(t);
    bool all = t->card_numbers >= SARGACEU_CARD && context >= SARGACEU_CONTEXT_ADM && context <= SARGACEU_CONTEXT_FAC &&
               rows == t->card[CARD_SEGMENTS];
    for (size_t i = 0; i < rows && all; i++) {
        uint32_t kind = t->segments[i * SARGACEU_SEGMENT_ROW];
        all = kind >= SARGACEU_H && kind <= SARGACEU_C;
    }
    return all;
}

/* The owners become the former ones: of all rows, or of some. */
static void draw_former_owners(struct table *t)
{
    bool some = one_in(4);
    if (!has_kinds(t) || one_in(3))
        return;
    for (size_t row = 1; row <= t->card[CARD_SEGMENTS]; row++)
        if (!some || one_in(2))
            t->segments[(row - 1) * SARGACEU_SEGMENT_ROW + 1] = (uint32_t)plain_former_owner(t, row);
}

/* The rows go into the archive, which cuts them to 16 bits, and the table has what is left of them. */
static void put_by(uint16_t *archived, uint32_t *rows, size_t numbers)
{
    for (size_t i = 0; i < numbers; i++)
        rows[i] = archived[i] = (uint16_t)rows[i];
}

/* Whether some reader gave the table, by the owners in force or by the former ones; it has those in force then. */
static bool plain_widen(struct table *t)
{
    if (is_table(t))
        return true;
    bool former_owners = has_kinds(t);
    for (size_t row = 1; former_owners && row <= t->card[CARD_SEGMENTS]; row++)
        former_owners = t->segments[(row - 1) * SARGACEU_SEGMENT_ROW + 1] == plain_former_owner(t, row);
    for (size_t row = 1; former_owners && row <= t->card[CARD_SEGMENTS]; row++)
        t->segments[(row - 1) * SARGACEU_SEGMENT_ROW + 1] = (uint32_t)plain_owner(t, row);
    return former_owners && is_table(t);
}

int try_widen(void)
{
    draw_table(&drawn, SARGACEU_SMALL);
    drawn.form = SARGACEU_SMALL;
    draw_former_owners(&drawn);
    put_by(segments, drawn.segments, drawn.segments_numbers);
    put_by(leaves, drawn.leaves, drawn.leaves_numbers);
    struct room room = draw_room(draw_form_of_two()); /* longer buffers do as well */
    size_t numbers = one_in(24) ? below(SARGACEU_READ_ANSWER) : enough(SARGACEU_READ_ANSWER, ANSWER_MOST);
    const void *answer_was = former(ANSWER_MOST * sizeof(size_t));
    bool told = numbers >= SARGACEU_READ_ANSWER, done = false;
    uint8_t expected = SARGACEU_SHORT_BUFFER;
    if (told && !is_short(room, SARGACEU_SMALL)) {
        done = plain_widen(&drawn);
        expected = done ? SARGACEU_ACCEPTED : SARGACEU_NEVER_READ;
    }
    size_t answer[SARGACEU_READ_ANSWER] = { 0 };
    if (done)
        memcpy(answer + 1, drawn.card, SARGACEU_CARD * sizeof *answer);
    for (int side = 0; side < SIDES; side++) {
        begin_side(side);
        uint8_t number = sargaceu_widen(lend(CARD, drawn.card, drawn.card_numbers), drawn.card_numbers,
                                        lend(ARCHIVED_SEGMENTS, segments, drawn.segments_numbers), drawn.segments_numbers,
                                        lend(ARCHIVED_LEAVES, leaves, drawn.leaves_numbers), drawn.leaves_numbers,
                                        lend(OTHER_TEXT, drawn.text, drawn.text_bytes), drawn.text_bytes,
                                        lend_to_write(TEXT, room.text_was, room.text), room.text,
                                        lend_to_write(SEGMENTS, room.segments_was, room.segments), room.segments,
                                        lend_to_write(LEAVES, room.leaves_was, room.leaves), room.leaves,
                                        lend_to_write(ANSWER, answer_was, numbers), numbers);
        if (number != expected)
            fail("answers %d, and %d was expected", number, expected);
        expect_front(TEXT, drawn.text, done ? drawn.card[CARD_TEXT] : 0);
        expect_front(SEGMENTS, drawn.segments, done ? drawn.card[CARD_SEGMENTS] * SARGACEU_SEGMENT_ROW : 0);
        expect_front(LEAVES, drawn.leaves, done ? drawn.card[CARD_LEAVES] * SARGACEU_LEAF_ROW : 0);
        expect_front(ANSWER, answer, told ? SARGACEU_READ_ANSWER : 0);
    }
    return expected;
}

int try_version(void)
{
    for (int side = 0; side < SIDES; side++) {
        begin_side(side);
        if (sargaceu_version() != SARGACEU_VERSION)
            fail("answers %u, and the header is of version %d", sargaceu_version(), SARGACEU_VERSION);
    }
    return SARGACEU_ACCEPTED;
}
