/* Trials of reading with an index, and of what the planner asks of one. */
#include "hostile.h"

#include <string.h>

enum { ANSWER_MOST = SARGACEU_READ_ANSWER + 3, TALLY_MOST = SARGACEU_TALLY + 2 };

static struct message drawn;
static struct table read;
static struct index before, after;

/* ---- reading ---- */

/* Far from its last number mostly. */
static void draw_tally(uint32_t tally[TALLY_MOST])
{
    memcpy(tally, former(TALLY_MOST * sizeof *tally), TALLY_MOST * sizeof *tally);
    for (int k = 0; k < SARGACEU_TALLY; k++)
        tally[k] = one_in(48) ? UINT32_MAX - (uint32_t)below(4) : (uint32_t)below(1 << 20);
}

/* What is to be answered, by plain loops; `after` and the tally become what is to be left. */
static struct outcome expected_counting(uint8_t form, struct room room, uint32_t tally[TALLY_MOST])
{
    size_t place;
    if (!plain_is_index(&before))
        return (struct outcome){ SARGACEU_NO_INDEX, 0 };
    if (is_short(room, form))
        return (struct outcome){ SARGACEU_SHORT_BUFFER, 0 };
    struct outcome expected = plain_outcome(form, drawn.bytes, drawn.length);
    if (expected.number != SARGACEU_ACCEPTED)
        return expected;
    if (read_table(form, drawn.bytes, drawn.length, &read, &place) != SARGACEU_ACCEPTED)
        fail("refused, and a plain reading accepts");
    return plain_add_message(&after, tally, read.card[CARD_SEGMENTS]);
}

static void expect_left(struct outcome expected, const uint32_t *tally, size_t numbers, bool told)
{
    bool accepted = expected.number == SARGACEU_ACCEPTED;
    size_t answer[SARGACEU_READ_ANSWER] = { expected.place };
    if (accepted)
        memcpy(answer + 1, read.card, SARGACEU_CARD * sizeof *answer);
    expect_front(TEXT, read.text, accepted ? read.card[CARD_TEXT] : 0);
    expect_front(SEGMENTS, read.segments, accepted ? read.card[CARD_SEGMENTS] * SARGACEU_SEGMENT_ROW : 0);
    expect_front(LEAVES, read.leaves, accepted ? read.card[CARD_LEAVES] * SARGACEU_LEAF_ROW : 0);
    expect_front(INDEX_CODES, after.codes, accepted ? after.counts[0] * SARGACEU_INDEX_PLACE : 0);
    expect_front(INDEX_COUNTS, after.counts, accepted ? after.counts[0] + 1 : 0);
    expect_front(TALLY, tally, accepted ? SARGACEU_TALLY : 0);
    expect_front(ANSWER, answer, told && numbers >= SARGACEU_READ_ANSWER ? SARGACEU_READ_ANSWER : 0);
}

/* An index that was sound is sound afterwards, and reading without it gives the same table. */
static void expect_sound(void)
{
    if (!sargaceu_index_sound(after.codes, after.codes_bytes, after.counts, after.counts_numbers))
        fail("the index that is left is not sound");
}

int try_read_indexed(void)
{
    uint8_t form = draw_form();
    uint32_t tally[TALLY_MOST], left[TALLY_MOST];
    if (form == SARGACEU_LARGE || one_in(4))
        draw_message(&drawn, form);
    else
        draw_counted_report(&drawn);
    draw_index(&before);
    draw_tally(tally);
    after = before;
    memcpy(left, tally, sizeof left);
    struct room room = draw_room(form);
    size_t numbers = one_in(24) ? below(SARGACEU_READ_ANSWER) : enough(SARGACEU_READ_ANSWER, ANSWER_MOST);
    size_t tally_numbers = one_in(24) ? below(SARGACEU_TALLY) : enough(SARGACEU_TALLY, TALLY_MOST);
    const void *answer_was = former(ANSWER_MOST * sizeof(size_t));
    bool told = numbers >= SARGACEU_READ_ANSWER && tally_numbers >= SARGACEU_TALLY;
    struct outcome expected = told ? expected_counting(form, room, left) : (struct outcome){ SARGACEU_SHORT_BUFFER, 0 };
    for (int side = 0; side < SIDES; side++) {
        begin_side(side);
        uint8_t number = sargaceu_read_indexed(form, lend(MESSAGE, drawn.bytes, drawn.length), drawn.length,
                                               lend_to_write(TEXT, room.text_was, room.text), room.text,
                                               lend_to_write(SEGMENTS, room.segments_was, room.segments), room.segments,
                                               lend_to_write(LEAVES, room.leaves_was, room.leaves), room.leaves,
                                               lend_to_write(INDEX_CODES, before.codes, before.codes_bytes), before.codes_bytes,
                                               lend_to_write(INDEX_COUNTS, before.counts, before.counts_numbers), before.counts_numbers,
                                               lend_to_write(TALLY, tally, tally_numbers), tally_numbers,
                                               lend_to_write(ANSWER, answer_was, numbers), numbers);
        if (number != expected.number)
            fail("answers %d, and %d at %zu was expected", number, expected.number, expected.place);
        expect_left(expected, left, numbers, told);
    }
    if (expected.number == SARGACEU_ACCEPTED)
        expect_sound();
    return expected.number;
}

/* ---- asking ---- */

static const uint8_t *lend_codes(void)
{
    return lend(INDEX_CODES, before.codes, before.codes_bytes);
}

static const uint32_t *lend_counts(void)
{
    return lend(INDEX_COUNTS, before.counts, before.counts_numbers);
}

int try_index_sound(void)
{
    draw_index(&before);
    bool expected = plain_is_index(&before);
    for (int side = 0; side < SIDES; side++) {
        begin_side(side);
        if (sargaceu_index_sound(lend_codes(), before.codes_bytes, lend_counts(), before.counts_numbers) != expected)
            fail("says %s, and %s was expected", expected ? "no" : "yes", expected ? "yes" : "no");
        expect_kept(INDEX_CODES);
        expect_kept(INDEX_COUNTS);
    }
    return expected ? SARGACEU_ACCEPTED : NO;
}

/* What the answer of a question is lent as. */
struct asking {
    size_t numbers, needed;
    const void *was;
};

static struct asking draw_asking(size_t needed)
{
    return (struct asking){ one_in(16) ? below(needed) : enough(needed, needed + 3), needed, former(ANSWER_MOST * sizeof(size_t)) };
}

static size_t *lend_answer(struct asking a)
{
    return lend_to_write(ANSWER, a.was, a.numbers);
}

/* The answer is filled where something is named and it has room. */
static void expect_asked(struct asking a, uint8_t number, uint8_t expected, const size_t *answer)
{
    if (number != expected)
        fail("answers %d, and %d was expected", number, expected);
    expect_front(ANSWER, answer, expected == SARGACEU_NAMED && a.numbers >= a.needed ? a.needed : 0);
    expect_kept(INDEX_CODES);
    expect_kept(INDEX_COUNTS);
}

static int asked(uint8_t expected)
{
    return expected == SARGACEU_NAMED ? SARGACEU_ACCEPTED : expected == SARGACEU_NOT_NAMED ? NO : expected;
}

int try_index_codes(void)
{
    draw_index(&before);
    struct asking a = draw_asking(SARGACEU_CODES_ANSWER);
    size_t answer = before.counts[0];
    uint8_t expected = plain_is_roomy(&before) ? SARGACEU_NAMED : SARGACEU_NO_INDEX;
    for (int side = 0; side < SIDES; side++) {
        begin_side(side);
        uint8_t number = sargaceu_index_codes(lend_codes(), before.codes_bytes, lend_counts(), before.counts_numbers, lend_answer(a), a.numbers);
        expect_asked(a, number, expected, &answer);
    }
    return asked(expected);
}

int try_index_count(void)
{
    uint8_t code[CODE_DRAWN_MOST];
    draw_index(&before);
    size_t bytes = draw_code(&before, code), answer = 0;
    struct asking a = draw_asking(SARGACEU_COUNT_ANSWER);
    uint8_t expected = plain_count(&before, code, bytes, &answer);
    for (int side = 0; side < SIDES; side++) {
        begin_side(side);
        uint8_t number = sargaceu_index_count(lend_codes(), before.codes_bytes, lend_counts(), before.counts_numbers, lend(CODE, code, bytes), bytes,
                                              lend_answer(a), a.numbers);
        expect_asked(a, number, expected, &answer);
        expect_kept(CODE);
    }
    return asked(expected);
}

int try_index_code(void)
{
    size_t answer[SARGACEU_CODE_ANSWER] = { 0 };
    draw_index(&before);
    size_t k = one_in(8) ? wild() : below((size_t)before.counts[0] + 2);
    struct asking a = draw_asking(SARGACEU_CODE_ANSWER);
    uint8_t expected = plain_code(&before, k, answer);
    for (int side = 0; side < SIDES; side++) {
        begin_side(side);
        uint8_t number = sargaceu_index_code(lend_codes(), before.codes_bytes, lend_counts(), before.counts_numbers, k, lend_answer(a), a.numbers);
        expect_asked(a, number, expected, answer);
    }
    return asked(expected);
}
