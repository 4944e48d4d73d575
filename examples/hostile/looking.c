/* Trials of the lookups. */
#include "hostile.h"

#include <string.h>

static struct table one, two;

/* The place of some leaf, or one beside it, or any. */
static void draw_place(uint32_t place[5])
{
    size_t leaves = leaves_there(&one);
    for (int i = 0; i < 5; i++)
        place[i] = (uint32_t)wild();
    if (leaves > 0 && !one_in(12))
        memcpy(place, one.leaves + below(leaves) * SARGACEU_LEAF_ROW, 5 * sizeof *place);
    if (one_in(4))
        place[below(5)] = (uint32_t)(one_in(2) ? 1 + below(4) : wild());
}

/* The place's segment row names other leaves than its own now and then: more, fewer, none, or some past all of them. */
static void draw_named_leaves(const uint32_t place[5])
{
    if (place[0] == 0 || place[0] > segments_there(&one) || !one_in(4))
        return;
    uint32_t *named = one.segments + (size_t)(place[0] - 1) * SARGACEU_SEGMENT_ROW + 2 + below(2); /* its first leaf, or how many */
    *named = (uint32_t)(one_in(2) ? wild() : *named + below(5) - 2);
}

/* Of a table that some message reads to, both lookups answer the same. */
static void expect_agreement(const uint32_t place[5])
{
    size_t all[SARGACEU_LEAF_ANSWER] = { 0, 0 }, within[SARGACEU_LEAF_ANSWER] = { 0, 0 };
    if (!is_table(&one))
        return;
    if (plain_find_leaf(&one, place, all) != plain_find_leaf_in_segment(&one, place, within) || memcmp(all, within, sizeof all) != 0)
        fail("a search over all leaves answers otherwise than one within the segment, of a table that some message reads to");
}

/* What both lookups are, to C and as a plain search. */
typedef uint8_t lookup(const size_t *, size_t, const uint32_t *, size_t, const uint32_t *, size_t, const uint8_t *, size_t,
                       uint32_t, uint32_t, uint32_t, uint32_t, uint32_t, size_t *, size_t);
typedef uint8_t plain_lookup(const struct table *, const uint32_t *, size_t *);

static int try_lookup(lookup *find, plain_lookup *plain)
{
    uint32_t place[5];
    size_t answer[SARGACEU_LEAF_ANSWER] = { 0, 0 };
    draw_table(&one, draw_form_of_two());
    draw_place(place);
    draw_named_leaves(place);
    expect_agreement(place);
    size_t numbers = one_in(16) ? below(SARGACEU_LEAF_ANSWER) : enough(SARGACEU_LEAF_ANSWER, 5);
    const void *answer_was = former(8 * sizeof(size_t));
    uint8_t expected = plain(&one, place, answer);
    for (int side = 0; side < SIDES; side++) {
        begin_side(side);
        size_t *lent = lend_to_write(ANSWER, answer_was, numbers);
        uint8_t sought = find(lend(CARD, one.card, one.card_numbers), one.card_numbers,
                              lend(SEGMENTS, one.segments, one.segments_numbers), one.segments_numbers,
                              lend(LEAVES, one.leaves, one.leaves_numbers), one.leaves_numbers,
                              lend(TEXT, one.text, one.text_bytes), one.text_bytes,
                              place[0], place[1], place[2], place[3], place[4], lent, numbers);
        if (sought != expected)
            fail("answers %d, and a plain search %d", sought, expected);
        bool told = sought != SARGACEU_NOT_THERE && numbers >= SARGACEU_LEAF_ANSWER;
        if (told && (lent[0] > one.card[CARD_TEXT] || lent[1] > one.card[CARD_TEXT] - lent[0]))
            fail("the leaf lies past the card's text");
        expect_front(ANSWER, answer, told ? SARGACEU_LEAF_ANSWER : 0);
    }
    return expected == SARGACEU_FOUND ? SARGACEU_ACCEPTED : expected == SARGACEU_FOUND_EMPTY ? EMPTY : NO;
}

int try_find_leaf(void)
{
    return try_lookup(sargaceu_find_leaf, plain_find_leaf);
}

int try_find_leaf_in_segment(void)
{
    return try_lookup(sargaceu_find_leaf_in_segment, plain_find_leaf_in_segment);
}

int try_next_row(void)
{
    draw_table(&one, draw_form_of_two());
    size_t rows = segments_there(&one), row = below(rows), after = one_in(8) ? wild() : below(one_in(2) ? 2 : rows + 2);
    uint32_t kind = (uint32_t)(one_in(12) ? wild() : 1 + below(12)), owner = (uint32_t)(one_in(12) ? wild() : below(rows + 2));
    if (rows > 0 && !one_in(4)) {
        kind = one.segments[row * SARGACEU_SEGMENT_ROW];
        owner = one.segments[row * SARGACEU_SEGMENT_ROW + 1];
    }
    size_t expected = plain_next_row(&one, after, kind, owner);
    for (int side = 0; side < SIDES; side++) {
        begin_side(side);
        size_t found = sargaceu_next_row(lend(CARD, one.card, one.card_numbers), one.card_numbers,
                                         lend(SEGMENTS, one.segments, one.segments_numbers), one.segments_numbers,
                                         after, kind, owner);
        if (found != expected)
            fail("answers row %zu, and a plain search %zu", found, expected);
    }
    return expected != 0 ? SARGACEU_ACCEPTED : NO;
}

/* The second table is the first, or another; one of them may be damaged. */
static void draw_pair(void)
{
    draw_table(&one, draw_form_of_two());
    if (one_in(2))
        draw_table(&two, draw_form_of_two());
    else
        copy_table(&two, &one);
}

int try_same_order(void)
{
    draw_pair();
    uint32_t row = draw_order(&one), other_row = one_in(2) ? row : draw_order(&two);
    bool expected = plain_same_order(&one, row, &two, other_row);
    for (int side = 0; side < SIDES; side++) {
        begin_side(side);
        bool same = sargaceu_same_order(lend(CARD, one.card, one.card_numbers), one.card_numbers,
                                        lend(SEGMENTS, one.segments, one.segments_numbers), one.segments_numbers,
                                        lend(LEAVES, one.leaves, one.leaves_numbers), one.leaves_numbers,
                                        lend(TEXT, one.text, one.text_bytes), one.text_bytes, row,
                                        lend(OTHER_CARD, two.card, two.card_numbers), two.card_numbers,
                                        lend(OTHER_SEGMENTS, two.segments, two.segments_numbers), two.segments_numbers,
                                        lend(OTHER_LEAVES, two.leaves, two.leaves_numbers), two.leaves_numbers,
                                        lend(OTHER_TEXT, two.text, two.text_bytes), two.text_bytes, other_row);
        if (same != expected)
            fail("says %s of rows %u and %u, and a plain search %s", same ? "yes" : "no", row, other_row, expected ? "yes" : "no");
    }
    return expected ? SARGACEU_ACCEPTED : NO;
}
