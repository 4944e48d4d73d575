/* Trials of the writer and of the table test. */
#include "hostile.h"

#include <string.h>

static struct table drawn, again;
static uint8_t written[SARGACEU_LARGE_OUTPUT];

/* Each addendum follows a line that is full. */
static void expect_full_lines(const uint8_t *message, size_t bytes)
{
    size_t answer[SARGACEU_LINE_ANSWER], before = 0;
    for (size_t at = 0; at < bytes; at = answer[1]) {
        if (sargaceu_line(message, bytes, at, answer, SARGACEU_LINE_ANSWER) != SARGACEU_ACCEPTED)
            fail("a line of what was written is at fault");
        size_t length = answer[0] - at;
        if (length >= 2 && message[at] == 'A' && message[at + 1] == message[1] && before != 219)
            fail("an addendum follows a line of %zu bytes", before);
        if (answer[1] != answer[0] + 1)
            fail("more than a CR lies between two lines");
        before = length;
    }
}

/* The table's message, in ordinary memory, and its number; it reads to the table again. */
static uint8_t expected_number(size_t *answer)
{
    size_t place;
    uint8_t number = write_table(&drawn, written, answer);
    if (number != SARGACEU_ACCEPTED && number != SARGACEU_NO_TABLE)
        fail("the writer answers %d, though the output is enough", number);
    if (number == SARGACEU_NO_TABLE)
        return number;
    if (read_table(drawn.form, written, answer[1], &again, &place) != SARGACEU_ACCEPTED)
        fail("the reader refuses what was written");
    expect_same_table(&drawn, &again, "what was written and read again");
    expect_owners(&drawn);
    expect_full_lines(written, answer[1]);
    return number;
}

int try_write(void)
{
    bool sound = draw_table(&drawn, draw_form());
    size_t least = sizes_of(drawn.form)->output, bytes = one_in(16) ? short_of(least) : enough(least, least + TEXT_SLACK);
    size_t numbers = one_in(16) ? below(SARGACEU_WRITE_ANSWER) : enough(SARGACEU_WRITE_ANSWER, 6), answer[SARGACEU_WRITE_ANSWER];
    const void *output_was = former(least + TEXT_SLACK), *answer_was = former(8 * sizeof(size_t));
    uint8_t expected = expected_number(answer);
    if (sound && expected != SARGACEU_ACCEPTED)
        fail("refuses a table that was read");
    if (numbers < SARGACEU_WRITE_ANSWER || bytes < least) {
        expected = numbers < SARGACEU_WRITE_ANSWER ? SARGACEU_SHORT_BUFFER : SARGACEU_SHORT_OUTPUT;
        memset(answer, 0, sizeof answer);
    }
    for (int side = 0; side < SIDES; side++) {
        begin_side(side);
        uint8_t number = sargaceu_write(drawn.form, lend(CARD, drawn.card, drawn.card_numbers), drawn.card_numbers,
                                        lend(SEGMENTS, drawn.segments, drawn.segments_numbers), drawn.segments_numbers,
                                        lend(LEAVES, drawn.leaves, drawn.leaves_numbers), drawn.leaves_numbers,
                                        lend(TEXT, drawn.text, drawn.text_bytes), drawn.text_bytes,
                                        lend_to_write(OUTPUT, output_was, bytes), bytes,
                                        lend_to_write(ANSWER, answer_was, numbers), numbers);
        if (number != expected)
            fail("answers %d, and %d was expected", number, expected);
        expect_front(OUTPUT, written, answer[1]);
        expect_front(ANSWER, answer, numbers < SARGACEU_WRITE_ANSWER ? 0 : SARGACEU_WRITE_ANSWER);
    }
    return expected;
}

/* A table of the small form is one of the large form. */
static void expect_large(void)
{
    struct table *t = &again;
    copy_table(t, &drawn);
    t->form = SARGACEU_LARGE;
    if (!is_table(t))
        fail("a table of one form is none of the large form");
}

int try_is_table(void)
{
    size_t answer[SARGACEU_WRITE_ANSWER];
    bool sound = draw_table(&drawn, draw_form()), expected = expected_number(answer) == SARGACEU_ACCEPTED;
    if (sound && !expected)
        fail("the writer refuses a table that was read");
    if (expected)
        expect_large();
    for (int side = 0; side < SIDES; side++) {
        begin_side(side);
        bool yes = sargaceu_is_table(drawn.form, lend(CARD, drawn.card, drawn.card_numbers), drawn.card_numbers,
                                     lend(SEGMENTS, drawn.segments, drawn.segments_numbers), drawn.segments_numbers,
                                     lend(LEAVES, drawn.leaves, drawn.leaves_numbers), drawn.leaves_numbers,
                                     lend(TEXT, drawn.text, drawn.text_bytes), drawn.text_bytes);
        if (yes != expected)
            fail("says %s, and the writer %s the table", yes ? "yes" : "no", expected ? "writes" : "refuses");
    }
    return expected ? SARGACEU_ACCEPTED : NO;
}
