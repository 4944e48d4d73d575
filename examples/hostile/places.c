/* Trials of where rows and offsets stand in a message. */
#include "hostile.h"

static struct message drawn;

/* What the three functions are to C: the message, a row or an offset, and the answer. */
typedef size_t standing(const uint8_t *, size_t, size_t, size_t *, size_t);
typedef size_t plain_standing(const uint8_t *, size_t, size_t, size_t *);

/* Asks of the drawn message; what the function is to return comes back. */
static size_t ask(standing *function, plain_standing *plain, size_t which, size_t answer_numbers)
{
    size_t numbers = one_in(16) ? below(answer_numbers) : enough(answer_numbers, 4), answer;
    const void *answer_was = former(8 * sizeof(size_t));
    size_t expected = plain(drawn.bytes, drawn.length, which, &answer);
    for (int side = 0; side < SIDES; side++) {
        begin_side(side);
        size_t told = function(lend(MESSAGE, drawn.bytes, drawn.length), drawn.length, which, lend_to_write(ANSWER, answer_was, numbers), numbers);
        if (told != expected)
            fail("answers %zu to %zu, and %zu was expected", told, which, expected);
        expect_front(ANSWER, &answer, numbers < answer_numbers ? 0 : answer_numbers);
    }
    return expected;
}

/* A message that begins with an addendum now and then, whose lines are of no row. */
static void draw_rows(void)
{
    draw_message(&drawn, draw_form_of_two());
    if (drawn.length > 0 && one_in(16))
        drawn.bytes[0] = 'A';
}

/* The row of a number that there is mostly, or one right past the last, or any. */
int try_row_place(void)
{
    draw_rows();
    size_t rows = plain_rows(drawn.bytes, drawn.length), row = one_in(8) ? wild() : one_in(8) ? rows + below(3) : 1 + below(rows);
    return ask(sargaceu_row_place, plain_row_place, row, SARGACEU_ROW_ANSWER) > 0 ? SARGACEU_ACCEPTED : NO;
}

int try_row_at(void)
{
    draw_rows();
    return ask(sargaceu_row_at, plain_row_at, draw_offset(&drawn), SARGACEU_ROW_ANSWER) > 0 ? SARGACEU_ACCEPTED : NO;
}

/* No offset is refused: one past the end counts as such here, so that both come often. */
int try_position(void)
{
    draw_message(&drawn, draw_form_of_two());
    size_t offset = draw_offset(&drawn);
    ask(sargaceu_position, plain_position, offset, SARGACEU_POSITION_ANSWER);
    return offset <= drawn.length ? SARGACEU_ACCEPTED : NO;
}
