/* Trials of the screening check. */
#include "hostile.h"

enum { ANSWER_MOST = 4 };

static struct table drawn;

static struct outcome expected_verdict(void)
{
    if (!is_table(&drawn))
        return (struct outcome){ SARGACEU_NO_TABLE, 0 };
    return plain_screen(&drawn);
}

int try_screen(void)
{
    uint8_t form = draw_form();
    if (form != SARGACEU_LARGE && one_in(8)) /* the plain check takes long where a table is not a report's and large */
        draw_table(&drawn, form);
    else
        draw_report_table(&drawn, form);
    size_t numbers = one_in(16) ? below(SARGACEU_SCREEN_ANSWER) : enough(SARGACEU_SCREEN_ANSWER, ANSWER_MOST);
    const void *answer_was = former(ANSWER_MOST * sizeof(size_t));
    bool told = numbers >= SARGACEU_SCREEN_ANSWER;
    struct outcome expected = told ? expected_verdict() : (struct outcome){ SARGACEU_SHORT_BUFFER, 0 };
    for (int side = 0; side < SIDES; side++) {
        begin_side(side);
        uint8_t number = sargaceu_screen(drawn.form, lend(CARD, drawn.card, drawn.card_numbers), drawn.card_numbers,
                                         lend(SEGMENTS, drawn.segments, drawn.segments_numbers), drawn.segments_numbers,
                                         lend(LEAVES, drawn.leaves, drawn.leaves_numbers), drawn.leaves_numbers,
                                         lend(TEXT, drawn.text, drawn.text_bytes), drawn.text_bytes,
                                         lend_to_write(ANSWER, answer_was, numbers), numbers);
        if (number != expected.number)
            fail("answers %d, and %d at %zu was expected", number, expected.number, expected.place);
        expect_front(ANSWER, &expected.place, told ? SARGACEU_SCREEN_ANSWER : 0);
    }
    return expected.number;
}
