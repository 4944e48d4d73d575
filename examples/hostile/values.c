/* Trials of the functions on numeric results. */
#include "hostile.h"

#include <string.h>

enum { LONG_TEXT = 40000, ANSWER_MOST = 5, OUTPUT_MOST = SARGACEU_VALUE_TEXT + 16, PLACES_MOST = SARGACEU_LARGE_VALUES + 16 };

static struct table drawn;

/* ---- one value ---- */

/* The text of a number mostly; else a long one, or one with some byte of any sort. */
static size_t draw_text(uint8_t *text)
{
    size_t bytes = draw_numeral(text);
    if (one_in(24)) {
        bytes = below(one_in(4) ? LONG_TEXT : 300);
        memset(text, one_in(2) ? '0' : '9', bytes);
        if (bytes > 0 && one_in(2))
            text[below(bytes)] = '.';
    }
    if (bytes > 0 && one_in(8))
        text[below(bytes)] = (uint8_t)chance();
    return bytes;
}

/* Whether a text reads to a value, as the library says. */
static bool reads_to(const uint8_t *text, size_t bytes, int64_t whole, size_t decimals)
{
    int64_t answer[SARGACEU_VALUE_ANSWER];
    return sargaceu_read_value(text, bytes, answer, SARGACEU_VALUE_ANSWER) == SARGACEU_ACCEPTED && answer[0] == whole &&
           answer[1] == (int64_t)decimals;
}

/* What is read is written with no more bytes than it had, and reads to the same again. */
static void write_again(int64_t whole, size_t decimals, size_t most)
{
    uint8_t text[SARGACEU_VALUE_TEXT];
    size_t answer[SARGACEU_TEXT_ANSWER];
    if (sargaceu_write_value(whole, decimals, text, sizeof text, answer, SARGACEU_TEXT_ANSWER) != SARGACEU_ACCEPTED)
        fail("a value that was read is not written");
    if (answer[0] > most)
        fail("%zu bytes are written of a value that was read from %zu", answer[0], most);
    if (!reads_to(text, answer[0], whole, decimals))
        fail("what was written does not read to the same value");
}

int try_read_value(void)
{
    static uint8_t text[LONG_TEXT];
    size_t bytes = draw_text(text), numbers = one_in(16) ? below(SARGACEU_VALUE_ANSWER) : enough(SARGACEU_VALUE_ANSWER, ANSWER_MOST);
    const void *answer_was = former(ANSWER_MOST * sizeof(int64_t));
    struct value value = plain_read_value(text, bytes);
    bool told = numbers >= SARGACEU_VALUE_ANSWER;
    uint8_t expected = told ? value.number : SARGACEU_SHORT_BUFFER;
    const int64_t answer[SARGACEU_VALUE_ANSWER] = { value.whole, value.decimals };
    for (int side = 0; side < SIDES; side++) {
        begin_side(side);
        uint8_t number = sargaceu_read_value(lend(TEXT, text, bytes), bytes, lend_to_write(ANSWER, answer_was, numbers), numbers);
        if (number != expected)
            fail("answers %d, and %d was expected", number, expected);
        expect_front(ANSWER, answer, told ? SARGACEU_VALUE_ANSWER : 0);
    }
    if (value.number == SARGACEU_ACCEPTED)
        write_again(value.whole, value.decimals, bytes);
    return expected;
}

/* It reads to the value, and with any one byte left out it does not. */
static void expect_shortest(const uint8_t *text, size_t bytes, int64_t whole, size_t decimals)
{
    uint8_t shorter[SARGACEU_VALUE_TEXT];
    if (!reads_to(text, bytes, whole, decimals))
        fail("what is written does not read to the value");
    for (size_t out = 0; out < bytes; out++) {
        memcpy(shorter, text, out);
        memcpy(shorter + out, text + out + 1, bytes - out - 1);
        if (reads_to(shorter, bytes - 1, whole, decimals))
            fail("a byte less reads to the same value");
    }
}

int try_write_value(void)
{
    int64_t whole = draw_whole();
    size_t decimals = one_in(8) ? wild() : below(one_in(2) ? 4 : 17);
    size_t bytes = one_in(8) ? short_of(SARGACEU_VALUE_TEXT) : enough(SARGACEU_VALUE_TEXT, OUTPUT_MOST);
    size_t numbers = one_in(16) ? below(SARGACEU_TEXT_ANSWER) : enough(SARGACEU_TEXT_ANSWER, ANSWER_MOST);
    const void *output_was = former(OUTPUT_MOST), *answer_was = former(ANSWER_MOST * sizeof(size_t));
    uint8_t text[SARGACEU_VALUE_TEXT], expected = SARGACEU_ACCEPTED;
    size_t length = plain_write_value(whole, decimals, text);
    bool told = numbers >= SARGACEU_TEXT_ANSWER;
    if (!told)
        expected = SARGACEU_SHORT_BUFFER;
    else if (length == 0)
        expected = SARGACEU_OUT_OF_RANGE;
    else if (bytes < SARGACEU_VALUE_TEXT)
        expected = SARGACEU_NARROW_OUTPUT;
    const size_t written = expected == SARGACEU_ACCEPTED ? length : 0;
    for (int side = 0; side < SIDES; side++) {
        begin_side(side);
        uint8_t number = sargaceu_write_value(whole, decimals, lend_to_write(OUTPUT, output_was, bytes), bytes,
                                              lend_to_write(ANSWER, answer_was, numbers), numbers);
        if (number != expected)
            fail("answers %d, and %d was expected", number, expected);
        expect_front(OUTPUT, text, written);
        expect_front(ANSWER, &written, told ? SARGACEU_TEXT_ANSWER : 0);
    }
    if (length > 0)
        expect_shortest(text, length, whole, decimals);
    return expected;
}

/* ---- the values of an order ---- */

/* The buffers that an order's values are lent: how many elements each has. */
struct places {
    size_t numbers, wholes, decimals;
};

static size_t draw_places(size_t count)
{
    return one_in(8) ? sizes_of(drawn.form)->values : enough(count, count + 4);
}

/* Room for so many values, or one buffer that has less. */
static struct places draw_all_places(size_t count)
{
    struct places places = { draw_places(count), draw_places(count), draw_places(count) };
    size_t *const each[3] = { &places.numbers, &places.wholes, &places.decimals };
    if (count > 0 && one_in(4))
        *each[below(3)] = short_of(count);
    return places;
}

static uint8_t expected_number(bool sound, uint32_t order, struct places places, size_t count)
{
    if (!sound)
        return SARGACEU_NO_TABLE;
    if (!plain_is_order(&drawn, order))
        return SARGACEU_NOT_AN_ORDER;
    return places.numbers < count || places.wholes < count || places.decimals < count ? SARGACEU_LITTLE_ROOM : SARGACEU_ACCEPTED;
}

/* The values' parts, as they stand in three buffers. */
struct parts {
    uint8_t numbers[SARGACEU_LARGE_VALUES];
    int64_t wholes[SARGACEU_LARGE_VALUES];
    uint8_t decimals[SARGACEU_LARGE_VALUES];
};

static size_t expected_parts(uint32_t order, struct parts *parts)
{
    static struct value values[SARGACEU_LARGE_VALUES];
    size_t count = plain_order_values(&drawn, order, values);
    for (size_t i = 0; i < count; i++) {
        parts->numbers[i] = values[i].number;
        parts->wholes[i] = values[i].whole;
        parts->decimals[i] = values[i].decimals;
    }
    return count;
}

int try_order_values(void)
{
    static struct parts parts;
    draw_table(&drawn, draw_form());
    uint32_t order = draw_order(&drawn);
    bool sound = is_table(&drawn);
    size_t count = sound && plain_is_order(&drawn, order) ? expected_parts(order, &parts) : 0;
    struct places places = draw_all_places(count);
    size_t numbers = one_in(16) ? below(SARGACEU_ORDER_ANSWER) : enough(SARGACEU_ORDER_ANSWER, ANSWER_MOST);
    const void *numbers_was = former(PLACES_MOST), *wholes_was = former(PLACES_MOST * sizeof(int64_t)), *decimals_was = former(PLACES_MOST),
               *answer_was = former(ANSWER_MOST * sizeof(size_t));
    bool told = numbers >= SARGACEU_ORDER_ANSWER;
    uint8_t expected = told ? expected_number(sound, order, places, count) : SARGACEU_SHORT_BUFFER;
    if (expected != SARGACEU_ACCEPTED)
        count = 0;
    const size_t answer[SARGACEU_ORDER_ANSWER] = { 0, count };
    for (int side = 0; side < SIDES; side++) {
        begin_side(side);
        uint8_t number = sargaceu_order_values(drawn.form, lend(CARD, drawn.card, drawn.card_numbers), drawn.card_numbers,
                                               lend(SEGMENTS, drawn.segments, drawn.segments_numbers), drawn.segments_numbers,
                                               lend(LEAVES, drawn.leaves, drawn.leaves_numbers), drawn.leaves_numbers,
                                               lend(TEXT, drawn.text, drawn.text_bytes), drawn.text_bytes, order,
                                               lend_to_write(VALUE_NUMBERS, numbers_was, places.numbers), places.numbers,
                                               lend_to_write(VALUE_WHOLES, wholes_was, places.wholes), places.wholes,
                                               lend_to_write(VALUE_DECIMALS, decimals_was, places.decimals), places.decimals,
                                               lend_to_write(ANSWER, answer_was, numbers), numbers);
        if (number != expected)
            fail("answers %d for row %u, and %d was expected", number, order, expected);
        expect_front(VALUE_NUMBERS, parts.numbers, count);
        expect_front(VALUE_WHOLES, parts.wholes, count);
        expect_front(VALUE_DECIMALS, parts.decimals, count);
        expect_front(ANSWER, answer, told ? SARGACEU_ORDER_ANSWER : 0);
    }
    return expected;
}
