/*
 * Values: that of a text in one loop over its bytes; a written text in its place, the digits from behind; and those of an order, which goes over
 * the order's own rows once the table is tested.
 */
#include "baseline.h"
#include "baseline_table.h"

enum { NO_TABLE = 13, NOT_A_NUMBER = 20, MANY_DIGITS, OUT_OF_RANGE, NARROW_OUTPUT, NOT_AN_ORDER, LITTLE_ROOM };
enum { DIGITS = 15, TEXT_ROOM = 17 };

/* ---- reading a value ---- */

struct value { uint8_t number; int64_t whole; size_t decimals; };

static inline struct value no_value(uint8_t number)
{
    return (struct value){ number, 0, 0 };
}

/* What a point is where digits are expected: a byte less `0`, which is over 9 for all bytes that are no digit. */
static const uint64_t point_digit = (uint64_t)'.' - '0';

/* Nobody asks for the number of a text with too many digits, so it may wrap. */
static inline struct value value_of(const uint8_t *p, size_t bytes)
{
    const uint8_t *end = p + bytes, *point = NULL;
    if (bytes == 0)
        return no_value(NOT_A_NUMBER);
    bool minus = *p == '-';
    if (minus || *p == '+')
        p++;
    size_t digits = end - p, decimals = 0;
    uint64_t magnitude = 0;
    for (; p < end; p++) {
        uint64_t digit = *p - (uint64_t)'0';
        if (digit < 10) {
            magnitude = magnitude * 10 + digit;
        } else {
            if (digit != point_digit || point)
                return no_value(NOT_A_NUMBER);
            point = p;
        }
    }
    if (point) {
        decimals = end - point - 1;
        digits = decimals ? digits - 1 : 0;
    }
    if (digits == 0)
        return no_value(NOT_A_NUMBER);
    if (digits > DIGITS)
        return no_value(MANY_DIGITS);
    return (struct value){ 0, minus ? -(int64_t)magnitude : (int64_t)magnitude, decimals };
}

uint8_t base_read_value(const uint8_t *text, size_t text_bytes, int64_t *answer, size_t answer_numbers)
{
    if (answer_numbers < 2)
        return 1;
    struct value v = value_of(text, text_bytes);
    answer[0] = v.whole;
    answer[1] = v.decimals;
    return v.number;
}

/* ---- writing a value ---- */

static const uint64_t powers[DIGITS + 1] = {
    1, 10, 100, 1000, 10000, 100000, 1000000, 10000000, 100000000, 1000000000, 10000000000, 100000000000, 1000000000000,
    10000000000000, 100000000000000, 1000000000000000
};

/* How many digits a number has, 0 none: a bit is 1,233 of 4,096 parts of a digit, which comes out right or one short. */
static inline size_t digits_of(uint64_t magnitude)
{
    unsigned bits = 64 - __builtin_clzll(magnitude | 1), digits = bits * 1233 >> 12;
    return digits + (magnitude >= powers[digits]);
}

/* The text of a value that has one; answers its bytes. */
static inline size_t put_value(uint64_t magnitude, bool minus, size_t decimals, uint8_t *output)
{
    size_t digits = digits_of(magnitude), before = digits > decimals ? digits - decimals : 0;
    uint8_t *front = output;
    if (minus)
        *front++ = '-';
    if (magnitude == 0 && decimals == 0)
        before = 1;
    uint8_t *p = front + before, *end = p;
    if (decimals) {
        uint8_t *point = p;
        end += decimals + 1;
        for (p = end - 1; p > point; p--, magnitude /= 10)
            *p = '0' + magnitude % 10;
        *p = '.';
    }
    for (; p > front; magnitude /= 10)
        *--p = '0' + magnitude % 10;
    return end - output;
}

uint8_t base_write_value(int64_t whole, size_t decimals, uint8_t *output, size_t output_bytes, size_t *answer, size_t answer_numbers)
{
    if (answer_numbers < 1)
        return 1;
    uint64_t magnitude = whole < 0 ? -(uint64_t)whole : (uint64_t)whole;
    answer[0] = 0;
    if (magnitude >= powers[DIGITS] || decimals > DIGITS)
        return OUT_OF_RANGE;
    if (output_bytes < TEXT_ROOM)
        return NARROW_OUTPUT;
    answer[0] = put_value(magnitude, whole < 0, decimals, output);
    return 0;
}

/* ---- an order's values ---- */

bool base_is_table(uint8_t form,
                   const size_t *card, size_t card_numbers,
                   const uint32_t *segments, size_t segments_numbers,
                   const uint32_t *leaves, size_t leaves_numbers,
                   const uint8_t *text, size_t text_bytes)
{
    return is_lent_table(form, card, card_numbers, segments, segments_numbers, leaves, leaves_numbers, text, text_bytes);
}

/* The fields of a result's type and of its value. */
enum { TYPE_FIELD = 3, VALUE_FIELD = 6 };

/* A numeric result: the leaf rows from its type on. */
struct result { const uint32_t *row, *end; };

/* Here and below the table has been tested, so a segment's leaf rows run on field by field, and a field begins with its first leaf. */
static inline const uint32_t *seek_field(const uint32_t *row, const uint32_t *end, unsigned field)
{
    while (row < end && row[1] < field)
        row += LEAF_ROW;
    return row;
}

/*
 * The numeric results of an order, in the order of their rows: what is under it lies behind it, before any row that an earlier one owns, and an OBX
 * among that is the order's own.
 */
static inline size_t seek_results(unsigned order, const uint32_t *segments, size_t many, const uint32_t *leaves, const uint8_t *text,
                                  struct result *results)
{
    const uint32_t *segment = segments + order * SEGMENT_ROW, *past = segments + many * SEGMENT_ROW;
    size_t count = 0;
    for (; segment < past && segment[1] >= order; segment += SEGMENT_ROW) {
        if (segment[0] != OBX)
            continue;
        const uint32_t *row = leaves + (segment[2] - 1) * LEAF_ROW, *end = row + segment[3] * LEAF_ROW;
        row = seek_field(row, end, TYPE_FIELD);
        if (row < end && row[6] == 2 && text[row[5]] == 'N' && text[row[5] + 1] == 'M')
            results[count++] = (struct result){ row, end };
    }
    return count;
}

/* What a result's value says, where its field is one leaf. */
static inline struct value result_value(struct result result, const uint8_t *text)
{
    const uint32_t *row = seek_field(result.row, result.end, VALUE_FIELD), *next = row + LEAF_ROW;
    if (row == result.end || (next < result.end && next[1] == VALUE_FIELD))
        return no_value(NOT_A_NUMBER);
    return value_of(text + row[5], row[6]);
}

static uint8_t refuse(uint8_t number, size_t *answer)
{
    answer[0] = answer[1] = 0;
    return number;
}

uint8_t base_order_values(uint8_t form,
                          const size_t *card, size_t card_numbers,
                          const uint32_t *segments, size_t segments_numbers,
                          const uint32_t *leaves, size_t leaves_numbers,
                          const uint8_t *text, size_t text_bytes,
                          uint32_t order,
                          uint8_t *numbers, size_t numbers_bytes,
                          int64_t *wholes, size_t wholes_numbers,
                          uint8_t *decimals, size_t decimals_bytes,
                          size_t *answer, size_t answer_numbers)
{
    if (answer_numbers < 2)
        return 1;
    if (!base_is_table(form, card, card_numbers, segments, segments_numbers, leaves, leaves_numbers, text, text_bytes))
        return refuse(NO_TABLE, answer);
    if (order == 0 || order > card[2] || segments[(order - 1) * SEGMENT_ROW] != OBR)
        return refuse(NOT_AN_ORDER, answer);
    struct result results[card[2]];
    size_t count = seek_results(order, segments, card[2], leaves, text, results);
    if (numbers_bytes < count || wholes_numbers < count || decimals_bytes < count)
        return refuse(LITTLE_ROOM, answer);
    for (size_t i = 0; i < count; i++) {
        struct value v = result_value(results[i], text);
        numbers[i] = v.number;
        wholes[i] = v.whole;
        decimals[i] = v.decimals;
    }
    answer[0] = 0;
    answer[1] = count;
    return 0;
}
