/* Texts of numbers and whole numbers, at their limits mostly. */
#include "hostile.h"

#include <string.h>

enum { DIGITS = 15, DIGITS_DRAWN = 20 };

/* So many digits; zeros in front, or nothing but zeros, now and then. */
static size_t put_digits(uint8_t *to, size_t count)
{
    size_t zeros = one_in(4) ? below(count + 1) : 0;
    for (size_t i = 0; i < count; i++)
        to[i] = (uint8_t)('0' + (i < zeros ? 0 : below(10)));
    return count;
}

/* How many digits: some few mostly, else about as many as there may be, which the point may part anywhere. */
static void draw_counts(size_t *front, size_t *behind)
{
    *front = below(5);
    *behind = below(4);
    if (one_in(4)) {
        size_t all = DIGITS - 1 + below(4);
        *behind = one_in(3) ? 0 : below(all + 1);
        *front = all - *behind;
    }
}

/* A byte that is no part of a number, or one where it may not stand. */
static size_t spoil(uint8_t *text, size_t bytes)
{
    static const char odd[] = " ,.+-<>=eEx/:;09";
    size_t at = below(bytes + 1);
    uint8_t byte = (uint8_t)(one_in(4) ? 32 + below(224) : (size_t)odd[below(sizeof odd - 1)]);
    if (at < bytes && one_in(2)) {
        text[at] = byte;
        return bytes;
    }
    memmove(text + at + 1, text + at, bytes - at);
    text[at] = byte;
    return bytes + 1;
}

size_t draw_numeral(uint8_t *to)
{
    size_t bytes = 0, front, behind;
    draw_counts(&front, &behind);
    if (one_in(3))
        to[bytes++] = one_in(3) ? '+' : '-';
    bytes += put_digits(to + bytes, front);
    if (behind > 0 || one_in(8)) {
        to[bytes++] = '.';
        bytes += put_digits(to + bytes, behind);
    }
    return one_in(5) ? spoil(to, bytes) : bytes;
}

int64_t draw_whole(void)
{
    uint64_t magnitude = 1;
    for (size_t digits = below(DIGITS_DRAWN); digits > 0; digits--)
        magnitude *= 10;
    switch (below(4)) {
    case 0: magnitude += below(3) - 1; break;   /* about a power of ten */
    case 1: magnitude = below(magnitude); break;
    case 2: magnitude = chance() >> below(64); break;
    default: magnitude = below(1000);
    }
    if (one_in(40))
        magnitude = (uint64_t)INT64_MAX + below(3); /* the greatest and the least whole number, and one beside them */
    return (int64_t)(one_in(2) ? magnitude : 0 - magnitude);
}
