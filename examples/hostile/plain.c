/* The answers by plain loops over the whole input, each with memory of its own and no thought of speed. */
#include "hostile.h"

#include <stdio.h>
#include <string.h>

enum { CR = 13, FIRST_TEXT = 32, LINE = 219, MOST_DIGITS = 15 };

const char *const kind_names[13] = { "", "H", "P", "AP", "AC", "OBR", "OBX", "FAC", "REG", "ACT", "ERR", "L", "C" };
const char *const context_names[8] = { "", "ADM", "ORM", "ORA", "REG", "ERR", "ORU", "FAC" };

/* ---- the order ---- */

#define KIND(k) (1u << SARGACEU_##k)

static const unsigned follow[8][13] = {
    [SARGACEU_CONTEXT_ADM] = {
        [SARGACEU_H] = KIND(P), [SARGACEU_P] = KIND(P) | KIND(AP) | KIND(L),
        [SARGACEU_AP] = KIND(AC) | KIND(P) | KIND(L), [SARGACEU_AC] = KIND(AC) | KIND(P) | KIND(L) },
    [SARGACEU_CONTEXT_ORM] = {
        [SARGACEU_H] = KIND(P), [SARGACEU_P] = KIND(OBR),
        [SARGACEU_OBR] = KIND(OBX) | KIND(OBR) | KIND(P) | KIND(L), [SARGACEU_OBX] = KIND(OBX) | KIND(OBR) | KIND(P) | KIND(L) },
    [SARGACEU_CONTEXT_ORA] = {
        [SARGACEU_H] = KIND(P), [SARGACEU_P] = KIND(AP), [SARGACEU_AP] = KIND(AC) | KIND(OBR), [SARGACEU_AC] = KIND(AC) | KIND(OBR),
        [SARGACEU_OBR] = KIND(OBX) | KIND(OBR) | KIND(P) | KIND(L), [SARGACEU_OBX] = KIND(OBX) | KIND(OBR) | KIND(P) | KIND(L) },
    [SARGACEU_CONTEXT_REG] = {
        [SARGACEU_H] = KIND(P), [SARGACEU_P] = KIND(REG), [SARGACEU_REG] = KIND(REG) | KIND(P) | KIND(L) },
    [SARGACEU_CONTEXT_ERR] = {
        [SARGACEU_H] = KIND(ERR), [SARGACEU_ERR] = KIND(ERR) | KIND(L) },
    [SARGACEU_CONTEXT_ORU] = {
        [SARGACEU_H] = KIND(P), [SARGACEU_P] = KIND(OBR), [SARGACEU_OBR] = KIND(OBX),
        [SARGACEU_OBX] = KIND(OBX) | KIND(OBR) | KIND(P) | KIND(L) },
    [SARGACEU_CONTEXT_FAC] = {
        [SARGACEU_H] = KIND(P), [SARGACEU_P] = KIND(AP) | KIND(FAC), [SARGACEU_AP] = KIND(AC) | KIND(FAC),
        [SARGACEU_AC] = KIND(AC) | KIND(FAC), [SARGACEU_FAC] = KIND(REG) | KIND(ACT) | KIND(FAC) | KIND(P) | KIND(L),
        [SARGACEU_REG] = KIND(REG) | KIND(ACT) | KIND(FAC) | KIND(P) | KIND(L),
        [SARGACEU_ACT] = KIND(ACT) | KIND(FAC) | KIND(P) | KIND(L) },
};

/* `last` is the last kind, C aside, and 0 before the first. */
unsigned followers(uint8_t context, uint8_t last)
{
    if (context < SARGACEU_CONTEXT_ADM || context > SARGACEU_CONTEXT_FAC || last > SARGACEU_L)
        return 0;
    return last == 0 ? KIND(H) : follow[context][last];
}

bool may_follow(uint8_t context, uint8_t last, uint8_t kind)
{
    if (kind == SARGACEU_C) /* after anything that may stand but L */
        return last != 0 && last != SARGACEU_L && followers(context, last) != 0;
    return kind < SARGACEU_C && (followers(context, last) >> kind & 1) != 0;
}

/* One byte for each number. */
void plain_next_kinds(uint8_t context, uint8_t kind, uint8_t kinds[SARGACEU_NEXT_KINDS])
{
    for (uint8_t next = 0; next < SARGACEU_NEXT_KINDS; next++)
        kinds[next] = may_follow(context, kind, next);
}

/* ---- owners ---- */

/* By context and kind, C aside: the kind whose nearest row owns it; 0 where none does. */
static const uint8_t owner_kinds[8][13] = {
    [SARGACEU_CONTEXT_ADM] = { [SARGACEU_P] = SARGACEU_H, [SARGACEU_AP] = SARGACEU_P, [SARGACEU_AC] = SARGACEU_AP },
    [SARGACEU_CONTEXT_ORM] = { [SARGACEU_P] = SARGACEU_H, [SARGACEU_OBR] = SARGACEU_P, [SARGACEU_OBX] = SARGACEU_OBR },
    [SARGACEU_CONTEXT_ORA] = {
        [SARGACEU_P] = SARGACEU_H, [SARGACEU_AP] = SARGACEU_P, [SARGACEU_AC] = SARGACEU_AP,
        [SARGACEU_OBR] = SARGACEU_P, [SARGACEU_OBX] = SARGACEU_OBR },
    [SARGACEU_CONTEXT_REG] = { [SARGACEU_P] = SARGACEU_H, [SARGACEU_REG] = SARGACEU_P },
    [SARGACEU_CONTEXT_ERR] = { [SARGACEU_ERR] = SARGACEU_H },
    [SARGACEU_CONTEXT_ORU] = { [SARGACEU_P] = SARGACEU_H, [SARGACEU_OBR] = SARGACEU_P, [SARGACEU_OBX] = SARGACEU_OBR },
    [SARGACEU_CONTEXT_FAC] = {
        [SARGACEU_P] = SARGACEU_H, [SARGACEU_AP] = SARGACEU_P, [SARGACEU_AC] = SARGACEU_AP,
        [SARGACEU_FAC] = SARGACEU_P, [SARGACEU_REG] = SARGACEU_FAC, [SARGACEU_ACT] = SARGACEU_FAC },
};

static uint32_t kind_in(const struct table *t, size_t row)
{
    return t->segments[(row - 1) * SARGACEU_SEGMENT_ROW];
}

/* Of a C the nearest row before it that is none. */
size_t plain_owner(const struct table *t, size_t row)
{
    uint32_t kind = kind_in(t, row);
    uint8_t wanted = kind == SARGACEU_C ? 0 : owner_kinds[t->card[CARD_CONTEXT]][kind];
    if (kind != SARGACEU_C && wanted == 0)
        return 0;
    for (size_t before = row - 1; before > 0; before--)
        if (kind == SARGACEU_C ? kind_in(t, before) != SARGACEU_C : kind_in(t, before) == wanted)
            return before;
    return 0;
}

/* The levels that kinds had once, C aside: the last row before a row that has a lower one was its owner. */
static const uint8_t former_levels[8][13] = {
    [SARGACEU_CONTEXT_ADM] = { [SARGACEU_H] = 1, [SARGACEU_P] = 2, [SARGACEU_AP] = 3, [SARGACEU_AC] = 4, [SARGACEU_L] = 1 },
    [SARGACEU_CONTEXT_ORM] = { [SARGACEU_H] = 1, [SARGACEU_P] = 2, [SARGACEU_OBR] = 3, [SARGACEU_OBX] = 4, [SARGACEU_L] = 1 },
    [SARGACEU_CONTEXT_ORA] = {
        [SARGACEU_H] = 1, [SARGACEU_P] = 2, [SARGACEU_AP] = 3, [SARGACEU_AC] = 4, [SARGACEU_OBR] = 5, [SARGACEU_OBX] = 6, [SARGACEU_L] = 1 },
    [SARGACEU_CONTEXT_REG] = { [SARGACEU_H] = 1, [SARGACEU_P] = 2, [SARGACEU_REG] = 3, [SARGACEU_L] = 1 },
    [SARGACEU_CONTEXT_ERR] = { [SARGACEU_H] = 1, [SARGACEU_ERR] = 2, [SARGACEU_L] = 1 },
    [SARGACEU_CONTEXT_ORU] = { [SARGACEU_H] = 1, [SARGACEU_P] = 2, [SARGACEU_OBR] = 3, [SARGACEU_OBX] = 4, [SARGACEU_L] = 1 },
    [SARGACEU_CONTEXT_FAC] = {
        [SARGACEU_H] = 1, [SARGACEU_P] = 2, [SARGACEU_AP] = 3, [SARGACEU_AC] = 4, [SARGACEU_FAC] = 5, [SARGACEU_REG] = 6, [SARGACEU_ACT] = 7,
        [SARGACEU_L] = 1 },
};

size_t plain_former_owner(const struct table *t, size_t row)
{
    const uint8_t *levels = former_levels[t->card[CARD_CONTEXT]];
    uint32_t kind = kind_in(t, row);
    for (size_t before = row - 1; before > 0; before--) {
        uint32_t earlier = kind_in(t, before);
        if (earlier != SARGACEU_C && (kind == SARGACEU_C || levels[earlier] < levels[kind]))
            return before;
    }
    return 0;
}

/* ---- lines ---- */

uint8_t plain_line(const uint8_t *message, size_t bytes, size_t at, size_t answer[2])
{
    answer[0] = answer[1] = at;
    if (at >= bytes)
        return SARGACEU_ACCEPTED;
    if (message[at] < FIRST_TEXT)
        return SARGACEU_CONTROL_BYTE;
    for (size_t i = at; i < bytes; i++) {
        answer[0] = i;
        if (message[i] >= FIRST_TEXT && i - at == LINE)
            return SARGACEU_LONG_LINE;
        if (message[i] >= FIRST_TEXT)
            continue;
        if (message[i] != CR)
            return SARGACEU_CONTROL_BYTE;
        while (i < bytes && message[i] < FIRST_TEXT)
            i++;
        answer[1] = i;
        return SARGACEU_ACCEPTED;
    }
    answer[0] = bytes;
    return SARGACEU_OPEN_LINE;
}

/* Whether the line from one place to another is an addendum. */
static bool is_addendum(const uint8_t *message, size_t at, size_t end)
{
    return end - at >= 2 && message[at] == 'A' && message[at + 1] == message[1];
}

/* ---- where rows and offsets stand ---- */

/* Goes over all lines: each that is no addendum is one row more. */
size_t plain_row_place(const uint8_t *message, size_t bytes, size_t row, size_t *start)
{
    size_t rows = 0, lines = 0, answer[2];
    *start = 0;
    for (size_t at = 0; at < bytes && plain_line(message, bytes, at, answer) == SARGACEU_ACCEPTED; at = answer[1]) {
        bool begins = !is_addendum(message, at, answer[0]);
        rows += begins;
        if (rows == 0 || rows != row)
            continue;
        lines++;
        if (begins)
            *start = at;
    }
    return lines;
}

size_t plain_rows(const uint8_t *message, size_t bytes)
{
    size_t rows = 0, answer[2];
    for (size_t at = 0; at < bytes && plain_line(message, bytes, at, answer) == SARGACEU_ACCEPTED; at = answer[1])
        rows += !is_addendum(message, at, answer[0]);
    return rows;
}

size_t plain_row_at(const uint8_t *message, size_t bytes, size_t at, size_t *next)
{
    size_t lines = 0, answer[2];
    for (*next = at; *next < bytes && plain_line(message, bytes, *next, answer) == SARGACEU_ACCEPTED; *next = answer[1], lines++)
        if (lines > 0 && !is_addendum(message, *next, answer[0]))
            break;
    return lines;
}

/* The column from the last CR before the offset, the line from all of them. */
size_t plain_position(const uint8_t *message, size_t bytes, size_t offset, size_t *column)
{
    size_t end = offset < bytes ? offset : bytes, start = end, line = 1;
    while (start > 0 && message[start - 1] != CR)
        start--;
    for (size_t i = 0; i < start; i++)
        line += message[i] == CR;
    *column = end - start + 1;
    return line;
}

/* ---- reading, up to the number and the place ---- */

static uint8_t joined[SARGACEU_LARGE_MESSAGE];
static size_t starts[SARGACEU_LARGE_MESSAGE + 1], segments; /* segment n lies from starts[n] to its CR at starts[n + 1] - 1 */

static bool header(const uint8_t *message, size_t bytes)
{
    if (bytes < 7 || message[0] != 'H' || message[6] != message[1])
        return false;
    for (int i = 1; i <= 5; i++) {
        uint8_t b = message[i];
        if (b < 33 || b > 126 || (b >= '0' && b <= '9') || (b >= 'A' && b <= 'Z') || (b >= 'a' && b <= 'z'))
            return false;
        if (memchr(message + 1, b, (size_t)i - 1) != NULL)
            return false;
    }
    return true;
}

/* Joins the lines into segments, or says the first fault. */
static struct outcome join(const uint8_t *message, size_t bytes)
{
    size_t at = 0, length = 0, answer[2];
    segments = 0;
    while (at < bytes) {
        uint8_t number = plain_line(message, bytes, at, answer);
        if (number != SARGACEU_ACCEPTED)
            return (struct outcome){ number, answer[0] };
        if (is_addendum(message, at, answer[0])) {
            at += 2;
            length--; /* over the CR of the segment that goes on */
        } else {
            starts[segments++] = length;
        }
        memcpy(joined + length, message + at, answer[0] - at);
        length += answer[0] - at;
        joined[length++] = CR;
        starts[segments] = length;
        at = answer[1];
    }
    return (struct outcome){ SARGACEU_ACCEPTED, 0 };
}

const uint8_t *plain_joined(size_t *bytes)
{
    *bytes = starts[segments];
    return joined;
}

static size_t until(const uint8_t *from, const uint8_t *end, uint8_t byte)
{
    const uint8_t *at = memchr(from, byte, (size_t)(end - from));
    return (size_t)((at == NULL ? end : at) - from);
}

static uint8_t number_of(const char *const *names, size_t count, const uint8_t *name, size_t bytes)
{
    for (size_t i = 1; i < count; i++)
        if (strlen(names[i]) == bytes && memcmp(names[i], name, bytes) == 0)
            return (uint8_t)i;
    return 0;
}

static uint8_t kind_of(size_t segment)
{
    const uint8_t *from = joined + starts[segment], *end = joined + starts[segment + 1] - 1;
    return number_of(kind_names, 13, from, until(from, end, joined[1]));
}

static uint8_t context_of(void)
{
    const uint8_t *from = joined + 7, *end = joined + starts[1] - 1;
    for (int field = 3; field < 7; field++) {
        from += until(from, end, joined[1]);
        if (from == end)
            return 0;
        from++;
    }
    return number_of(context_names, 8, from, until(from, end, joined[1]));
}

/* Field 4, and of that up to the first byte that splits it. */
size_t plain_code_carried(size_t row, const uint8_t **code)
{
    const uint8_t *from = joined + starts[row - 1], *end = joined + starts[row] - 1;
    *code = end;
    if (kind_of(row - 1) != SARGACEU_OBX)
        return 0;
    for (int field = 1; field < 4; field++) {
        from += until(from, end, joined[1]);
        if (from == end)
            return 0;
        from++;
    }
    *code = from;
    static const int splits[4] = { 1, 2, 3, 5 };
    for (int i = 0; i < 4; i++)
        end = from + until(from, end, joined[splits[i]]);
    return (size_t)(end - from);
}

size_t plain_kinds(uint8_t *kinds, size_t room, uint8_t *context)
{
    *context = context_of();
    for (size_t i = 0; i < segments && i < room; i++)
        kinds[i] = kind_of(i);
    return segments;
}

/* The row where the order breaks, or 0. */
static size_t misplaced(void)
{
    uint8_t context = context_of(), last = 0;
    for (size_t i = 0; i < segments; i++) {
        uint8_t kind = kind_of(i);
        if (!may_follow(context, last, kind))
            return i + 1;
        if (kind != SARGACEU_C)
            last = kind;
    }
    return last == SARGACEU_L ? 0 : segments + 1;
}

/* The header is three leaves up to its seventh byte: H, the separators, and field 3, which begins there. */
static size_t leaves(void)
{
    size_t count = segments + 2;
    for (size_t i = 7; i < starts[segments]; i++)
        if (joined[i] == joined[1] || joined[i] == joined[2] || joined[i] == joined[3] || joined[i] == joined[5])
            count++;
    return count;
}

struct outcome plain_outcome(uint8_t form, const uint8_t *message, size_t bytes)
{
    const struct sizes *sizes = sizes_of(form);
    if (bytes > sizes->message)
        return (struct outcome){ SARGACEU_LONG_MESSAGE, 0 };
    if (!header(message, bytes))
        return (struct outcome){ SARGACEU_BROKEN_HEADER, 0 };
    struct outcome lines = join(message, bytes);
    if (lines.number != SARGACEU_ACCEPTED)
        return lines;
    if (segments > sizes->segment_rows)
        return (struct outcome){ SARGACEU_MANY_SEGMENTS, 0 };
    for (size_t i = 0; i < segments; i++)
        if (kind_of(i) == 0)
            return (struct outcome){ SARGACEU_UNKNOWN_KIND, i + 1 };
    if (context_of() == 0)
        return (struct outcome){ SARGACEU_NO_CONTEXT, 0 };
    if (misplaced() != 0)
        return (struct outcome){ SARGACEU_MISPLACED, misplaced() };
    if (leaves() > sizes->leaf_rows)
        return (struct outcome){ SARGACEU_MANY_LEAVES, 0 };
    return (struct outcome){ SARGACEU_ACCEPTED, 0 };
}

/* ---- the lookups ---- */

/* The card that counts: of numbers that are no card the one that counts nothing. */
static void card_of(const struct table *t, size_t card[SARGACEU_CARD])
{
    bool none = t->card_numbers < SARGACEU_CARD || t->card[CARD_SEPARATOR] > 255 || t->card[CARD_CONTEXT] > 255;
    for (int i = 0; i < SARGACEU_CARD; i++)
        card[i] = none ? 0 : t->card[i];
}

static bool counts_fit(const struct table *t, const size_t card[SARGACEU_CARD])
{
    return card[CARD_SEGMENTS] <= t->segments_numbers / SARGACEU_SEGMENT_ROW &&
           card[CARD_LEAVES] <= t->leaves_numbers / SARGACEU_LEAF_ROW && card[CARD_TEXT] <= t->text_bytes;
}

/* What a leaf row alone says of a place. */
static uint8_t sought_in_row(const uint32_t *row, const uint32_t place[5], size_t text, size_t answer[2])
{
    if (memcmp(row, place, 5 * sizeof *row) != 0 || (size_t)row[5] + row[6] > text)
        return SARGACEU_NOT_THERE;
    answer[0] = row[6] == 0 ? 0 : row[5];
    answer[1] = row[6];
    return row[6] == 0 ? SARGACEU_FOUND_EMPTY : SARGACEU_FOUND;
}

uint8_t plain_find_leaf(const struct table *t, const uint32_t place[5], size_t answer[2])
{
    size_t card[SARGACEU_CARD];
    uint8_t sought = SARGACEU_NOT_THERE;
    card_of(t, card);
    if (!counts_fit(t, card))
        return SARGACEU_NOT_THERE;
    for (size_t i = 0; i < card[CARD_LEAVES] && sought == SARGACEU_NOT_THERE; i++)
        sought = sought_in_row(t->leaves + i * SARGACEU_LEAF_ROW, place, card[CARD_TEXT], answer);
    return sought;
}

/* Over all counted leaves by their numbers, from 1: those that the segment row does not name are passed over. */
uint8_t plain_find_leaf_in_segment(const struct table *t, const uint32_t place[5], size_t answer[2])
{
    size_t card[SARGACEU_CARD];
    uint8_t sought = SARGACEU_NOT_THERE;
    card_of(t, card);
    if (!counts_fit(t, card) || place[0] == 0 || place[0] > card[CARD_SEGMENTS])
        return SARGACEU_NOT_THERE;
    const uint32_t *segment = t->segments + (size_t)(place[0] - 1) * SARGACEU_SEGMENT_ROW;
    for (size_t leaf = 1; leaf <= card[CARD_LEAVES] && sought == SARGACEU_NOT_THERE; leaf++)
        if (segment[2] != 0 && leaf >= segment[2] && leaf - segment[2] < segment[3])
            sought = sought_in_row(t->leaves + (leaf - 1) * SARGACEU_LEAF_ROW, place, card[CARD_TEXT], answer);
    return sought;
}

size_t plain_next_row(const struct table *t, size_t after, uint32_t kind, uint32_t owner)
{
    size_t card[SARGACEU_CARD];
    card_of(t, card);
    if (card[CARD_SEGMENTS] > t->segments_numbers / SARGACEU_SEGMENT_ROW)
        return 0;
    for (size_t i = 0; i < card[CARD_SEGMENTS]; i++)
        if (i + 1 > after && t->segments[i * SARGACEU_SEGMENT_ROW] == kind && t->segments[i * SARGACEU_SEGMENT_ROW + 1] == owner)
            return i + 1;
    return 0;
}

/* An order's number that is there and empty names no order. */
static bool order_number(const struct table *t, uint32_t row, size_t answer[2])
{
    const uint32_t place[5] = { row, 4, 1, 2, 1 };
    size_t card[SARGACEU_CARD];
    card_of(t, card);
    return row != 0 && row <= card[CARD_SEGMENTS] && plain_find_leaf(t, place, answer) == SARGACEU_FOUND &&
           t->segments[(size_t)(row - 1) * SARGACEU_SEGMENT_ROW] == SARGACEU_OBR;
}

bool plain_same_order(const struct table *a, uint32_t row, const struct table *b, uint32_t other_row)
{
    size_t one[2], other[2];
    return order_number(a, row, one) && order_number(b, other_row, other) && one[1] == other[1] &&
           memcmp(a->text + one[0], b->text + other[0], one[1]) == 0;
}

/* ---- numeric results ---- */

static size_t count_bytes(const uint8_t *text, size_t bytes, uint8_t from, uint8_t to)
{
    size_t count = 0;
    for (size_t i = 0; i < bytes; i++)
        count += text[i] >= from && text[i] <= to;
    return count;
}

/* Behind the sign nothing stands but digits and a point at most, and the last byte is a digit. */
struct value plain_read_value(const uint8_t *text, size_t bytes)
{
    const struct value none = { SARGACEU_NOT_A_NUMBER, 0, 0 }, many = { SARGACEU_MANY_DIGITS, 0, 0 };
    bool negative = bytes > 0 && text[0] == '-';
    if (bytes > 0 && (text[0] == '-' || text[0] == '+'))
        text++, bytes--;
    size_t digits = count_bytes(text, bytes, '0', '9'), points = count_bytes(text, bytes, '.', '.');
    if (points > 1 || digits + points != bytes || bytes == 0 || text[bytes - 1] == '.')
        return none;
    if (digits > MOST_DIGITS)
        return many;
    struct value value = { SARGACEU_ACCEPTED, 0, 0 };
    for (size_t i = 0; i < bytes; i++)
        if (text[i] != '.')
            value.whole = 10 * value.whole + (text[i] - '0');
        else
            value.decimals = (uint8_t)(bytes - i - 1);
    if (negative)
        value.whole = -value.whole;
    return value;
}

/* The digits, with zeros in front where they are fewer than the decimals, and the point put among them. */
size_t plain_write_value(int64_t whole, size_t decimals, uint8_t text[SARGACEU_VALUE_TEXT])
{
    char digits[32];
    uint64_t magnitude = whole < 0 ? -(uint64_t)whole : (uint64_t)whole;
    if (decimals > MOST_DIGITS)
        return 0;
    size_t count = (size_t)snprintf(digits, sizeof digits, "%0*llu", decimals == 0 ? 1 : (int)decimals, (unsigned long long)magnitude);
    size_t front = count - decimals, bytes = 0;
    if (count > MOST_DIGITS)
        return 0;
    if (whole < 0)
        text[bytes++] = '-';
    memcpy(text + bytes, digits, front);
    bytes += front;
    if (decimals > 0)
        text[bytes++] = '.';
    memcpy(text + bytes, digits + front, decimals);
    return bytes + decimals;
}

bool plain_is_order(const struct table *t, uint32_t row)
{
    size_t card[SARGACEU_CARD];
    card_of(t, card);
    return row != 0 && row <= card[CARD_SEGMENTS] && t->segments[(size_t)(row - 1) * SARGACEU_SEGMENT_ROW] == SARGACEU_OBR;
}

/* Over all leaves of the table: the value is that of the only one of field 10.6. */
static struct value result_value(const struct table *t, size_t row)
{
    const uint32_t *only = NULL;
    size_t found = 0;
    for (size_t i = 0; i < t->card[CARD_LEAVES]; i++) {
        const uint32_t *leaf = t->leaves + i * SARGACEU_LEAF_ROW;
        if (leaf[0] == row && leaf[1] == 6) {
            only = leaf;
            found++;
        }
    }
    return found == 1 ? plain_read_value(t->text + only[5], only[6]) : plain_read_value(NULL, 0);
}

size_t plain_order_values(const struct table *t, uint32_t order, struct value values[SARGACEU_LARGE_VALUES])
{
    size_t count = 0, type[2];
    for (size_t row = 1; row <= t->card[CARD_SEGMENTS]; row++) {
        const uint32_t *segment = t->segments + (row - 1) * SARGACEU_SEGMENT_ROW, place[5] = { (uint32_t)row, 3, 1, 1, 1 };
        if (segment[0] == SARGACEU_OBX && segment[1] == order && plain_find_leaf(t, place, type) == SARGACEU_FOUND && type[1] == 2 &&
            memcmp(t->text + type[0], "NM", 2) == 0)
            values[count++] = result_value(t, row);
    }
    return count;
}

/* ---- the screening check ---- */

/* How many bytes the leaf of a name has, in which repetition and sub-subfield are 1, and where they stand; none where it is not there or empty. */
static size_t leaf_text(const struct table *t, size_t row, uint32_t field, uint32_t subfield, const uint8_t **text)
{
    const uint32_t place[5] = { (uint32_t)row, field, 1, subfield, 1 };
    size_t found[2] = { 0, 0 };
    plain_find_leaf(t, place, found);
    *text = t->text + found[0];
    return found[1];
}

static bool leaf_is(const struct table *t, size_t row, uint32_t field, uint32_t subfield, const char *expected)
{
    const uint8_t *text;
    return leaf_text(t, row, field, subfield, &text) == strlen(expected) && memcmp(text, expected, strlen(expected)) == 0;
}

/* Whether the value (10.6.1) is one of these letters. */
static bool value_among(const struct table *t, size_t row, const char *letters)
{
    const uint8_t *text;
    return leaf_text(t, row, 6, 1, &text) == 1 && memchr(letters, text[0], strlen(letters)) != NULL;
}

/* How many results have a code, from a patient's row up to the next patient. */
static size_t count_code(const struct table *t, size_t patient, const char *code)
{
    size_t count = 0;
    for (size_t row = patient + 1; row <= t->card[CARD_SEGMENTS] && kind_in(t, row) != SARGACEU_P; row++)
        count += kind_in(t, row) == SARGACEU_OBX && leaf_is(t, row, 4, 1, code);
    return count;
}

/* The fields that must be there, and the codes that each patient has once, by the number of their rule. */
static const struct {
    uint32_t kind, field, subfield;
} needed_fields[] = {
    [SARGACEU_NO_NAME] = { SARGACEU_P, 6, 1 },
    [SARGACEU_NO_FIRST_NAME] = { SARGACEU_P, 6, 2 },
    [SARGACEU_NO_BIRTH_NAME] = { SARGACEU_P, 7, 1 },
    [SARGACEU_NO_TELEPHONE] = { SARGACEU_P, 13, 1 },
    [SARGACEU_NO_POSTAL_CODE] = { SARGACEU_P, 11, 5 },
    [SARGACEU_NO_ORDER_NUMBER] = { SARGACEU_OBR, 4, 2 },
    [SARGACEU_NO_SAMPLE_TIME] = { SARGACEU_OBR, 8, 1 },
    [SARGACEU_NO_LABORATORY] = { SARGACEU_H, 5, 1 },
};

static const char *const needed_codes[] = {
    [SARGACEU_NOT_ONE_PAYS] = "PAYS",
    [SARGACEU_NOT_ONE_TYPOR] = "TYPOR",
    [SARGACEU_NOT_ONE_PROSS] = "PROSS",
    [SARGACEU_NOT_ONE_FINGE] = "FINGE",
};

static bool breaks_rule(const struct table *t, size_t row, uint8_t rule)
{
    const uint8_t *text;
    uint32_t kind = kind_in(t, row);
    if (rule <= SARGACEU_NO_LABORATORY)
        return kind == needed_fields[rule].kind && leaf_text(t, row, needed_fields[rule].field, needed_fields[rule].subfield, &text) == 0;
    if (rule <= SARGACEU_NOT_ONE_FINGE)
        return kind == SARGACEU_P && count_code(t, row, needed_codes[rule]) != 1;
    if (kind != SARGACEU_OBX)
        return false;
    if (rule == SARGACEU_WRONG_TYPOR)
        return leaf_is(t, row, 4, 1, "TYPOR") && !value_among(t, row, "IHECAU");
    if (rule == SARGACEU_WRONG_PROSS)
        return leaf_is(t, row, 4, 1, "PROSS") && !value_among(t, row, "ONU");
    return leaf_is(t, row, 3, 1, "CE") && (leaf_is(t, row, 4, 3, "LN") || leaf_is(t, row, 4, 6, "LN")) && !value_among(t, row, "PNIX");
}

/* Rule by rule, and for each of them row by row. */
struct outcome plain_screen(const struct table *t)
{
    if (t->card[CARD_CONTEXT] != SARGACEU_CONTEXT_ORU)
        return (struct outcome){ SARGACEU_NOT_A_REPORT, 0 };
    for (uint8_t rule = SARGACEU_NO_NAME; rule <= SARGACEU_WRONG_RESULT; rule++)
        for (size_t row = 1; row <= t->card[CARD_SEGMENTS]; row++)
            if (breaks_rule(t, row, rule))
                return (struct outcome){ rule, row };
    return (struct outcome){ SARGACEU_ACCEPTED, 0 };
}
