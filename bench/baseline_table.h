/*
 * What the baseline's files share: the limits, the header rule, the order of the segments, and the test that tells whether some message reads to a
 * table. Each file that includes it has a compiled copy of its own, so what one of them does with it costs the others nothing.
 */
#ifndef BASELINE_TABLE_H
#define BASELINE_TABLE_H

#include <stdbool.h>
#include <stddef.h>
#include <stdint.h>
#include <string.h>

/* ---- limits, bytes and names ---- */

/* The two forms differ in these alone, which a call looks up once; any number but the large form's is the small one's. */
struct form { uint32_t segments, leaves, bytes; };

enum { MOST_SEGMENTS = 4096 };
static const struct form forms[2] = { { 256, 2048, 16384 }, { MOST_SEGMENTS, 65536, 1048576 } };

static inline struct form form_of(uint8_t number)
{
    return forms[number == 1];
}

enum { LINE = 219, MORE = 217 };
enum { SEGMENT_ROW = 4, LEAF_ROW = 7 };
enum { CR = 13, SPACE = 32 };
enum { H = 1, P, AP, AC, OBR, OBX, FAC, REG, ACT, ERR, L, C };

/* What a byte is: one look tells text from the separators that split, the coarsest first, and from the bytes below 32. */
enum { TEXT, FIELD, REPEATER, SUBFIELD, SUBSUBFIELD, LOW };

struct separators { uint8_t field, subfield, repeater, escape, subsubfield; };

static void set_classes(uint8_t class[256], struct separators s)
{
    memset(class, LOW, SPACE);
    memset(class + SPACE, TEXT, 256 - SPACE);
    class[s.field] = FIELD;
    class[s.repeater] = REPEATER;
    class[s.subfield] = SUBFIELD;
    class[s.subsubfield] = SUBSUBFIELD;
}

static bool may_separate(uint8_t b)
{
    uint8_t letter = (b | 32) - 'a', digit = b - '0';
    return b > 32 && b < 127 && letter > 25 && digit > 9;
}

/* The header rule. */
static bool sound(struct separators s)
{
    return may_separate(s.field) && may_separate(s.subfield) && may_separate(s.repeater) && may_separate(s.escape)
        && may_separate(s.subsubfield)
        && s.field != s.subfield && s.field != s.repeater && s.field != s.escape && s.field != s.subsubfield
        && s.subfield != s.repeater && s.subfield != s.escape && s.subfield != s.subsubfield
        && s.repeater != s.escape && s.repeater != s.subsubfield && s.escape != s.subsubfield;
}

/* A name is its letters in one number, the last one lowest. No text has a byte 0, so two names of different lengths differ too. */
#define NAME2(a, b) ((uint32_t)(a) << 8 | (b))
#define NAME3(a, b, c) (NAME2(a, b) << 8 | (c))

static uint8_t kind_named(uint32_t name)
{
    switch (name) {
    case 'H': return H;
    case 'P': return P;
    case NAME2('A', 'P'): return AP;
    case NAME2('A', 'C'): return AC;
    case NAME3('O', 'B', 'R'): return OBR;
    case NAME3('O', 'B', 'X'): return OBX;
    case NAME3('F', 'A', 'C'): return FAC;
    case NAME3('R', 'E', 'G'): return REG;
    case NAME3('A', 'C', 'T'): return ACT;
    case NAME3('E', 'R', 'R'): return ERR;
    case 'L': return L;
    case 'C': return C;
    default: return 0;
    }
}

static uint8_t context_named(uint32_t name)
{
    switch (name) {
    case NAME3('A', 'D', 'M'): return 1;
    case NAME3('O', 'R', 'M'): return 2;
    case NAME3('O', 'R', 'A'): return 3;
    case NAME3('R', 'E', 'G'): return 4;
    case NAME3('E', 'R', 'R'): return 5;
    case NAME3('O', 'R', 'U'): return 6;
    case NAME3('F', 'A', 'C'): return 7;
    default: return 0;
    }
}

/* By context and kind: the kinds that may come next, a bit each; C aside. */
#define K(kind) (1u << (kind))
static const uint16_t followers[8][12] = {
    [1] = { [H] = K(P), [P] = K(P) | K(AP) | K(L), [AP] = K(P) | K(AC) | K(L), [AC] = K(P) | K(AC) | K(L) },
    [2] = { [H] = K(P), [P] = K(OBR), [OBR] = K(P) | K(OBR) | K(OBX) | K(L), [OBX] = K(P) | K(OBR) | K(OBX) | K(L) },
    [3] = { [H] = K(P), [P] = K(AP), [AP] = K(AC) | K(OBR), [AC] = K(AC) | K(OBR), [OBR] = K(P) | K(OBR) | K(OBX) | K(L),
            [OBX] = K(P) | K(OBR) | K(OBX) | K(L) },
    [4] = { [H] = K(P), [P] = K(REG), [REG] = K(P) | K(REG) | K(L) },
    [5] = { [H] = K(ERR), [ERR] = K(ERR) | K(L) },
    [6] = { [H] = K(P), [P] = K(OBR), [OBR] = K(OBX), [OBX] = K(P) | K(OBR) | K(OBX) | K(L) },
    [7] = { [H] = K(P), [P] = K(AP) | K(FAC), [AP] = K(AC) | K(FAC), [AC] = K(AC) | K(FAC),
            [FAC] = K(P) | K(FAC) | K(REG) | K(ACT) | K(L), [REG] = K(P) | K(FAC) | K(REG) | K(ACT) | K(L),
            [ACT] = K(P) | K(FAC) | K(ACT) | K(L) },
};

static const uint8_t levels[8][12] = {
    [1] = { [H] = 1, [L] = 1, [P] = 2, [AP] = 3, [AC] = 4 },
    [2] = { [H] = 1, [L] = 1, [P] = 2, [OBR] = 3, [OBX] = 4 },
    [3] = { [H] = 1, [L] = 1, [P] = 2, [AP] = 3, [AC] = 4, [OBR] = 3, [OBX] = 4 },
    [4] = { [H] = 1, [L] = 1, [P] = 2, [REG] = 3 },
    [5] = { [H] = 1, [L] = 1, [ERR] = 2 },
    [6] = { [H] = 1, [L] = 1, [P] = 2, [OBR] = 3, [OBX] = 4 },
    [7] = { [H] = 1, [L] = 1, [P] = 2, [AP] = 3, [AC] = 4, [FAC] = 3, [REG] = 4, [ACT] = 4 },
};

/*
 * The first of these kinds that may not stand there, from 1; one past them where the L is missing; 0 where all is well. The first kind
 * is an H.
 */
static size_t misplaced(uint8_t context, const uint8_t *kinds, size_t many)
{
    uint8_t last = H;
    for (size_t i = 1; i < many; i++) {
        uint8_t kind = kinds[i];
        if (kind == C) {
            if (last == L)
                return i + 1;
        } else {
            if (!(followers[context][last] >> kind & 1))
                return i + 1;
            last = kind;
        }
    }
    return last == L ? 0 : many + 1;
}

/*
 * The owner of a row of this kind, by the row before it, C aside, or 0: whoever stands between that row and its owner is no lower in
 * level than the row itself, so the way up leads over owners alone.
 */
static unsigned owner_of(const uint8_t *level, const uint8_t *kinds, const uint32_t *segments, unsigned before, uint8_t kind)
{
    if (kind == C)
        return before;
    while (before && level[kinds[before - 1]] >= level[kind])
        before = segments[(before - 1) * SEGMENT_ROW + 1];
    return before;
}

/* ---- the table test ---- */

struct table {
    size_t most; /* the bytes that a message of the form may have */
    uint8_t context;
    size_t many, count, bytes; /* segments, leaves, bytes of text */
    const uint32_t *segments, *leaves;
    const uint8_t *text;
    struct separators separators;
};

/* No message has a split field 1, so what follows a first leaf there is field 2; else every kind of step is sound. */
static inline bool comes_next(const uint32_t *row, const uint32_t *next)
{
    if (next[1] != row[1])
        return next[1] == row[1] + 1 && next[2] == 1 && next[3] == 1 && next[4] == 1;
    if (row[1] == 1)
        return false;
    if (next[2] != row[2])
        return next[2] == row[2] + 1 && next[3] == 1 && next[4] == 1;
    if (next[3] != row[3])
        return next[3] == row[3] + 1 && next[4] == 1;
    return next[4] == row[4] + 1;
}

/*
 * Whether so many leaf rows from `row` on are all of this segment's leaves, their texts end to end from `start` on; answers the end of
 * the last, or `none` where not. Numbers that run on from 1 stay far below what 32 bits hold, so no number here wraps.
 */
static const size_t none = (size_t)-1;

static size_t leaves_end(const uint32_t *row, size_t count, unsigned segment, size_t start, size_t bytes)
{
    const uint32_t *last = row + (count - 1) * LEAF_ROW;
    if (row[1] != 1 || row[2] != 1 || row[3] != 1 || row[4] != 1)
        return none;
    for (;; row += LEAF_ROW) {
        if (row[0] != segment || row[5] != start)
            return none;
        start += row[6];
        if (start > bytes)
            return none;
        if (row == last)
            return start;
        if (!comes_next(row, row + LEAF_ROW))
            return none;
    }
}

/* The name that a leaf is; longer ones are none. */
static uint32_t name_of(const uint32_t *row, const uint8_t *text)
{
    const uint8_t *p = text + row[5];
    switch (row[6]) {
    case 1: return p[0];
    case 2: return NAME2(p[0], p[1]);
    case 3: return NAME3(p[0], p[1], p[2]);
    default: return 0;
    }
}

/* The context that field 7 of the first segment names; 0 where it is missing, split or no name. */
static uint8_t stated_context(const uint32_t *row, size_t count, const uint8_t *text)
{
    const uint32_t *end = row + count * LEAF_ROW;
    while (row < end && row[1] != 7)
        row += LEAF_ROW;
    if (row == end || (row + LEAF_ROW < end && row[LEAF_ROW + 1] == 7))
        return 0;
    return context_named(name_of(row, text));
}

/* The bytes that a segment of so many takes in lines: a CR for each, `A` and separator for each but the first. */
static size_t in_lines(size_t bytes)
{
    return bytes <= LINE ? bytes + 1 : bytes + 1 + (bytes - LINE + MORE - 1) / MORE * 3;
}

/* Whether the segment rows and the leaf rows agree, within the form's bytes; the kinds are taken down. */
static bool rows_agree(const struct table *t, uint8_t *kinds)
{
    size_t first = 0, start = 0, written = 0;
    for (size_t i = 0; i < t->many; i++) {
        const uint32_t *segment = t->segments + i * SEGMENT_ROW, *row = t->leaves + first * LEAF_ROW;
        size_t count = segment[3];
        if (segment[2] != first + 1 || count == 0 || count > t->count - first)
            return false;
        size_t end = leaves_end(row, count, i + 1, start, t->bytes);
        if (end == none)
            return false;
        kinds[i] = kind_named(name_of(row, t->text));
        if (kinds[i] == 0 || segment[0] != kinds[i])
            return false;
        written += in_lines(end - start + count - 1);
        start = end;
        first += count;
    }
    return first == t->count && start == t->bytes && written <= t->most;
}

static bool owners_agree(const struct table *t, const uint8_t *kinds)
{
    const uint8_t *level = levels[t->context];
    unsigned before = 0;
    for (unsigned i = 0; i < t->many; i++) {
        if (t->segments[i * SEGMENT_ROW + 1] != owner_of(level, kinds, t->segments, before, kinds[i]))
            return false;
        if (kinds[i] != C)
            before = i + 1;
    }
    return true;
}

/* Once the texts lie end to end, all of them but the four bytes of the header are judged in one go. */
static bool is_plain(struct separators s, const uint8_t *p, const uint8_t *end)
{
    uint8_t class[256];
    set_classes(class, s);
    for (; p < end; p++)
        if (class[*p] != TEXT)
            return false;
    return true;
}

/* The first leaf is `H`, the second the four bytes of a sound header, and both are fields of one leaf. */
static bool header_sound(struct table *t, uint8_t field)
{
    const uint32_t *row = t->leaves;
    const uint8_t *p = t->text;
    if (t->count < 3 || t->bytes < 5 || p[0] != 'H' || row[6] != 1 || row[LEAF_ROW + 6] != 4)
        return false;
    if (row[LEAF_ROW + 1] != 2 || row[2 * LEAF_ROW + 1] != 3)
        return false;
    t->separators = (struct separators){ field, p[1], p[2], p[3], p[4] };
    return sound(t->separators);
}

/* Whether some message reads to this table: whether the reader would give it for what the writer would write. */
static bool is_table(struct table *t, uint8_t field)
{
    if (t->many == 0 || t->context == 0 || t->context > 7 || !header_sound(t, field))
        return false;
    uint8_t kinds[t->many];
    return rows_agree(t, kinds)
        && kinds[0] == H
        && is_plain(t->separators, t->text + 5, t->text + t->bytes)
        && stated_context(t->leaves, t->segments[3], t->text) == t->context
        && misplaced(t->context, kinds, t->many) == 0
        && owners_agree(t, kinds);
}

/* Whether a card counts no more than the form allows and the buffers hold. */
static inline bool is_lent_card(struct form form, const size_t *card, size_t card_numbers,
                                size_t segments_numbers, size_t leaves_numbers, size_t text_bytes)
{
    return card_numbers >= 5 && card[0] <= 255 && card[1] <= 255
        && card[2] <= form.segments && card[3] <= form.leaves && card[4] <= form.bytes
        && card[2] * SEGMENT_ROW <= segments_numbers && card[3] * LEAF_ROW <= leaves_numbers && card[4] <= text_bytes;
}

/* Whether some message reads to what a caller lends: the card is held to the form and to the buffers first. */
static inline bool is_lent_table(uint8_t number, const size_t *card, size_t card_numbers,
                                 const uint32_t *segments, size_t segments_numbers,
                                 const uint32_t *leaves, size_t leaves_numbers,
                                 const uint8_t *text, size_t text_bytes)
{
    struct form form = form_of(number);
    if (!is_lent_card(form, card, card_numbers, segments_numbers, leaves_numbers, text_bytes))
        return false;
    struct table t = { form.bytes, card[1], card[2], card[3], card[4], segments, leaves, text, { 0 } };
    return is_table(&t, card[0]);
}

#endif
