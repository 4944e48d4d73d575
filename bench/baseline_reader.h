/*
 * What the reader and the reader with an index share: a survey of the message that decides every refusal, then one pass that fills the buffers. Each
 * of the two files has a compiled copy of its own, so what the index needs costs the reader nothing.
 */
#ifndef BASELINE_READER_H
#define BASELINE_READER_H

#include "baseline_table.h"

/* ---- the reader's first pass ---- */

/* The letters of one field as far as they have come, since a name may be cut by lines. */
struct name {
    uint32_t letters;
    unsigned left; /* field separators up to the field's end: 1 in the field itself, 0 once nothing more can matter */
};

static struct name gather(struct name name, uint8_t field, const uint8_t *p, const uint8_t *end)
{
    for (; name.left && p < end; p++) {
        if (*p == field) {
            name.left--;
        } else if (name.left == 1) {
            name.letters = name.letters << 8 | *p;
            if (name.letters >> 24) /* four letters: no name has so many */
                name.left = 0;
        }
    }
    return name;
}

struct survey {
    size_t segments, separators;
    uint8_t context;
    uint8_t kinds[MOST_SEGMENTS]; /* nothing is touched past the form's segments */
};

struct verdict { uint8_t number; size_t place; };

static struct verdict verdict(uint8_t number, size_t place)
{
    return (struct verdict){ number, place };
}

/* Where the text of a line ends, at most at `stop`; the separators on the way are counted. */
static const uint8_t *scan(const uint8_t *class, const uint8_t *p, const uint8_t *stop, size_t *separators)
{
    for (; p < stop; p++) {
        if (class[*p] == TEXT)
            continue;
        if (class[*p] == LOW)
            break;
        ++*separators;
    }
    return p;
}

static const uint8_t *skip_low(const uint8_t *p, const uint8_t *end)
{
    while (p < end && *p < SPACE)
        p++;
    return p;
}

static bool is_addendum(const uint8_t *line, const uint8_t *end, uint8_t field)
{
    return line[0] == 'A' && end - line > 1 && line[1] == field;
}

/*
 * Every line is judged, separators and segments are counted, kinds and the context are taken down; and where `starts` are asked for, where each
 * segment behind the first begins.
 */
static inline struct verdict survey(const uint8_t *class, uint8_t field, const uint8_t *message, size_t bytes, size_t most, struct survey *seen,
                                    uint32_t *starts)
{
    const uint8_t *end = message + bytes, *line = message, *from = message + 7;
    struct name kind = { 'H', 0 }, context = { 0, 5 };
    size_t segments = 0, separators = 0;
    for (;;) {
        const uint8_t *stop = end - line > LINE ? line + LINE : end;
        const uint8_t *p = scan(class, from, stop, &separators);
        if (p == end)
            return verdict(6, bytes);
        if (*p != CR)
            return verdict(*p < SPACE ? 4 : 5, p - message);
        kind = gather(kind, field, from, p);
        if (segments == 0)
            context = gather(context, field, from, p);
        line = from = skip_low(p + 1, end);
        if (line < end && is_addendum(line, end, field)) {
            from += 2;
            continue;
        }
        if (segments < most)
            seen->kinds[segments] = kind_named(kind.letters);
        segments++;
        if (line == end)
            break;
        if (starts && segments < most)
            starts[segments] = line - message;
        kind = (struct name){ 0, 1 };
    }
    seen->segments = segments;
    seen->separators = separators;
    seen->context = context_named(context.letters);
    return verdict(0, 0);
}

/* The header's leaves: `H` and the four bytes, beside one leaf more than there are separators. */
static size_t leaf_count(const struct survey *seen)
{
    return seen->separators + seen->segments + 2;
}

/* Tests 7 to 11. */
static struct verdict judge(const struct survey *seen, struct form form)
{
    if (seen->segments > form.segments)
        return verdict(7, 0);
    for (size_t i = 0; i < seen->segments; i++)
        if (seen->kinds[i] == 0)
            return verdict(8, i + 1);
    if (seen->context == 0)
        return verdict(9, 0);
    size_t place = misplaced(seen->context, seen->kinds, seen->segments);
    if (place)
        return verdict(10, place);
    return verdict(leaf_count(seen) > form.leaves ? 11 : 0, 0);
}

/* ---- the reader's second pass ---- */

/* The open leaf, where its text begins, and where rows and text go. */
struct filling {
    uint32_t *row;
    uint8_t *out;
    const uint8_t *begin;
    uint32_t segment, field, repetition, subfield, subsubfield, start;
};

static inline void put_leaf(struct filling *f)
{
    uint32_t length = f->out - f->begin;
    f->row[0] = f->segment;
    f->row[1] = f->field;
    f->row[2] = f->repetition;
    f->row[3] = f->subfield;
    f->row[4] = f->subsubfield;
    f->row[5] = f->start;
    f->row[6] = length;
    f->row += LEAF_ROW;
    f->begin = f->out;
    f->start += length;
}

/* Most separators are fields'. */
static inline void next_place(struct filling *f, uint8_t sort)
{
    if (sort == FIELD) {
        f->field++;
        f->repetition = f->subfield = f->subsubfield = 1;
    } else if (sort == SUBFIELD) {
        f->subfield++;
        f->subsubfield = 1;
    } else if (sort == REPEATER) {
        f->repetition++;
        f->subfield = f->subsubfield = 1;
    } else {
        f->subsubfield++;
    }
}

/* The text of one line; answers where its CR lies, which the survey has seen, so that no loop here looks for an end. */
static inline const uint8_t *fill_line(const uint8_t *class, const uint8_t *p, struct filling *f)
{
    for (;; p++) {
        size_t n = 0;
        for (; class[p[n]] == TEXT; n++)
            f->out[n] = p[n];
        f->out += n;
        p += n;
        uint8_t sort = class[*p];
        if (sort == LOW)
            return p;
        put_leaf(f);
        next_place(f, sort);
    }
}

static inline struct filling put_header(const uint8_t *message, uint8_t *text, uint32_t *leaves)
{
    static const uint32_t rows[2 * LEAF_ROW] = { 1, 1, 1, 1, 1, 0, 1, 1, 2, 1, 1, 1, 1, 4 };
    text[0] = 'H';
    memcpy(text + 1, message + 2, 4);
    memcpy(leaves, rows, sizeof rows);
    return (struct filling){ leaves + 2 * LEAF_ROW, text + 5, text + 5, 1, 3, 1, 1, 1, 5 };
}

/* Text and leaf rows of all segments, and first leaf and leaf count of each; answers the bytes of text. */
static size_t fill_leaves(const uint8_t *class, uint8_t field, const uint8_t *message, size_t bytes,
                          uint8_t *restrict text, uint32_t *restrict segments, uint32_t *restrict leaves)
{
    const uint8_t *end = message + bytes, *p = message + 7;
    const uint32_t *first = leaves;
    struct filling f = put_header(message, text, leaves);
    for (;;) {
        p = skip_low(fill_line(class, p, &f) + 1, end);
        if (p < end && is_addendum(p, end, field)) {
            p += 2;
            continue;
        }
        put_leaf(&f);
        segments[2] = (first - leaves) / LEAF_ROW + 1;
        segments[3] = (f.row - first) / LEAF_ROW;
        if (p == end)
            return f.start;
        segments += SEGMENT_ROW;
        first = f.row;
        f.segment++;
        f.field = f.repetition = f.subfield = f.subsubfield = 1;
    }
}

static void fill_kinds(const struct survey *seen, uint32_t *segments)
{
    const uint8_t *level = levels[seen->context], *kinds = seen->kinds;
    unsigned before = 0;
    for (unsigned i = 0; i < seen->segments; i++) {
        segments[i * SEGMENT_ROW] = kinds[i];
        segments[i * SEGMENT_ROW + 1] = owner_of(level, kinds, segments, before, kinds[i]);
        if (kinds[i] != C)
            before = i + 1;
    }
}

static uint8_t refuse(uint8_t number, size_t place, size_t *answer, size_t counts)
{
    answer[0] = place;
    memset(answer + 1, 0, counts * sizeof *answer);
    return number;
}

/* Tests 1 to 3: the number of the first that fails, or 0 and the separators. */
static inline uint8_t judge_head(struct form form, const uint8_t *message, size_t message_bytes, size_t text_bytes, size_t segments_numbers,
                                 size_t leaves_numbers, struct separators *s)
{
    if (text_bytes < form.bytes || segments_numbers < form.segments * SEGMENT_ROW || leaves_numbers < form.leaves * LEAF_ROW)
        return 1;
    if (message_bytes > form.bytes)
        return 2;
    if (message_bytes < 7 || message[0] != 'H' || message[6] != message[1])
        return 3;
    *s = (struct separators){ message[1], message[2], message[3], message[4], message[5] };
    return sound(*s) ? 0 : 3;
}

/* Tests 4 to 11. */
static inline struct verdict decide(struct form form, const uint8_t *class, uint8_t field, const uint8_t *message, size_t bytes,
                                    struct survey *seen, uint32_t *starts)
{
    struct verdict v = survey(class, field, message, bytes, form.segments, seen, starts);
    return v.number ? v : judge(seen, form);
}

/* Puts the table, the place and the card. */
static inline uint8_t put_table(const uint8_t *class, uint8_t field, const struct survey *seen, const uint8_t *message, size_t bytes,
                                uint8_t *text, uint32_t *segments, uint32_t *leaves, size_t *answer)
{
    answer[0] = 0;
    answer[1] = field;
    answer[2] = seen->context;
    answer[3] = seen->segments;
    answer[4] = leaf_count(seen);
    answer[5] = fill_leaves(class, field, message, bytes, text, segments, leaves);
    fill_kinds(seen, segments);
    return 0;
}

#endif
