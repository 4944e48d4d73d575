/*
 * The reader surveys the message first and decides every refusal, then fills the buffers; the writer judges the whole table first, then
 * writes. So a refusal leaves every buffer as it was. Nothing is allocated, and the message is read where it lies.
 */
#include "baseline.h"
#include "baseline_reader.h"

/* ---- the reader ---- */

static uint8_t read_sound(struct form form, struct separators s, const uint8_t *message, size_t bytes,
                          uint8_t *text, uint32_t *segments, uint32_t *leaves, size_t *answer)
{
    uint8_t class[256];
    struct survey seen;
    set_classes(class, s);
    struct verdict v = decide(form, class, s.field, message, bytes, &seen, NULL);
    if (v.number)
        return refuse(v.number, v.place, answer, 5);
    return put_table(class, s.field, &seen, message, bytes, text, segments, leaves, answer);
}

uint8_t base_read(uint8_t form,
                  const uint8_t *message, size_t message_bytes,
                  uint8_t *text, size_t text_bytes,
                  uint32_t *segments, size_t segments_numbers,
                  uint32_t *leaves, size_t leaves_numbers,
                  size_t *answer, size_t answer_numbers)
{
    if (answer_numbers < 6)
        return 1;
    struct form limits = form_of(form);
    struct separators s;
    uint8_t number = judge_head(limits, message, message_bytes, text_bytes, segments_numbers, leaves_numbers, &s);
    if (number)
        return refuse(number, 0, answer, 5);
    return read_sound(limits, s, message, message_bytes, text, segments, leaves, answer);
}

/* ---- the writer's pass ---- */

struct writing {
    uint8_t *out;
    uint8_t *full; /* where the line begun is full */
    size_t lines;
    uint8_t field;
};

static inline void end_line(struct writing *w)
{
    *w->out++ = CR;
    w->lines++;
}

static inline void go_on(struct writing *w)
{
    end_line(w);
    *w->out++ = 'A';
    *w->out++ = w->field;
    w->full = w->out + MORE;
}

static inline void put_byte(struct writing *w, uint8_t b)
{
    if (w->out == w->full)
        go_on(w);
    *w->out++ = b;
}

/* Most leaves are a few bytes: a call to copy them would cost more than they do. */
static inline void copy(uint8_t *to, const uint8_t *from, size_t bytes)
{
    if (bytes >= 16) {
        memcpy(to, from, bytes);
        return;
    }
    for (size_t i = 0; i < bytes; i++)
        to[i] = from[i];
}

static inline void put_text(struct writing *w, const uint8_t *p, size_t bytes)
{
    size_t room = w->full - w->out;
    while (bytes > room) {
        copy(w->out, p, room);
        w->out += room;
        p += room;
        bytes -= room;
        go_on(w);
        room = MORE;
    }
    copy(w->out, p, bytes);
    w->out += bytes;
}

/* The separator between two leaves of a segment: that of the coarsest number that differs. */
static inline uint8_t between(struct separators s, const uint32_t *row, const uint32_t *next)
{
    if (row[1] != next[1])
        return s.field;
    if (row[2] != next[2])
        return s.repeater;
    return row[3] != next[3] ? s.subfield : s.subsubfield;
}

static uint8_t write_table(const struct table *t, uint8_t *restrict output, size_t *answer)
{
    struct writing w = { output, output, 0, t->separators.field };
    const uint8_t *text = t->text;
    const uint32_t *row = t->leaves;
    for (size_t i = 0; i < t->many; i++) {
        const uint32_t *end = row + t->segments[i * SEGMENT_ROW + 3] * LEAF_ROW;
        w.full = w.out + LINE;
        for (;;) {
            put_text(&w, text, row[6]);
            text += row[6];
            row += LEAF_ROW;
            if (row == end)
                break;
            put_byte(&w, between(t->separators, row - LEAF_ROW, row));
        }
        end_line(&w);
    }
    answer[0] = 0;
    answer[1] = w.out - output;
    answer[2] = w.lines;
    return 0;
}

uint8_t base_write(uint8_t form,
                   const size_t *card, size_t card_numbers,
                   const uint32_t *segments, size_t segments_numbers,
                   const uint32_t *leaves, size_t leaves_numbers,
                   const uint8_t *text, size_t text_bytes,
                   uint8_t *output, size_t output_bytes,
                   size_t *answer, size_t answer_numbers)
{
    if (answer_numbers < 3)
        return 1;
    struct form limits = form_of(form);
    if (output_bytes < limits.bytes)
        return refuse(12, 0, answer, 2);
    if (!is_lent_card(limits, card, card_numbers, segments_numbers, leaves_numbers, text_bytes))
        return refuse(13, 0, answer, 2);
    struct table t = { limits.bytes, card[1], card[2], card[3], card[4], segments, leaves, text, { 0 } };
    if (!is_table(&t, card[0]))
        return refuse(13, 0, answer, 2);
    return write_table(&t, output, answer);
}

/* ---- the lookup ---- */

enum { NOT_THERE, FOUND, FOUND_EMPTY };

/*
 * Any buffers may be lent, so all counted rows are gone over. Most are of other segments: the compiler is told so, for then such a row takes
 * five instructions and one jump, where it would take two jumps and twice the time.
 */
uint8_t base_find_leaf(const size_t *card, size_t card_numbers,
                       const uint32_t *segments, size_t segments_numbers,
                       const uint32_t *leaves, size_t leaves_numbers,
                       const uint8_t *text, size_t text_bytes,
                       uint32_t segment, uint32_t field, uint32_t repetition, uint32_t subfield, uint32_t subsubfield,
                       size_t *answer, size_t answer_numbers)
{
    (void)segments, (void)text;
    if (card_numbers < 5 || card[0] > 255 || card[1] > 255)
        return NOT_THERE;
    if (card[2] > segments_numbers / SEGMENT_ROW || card[3] > leaves_numbers / LEAF_ROW || card[4] > text_bytes)
        return NOT_THERE;
    const uint32_t *row = leaves;
    for (size_t left = card[3]; left > 0; left--, row += LEAF_ROW) {
        if (__builtin_expect(row[0] != segment, 1))
            continue;
        if (row[1] != field || row[2] != repetition || row[3] != subfield || row[4] != subsubfield)
            continue;
        size_t start = row[5], length = row[6];
        if (start + length > card[4])
            continue;
        if (answer_numbers >= 2) {
            answer[0] = length ? start : 0;
            answer[1] = length;
        }
        return length ? FOUND : FOUND_EMPTY;
    }
    return NOT_THERE;
}
