/* Tables: what the reader made of some message, and damaged ones. */
#include "hostile.h"

#include <string.h>

/* The message that is read where a drawn one is refused. */
static const char least[] = "H|~^\\&|||LAB||ORU\rP|1||||DUPONT~JEAN\rOBR|1||A~7\rOBX|1|NM|GLY||1.2\rL|1\r";

static struct message source;

/* ---- reading and writing in ordinary memory ---- */

uint8_t read_table(uint8_t form, const uint8_t *message, size_t bytes, struct table *t, size_t *place)
{
    const struct sizes *sizes = sizes_of(form);
    size_t answer[SARGACEU_READ_ANSWER];
    t->form = form;
    t->card_numbers = SARGACEU_CARD;
    t->segments_numbers = sizes->segments;
    t->leaves_numbers = sizes->leaves;
    t->text_bytes = sizes->text;
    uint8_t number = sargaceu_read(form, message, bytes, t->text, t->text_bytes, t->segments, t->segments_numbers,
                                   t->leaves, t->leaves_numbers, answer, SARGACEU_READ_ANSWER);
    *place = answer[0];
    memcpy(t->card, answer + 1, SARGACEU_CARD * sizeof *t->card);
    return number;
}

uint8_t write_table(const struct table *t, uint8_t *output, size_t *answer)
{
    return sargaceu_write(t->form, t->card, t->card_numbers, t->segments, t->segments_numbers, t->leaves, t->leaves_numbers,
                          t->text, t->text_bytes, output, sizes_of(t->form)->output, answer, SARGACEU_WRITE_ANSWER);
}

bool is_table(const struct table *t)
{
    return sargaceu_is_table(t->form, t->card, t->card_numbers, t->segments, t->segments_numbers, t->leaves, t->leaves_numbers,
                             t->text, t->text_bytes);
}

/* What its buffers hold; what lies past them is not copied. */
void copy_table(struct table *to, const struct table *from)
{
    to->form = from->form;
    to->card_numbers = from->card_numbers;
    to->segments_numbers = from->segments_numbers;
    to->leaves_numbers = from->leaves_numbers;
    to->text_bytes = from->text_bytes;
    memcpy(to->card, from->card, sizeof to->card);
    memcpy(to->segments, from->segments, from->segments_numbers * sizeof *to->segments);
    memcpy(to->leaves, from->leaves, from->leaves_numbers * sizeof *to->leaves);
    memcpy(to->text, from->text, from->text_bytes);
}

void expect_same_table(const struct table *a, const struct table *b, const char *what)
{
    size_t segments = a->card[CARD_SEGMENTS] * SARGACEU_SEGMENT_ROW, leaves = a->card[CARD_LEAVES] * SARGACEU_LEAF_ROW;
    if (memcmp(a->card, b->card, SARGACEU_CARD * sizeof *a->card) != 0)
        fail("%s: another card", what);
    if (memcmp(a->segments, b->segments, segments * sizeof *a->segments) != 0)
        fail("%s: other segment rows", what);
    if (memcmp(a->leaves, b->leaves, leaves * sizeof *a->leaves) != 0)
        fail("%s: other leaf rows", what);
    if (memcmp(a->text, b->text, a->card[CARD_TEXT]) != 0)
        fail("%s: another text", what);
}

/* ---- rows ---- */

/* How many rows of a table may be looked at: those that are there. */
static size_t rows_there(size_t counted, size_t numbers, size_t row)
{
    return counted < numbers / row ? counted : numbers / row;
}

size_t segments_there(const struct table *t)
{
    return rows_there(t->card[CARD_SEGMENTS], t->segments_numbers, SARGACEU_SEGMENT_ROW);
}

size_t leaves_there(const struct table *t)
{
    return rows_there(t->card[CARD_LEAVES], t->leaves_numbers, SARGACEU_LEAF_ROW);
}

uint32_t draw_order(const struct table *t)
{
    size_t rows = segments_there(t), row = one_in(8) ? wild() : below(rows + 2), orders = 0;
    if (one_in(8))
        return (uint32_t)row;
    for (size_t i = 0; i < rows; i++)
        if (t->segments[i * SARGACEU_SEGMENT_ROW] == SARGACEU_OBR && one_in(++orders))
            row = i + 1;
    return (uint32_t)row;
}

void expect_owners(const struct table *t)
{
    for (size_t row = 1; row <= t->card[CARD_SEGMENTS]; row++) {
        size_t owner = t->segments[(row - 1) * SARGACEU_SEGMENT_ROW + 1], expected = plain_owner(t, row);
        if (owner != expected)
            fail("row %zu belongs to %zu, and to %zu by its kind", row, owner, expected);
    }
}

/* ---- drawing ---- */

struct room draw_room(uint8_t form)
{
    const struct sizes *sizes = sizes_of(form);
    size_t text = sizes->text + TEXT_SLACK, segments = sizes->segments + SEGMENTS_SLACK, leaves = sizes->leaves + LEAVES_SLACK;
    struct room room = { enough(sizes->text, text), enough(sizes->segments, segments), enough(sizes->leaves, leaves),
                         former(text), former(segments * sizeof(uint32_t)), former(leaves * sizeof(uint32_t)) };
    switch (below(20)) {
    case 0: room.text = short_of(sizes->text); break;
    case 1: room.segments = short_of(sizes->segments); break;
    case 2: room.leaves = short_of(sizes->leaves); break;
    default: break;
    }
    return room;
}

bool is_short(struct room room, uint8_t form)
{
    const struct sizes *sizes = sizes_of(form);
    return room.text < sizes->text || room.segments < sizes->segments || room.leaves < sizes->leaves;
}

typedef void draw_it(struct message *, uint8_t);

/* What the reader makes of a message that is drawn in some way. */
static void draw_read_table(struct table *t, uint8_t form, draw_it *draw)
{
    const struct sizes *sizes = sizes_of(form);
    size_t place, text = sizes->text + TEXT_SLACK, segments = (sizes->segments + SEGMENTS_SLACK) * sizeof *t->segments,
                  leaves = (sizes->leaves + LEAVES_SLACK) * sizeof *t->leaves;
    memcpy(t->card, former(sizeof t->card), sizeof t->card);
    memcpy(t->segments, former(segments), segments);
    memcpy(t->leaves, former(leaves), leaves);
    memcpy(t->text, former(text), text);
    draw(&source, form);
    if (read_table(form, source.bytes, source.length, t, &place) != SARGACEU_ACCEPTED)
        read_table(form, (const uint8_t *)least, sizeof least - 1, t, &place);
}

/* A number that is one off, or any. */
static size_t other_than(size_t number)
{
    switch (below(4)) {
    case 0: return number + 1;
    case 1: return number - 1;
    default: return wild();
    }
}

static void change_number(uint32_t *numbers, size_t count)
{
    size_t at = below(count);
    numbers[at] = (uint32_t)other_than(numbers[at]);
}

/* Row `to` becomes what row `from` is, or both change places. */
static void copy_row(uint32_t *rows, size_t count, size_t row, bool swap)
{
    uint32_t kept[SARGACEU_LEAF_ROW];
    size_t size = row * sizeof *rows;
    uint32_t *from = rows + below(count) * row, *to = rows + below(count) * row;
    memcpy(kept, to, size);
    memmove(to, from, size);
    if (swap)
        memcpy(from, kept, size);
}

/* A leaf takes another's place, so that one place is there twice, with two texts. */
static void double_place(struct table *t, size_t leaves)
{
    uint32_t *from = t->leaves + below(leaves) * SARGACEU_LEAF_ROW, *to = t->leaves + below(leaves) * SARGACEU_LEAF_ROW;
    memmove(to, from, 5 * sizeof *to);
}

/* The last leaf gets more text, and everything else fits it: a sound table, unless its message passes the limit. */
static void lengthen(struct table *t, size_t leaves)
{
    uint32_t *last = t->leaves + (leaves - 1) * SARGACEU_LEAF_ROW;
    size_t room = sizes_of(t->form)->text, more = below(one_in(2) ? 20 : room / 2);
    if (t->card[CARD_TEXT] + more > room)
        more = room - t->card[CARD_TEXT];
    memset(t->text + t->card[CARD_TEXT], 'x', more);
    last[6] = (uint32_t)(last[6] + more);
    t->card[CARD_TEXT] += more;
}

/* Orders and invoices go under the nearest cover before them, an ACT under the nearest REG: owners that they had once. */
static void move_owners(struct table *t, size_t segments)
{
    uint32_t cover = 0, line = 0;
    for (size_t i = 0; i < segments; i++) {
        uint32_t *row = t->segments + i * SARGACEU_SEGMENT_ROW, number = (uint32_t)(i + 1);
        switch (row[0]) {
        case SARGACEU_P: case SARGACEU_AP: case SARGACEU_AC: cover = number; break;
        case SARGACEU_OBR: row[1] = cover; break;
        case SARGACEU_FAC: row[1] = cover; line = number; break;
        case SARGACEU_REG: line = number; break;
        case SARGACEU_ACT: row[1] = line; break;
        default: break;
        }
    }
}

static void damage(struct table *t, size_t segments, size_t leaves, size_t text)
{
    switch (below(15)) {
    case 0: t->card[below(SARGACEU_CARD)] = wild(); break;
    case 1: case 2: {
        size_t *number = t->card + below(SARGACEU_CARD);
        *number = other_than(*number);
        break;
    }
    case 3: change_number(t->segments, segments * SARGACEU_SEGMENT_ROW); break;
    case 4: change_number(t->leaves, leaves * SARGACEU_LEAF_ROW); break;
    case 5: copy_row(t->segments, segments, SARGACEU_SEGMENT_ROW, one_in(2)); break;
    case 6: copy_row(t->leaves, leaves, SARGACEU_LEAF_ROW, one_in(2)); break;
    case 7: t->card_numbers = below(SARGACEU_CARD); break;
    case 8: t->text[below(text)] = (uint8_t)chance(); break;
    case 9: double_place(t, leaves); break;
    case 14: move_owners(t, segments); break;
    case 10: case 11: t->text[below(text)] = (uint8_t)('a' + below(26)); break;
    default:
        if (t->card[CARD_TEXT] == text) /* as it was read, and not yet made longer */
            lengthen(t, leaves);
    }
}

/* Buffers that end right behind the counted entries, or one element before that, or anywhere. */
static bool fit(struct table *t, size_t segments, size_t leaves, size_t text)
{
    size_t *const numbers[3] = { &t->segments_numbers, &t->leaves_numbers, &t->text_bytes };
    const size_t counted[3] = { segments * SARGACEU_SEGMENT_ROW, leaves * SARGACEU_LEAF_ROW, text };
    if (one_in(2))
        for (int i = 0; i < 3; i++)
            *numbers[i] = counted[i];
    if (!one_in(8))
        return true;
    int i = (int)below(3);
    *numbers[i] = one_in(2) ? counted[i] - 1 : below(counted[i]);
    return false;
}

/* The table is judged by the other form now and then. One of the small form is one of the large form, too; the other way it may be too large. */
static bool change_form(struct table *t)
{
    bool large = t->form == SARGACEU_LARGE;
    if (!one_in(large ? 8 : 1000))
        return true;
    t->form = large ? SARGACEU_SMALL : SARGACEU_LARGE;
    return !large;
}

static bool draw_and_damage(struct table *t, uint8_t form, draw_it *draw)
{
    draw_read_table(t, form, draw);
    size_t segments = t->card[CARD_SEGMENTS], leaves = t->card[CARD_LEAVES], text = t->card[CARD_TEXT];
    bool sound = true;
    if (one_in(2)) {
        sound = false;
        for (size_t times = 1 + below(2); times > 0; times--)
            damage(t, segments, leaves, text);
    } else if (one_in(3)) {
        t->card_numbers = CARD_MOST; /* the first five count */
    }
    if (t->card[CARD_TEXT] > text && t->card[CARD_TEXT] <= sizes_of(form)->text)
        text = t->card[CARD_TEXT]; /* it was made longer */
    bool fits = fit(t, segments, leaves, text), stays = change_form(t);
    return fits && stays && sound;
}

bool draw_table(struct table *t, uint8_t form)
{
    return draw_and_damage(t, form, draw_sound_message);
}

bool draw_report_table(struct table *t, uint8_t form)
{
    return draw_and_damage(t, form, draw_report);
}
