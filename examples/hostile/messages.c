/* Messages of the form, drawn along the order that a context allows, and damaged ones. */
#include "hostile.h"

#include <string.h>

enum { CR = 13, LINE = 219, SEGMENT_MOST = SARGACEU_LARGE_MESSAGE };

/* What a drawn message is like. */
struct measure {
    size_t segments, fields, text; /* about how many segments, fields in each, bytes in each piece */
    bool dense;                    /* brought to the limit of leaves */
    bool full;                     /* brought to the limit of bytes */
};

struct draft {
    struct message *message;
    uint8_t separators[5]; /* field, subfield, repeater, escape, sub-subfield */
    uint8_t segment[SEGMENT_MOST];
    size_t length, leaves;
};

static struct draft draft;
static const char usual_separators[] = "|~^\\&";

/* ---- a segment ---- */

static void put_byte(uint8_t byte)
{
    if (draft.length < SEGMENT_MOST)
        draft.segment[draft.length++] = byte;
}

static void put_name(const char *name)
{
    while (*name != '\0')
        put_byte((uint8_t)*name++);
}

/* Bytes that split nothing, the escape among them. */
static void put_text(size_t bytes)
{
    static const char plain[] = "ABCDEFGHIJKLMNOPQRSTUVWXYZ abcdefghijklmnopqrstuvwxyz0123456789A";
    while (bytes > 0) {
        uint64_t drawn = chance();
        for (int i = 0; i < 8 && bytes > 0; i++, bytes--, drawn >>= 8) {
            uint8_t b = drawn & 0xff;
            put_byte(b >= 0xf8 ? (uint8_t)(b == 0xff ? draft.separators[3] : b) : (uint8_t)plain[b % 64]);
        }
    }
}

static void split(int which)
{
    put_byte(draft.separators[which]);
    draft.leaves++;
}

/* Pieces of all four sorts; the first is a field, since the kind or the context before it stands alone. */
static void put_fields(size_t fields, size_t text)
{
    static const int which[8] = { 0, 0, 0, 0, 0, 1, 2, 4 };
    for (size_t i = 0; i < fields; i++) {
        split(i == 0 ? 0 : which[below(8)]);
        put_text(below(text + 1));
    }
}

static void begin_segment(uint8_t kind)
{
    draft.length = 0;
    draft.leaves++;
    put_name(kind_names[kind]);
}

static void draw_header(uint8_t context, struct measure measure)
{
    begin_segment(SARGACEU_H);
    for (int i = 0; i < 5; i++)
        put_byte(draft.separators[i]);
    draft.leaves++;
    split(0);
    for (int field = 3; field < 7; field++) {
        put_text(below(measure.text + 1));
        split(0);
    }
    put_name(context_names[context]);
    put_fields(below(measure.fields + 1), measure.text);
}

/* Orders often have one of a few numbers (9.4.2), so that two tables have the same order now and then; some have an empty one, which is no
   other order's. */
static void draw_order_number(void)
{
    split(0);
    split(0);
    split(0);
    put_text(below(4));
    split(1);
    if (!one_in(6))
        put_byte((uint8_t)('0' + below(4)));
}

/* Results are often of type NM (10.3) and have a number (10.6). Where a separator is a sign or a point, the number is cut by it. */
static void draw_result(void)
{
    static const char *const others[] = { "", "N", "NMX", "nm", "TX" };
    uint8_t numeral[NUMERAL_MOST];
    split(0);
    put_text(below(3));
    split(0);
    put_name(one_in(6) ? others[below(sizeof others / sizeof *others)] : "NM");
    split(0);
    put_text(below(4));
    split(0);
    split(0);
    size_t bytes = draw_numeral(numeral);
    for (size_t i = 0; i < bytes; i++) {
        const uint8_t *separator = memchr(draft.separators, numeral[i], sizeof draft.separators);
        if (separator == NULL)
            put_byte(numeral[i]);
        else
            split((int)(separator - draft.separators));
    }
}

/* ---- lines ---- */

static void put_in_message(const void *bytes, size_t count)
{
    struct message *m = draft.message;
    if (count > MESSAGE_MOST - m->length)
        count = MESSAGE_MOST - m->length;
    memcpy(m->bytes + m->length, bytes, count);
    m->length += count;
}

static size_t cut_somewhere(size_t at, size_t part)
{
    size_t whole = at > 0 ? 0 : draft.segment[0] == 'H' ? 7 : 1; /* the header's seven bytes are not cut; an addendum may be empty */
    return part <= whole ? part : whole + below(part - whole + 1);
}

/* Cuts the segment where a line is full, and now and then anywhere; control bytes may follow a CR. */
static void put_lines(void)
{
    static const char skipped[] = "\r\n\t";
    const uint8_t addendum[2] = { 'A', draft.separators[0] };
    bool cut = one_in(12);
    for (size_t at = 0; at < draft.length;) {
        size_t room = at == 0 ? LINE : LINE - 2, left = draft.length - at, part = left < room ? left : room;
        if (cut)
            part = cut_somewhere(at, part);
        if (at > 0)
            put_in_message(addendum, 2);
        put_in_message(draft.segment + at, part);
        put_in_message("\r", 1);
        if (one_in(20))
            put_in_message(skipped, 1 + below(3));
        at += part;
        cut = cut && !one_in(4);
    }
}

/* ---- a message ---- */

static void draw_separators(void)
{
    static const char all[] = "!\"#$%&'()*+,-./:;<=>?@[\\]^_`{|}~";
    memcpy(draft.separators, usual_separators, 5);
    if (!one_in(4))
        return;
    for (int i = 0; i < 5; i++) {
        do
            draft.separators[i] = (uint8_t)all[below(sizeof all - 1)];
        while (memchr(draft.separators, draft.separators[i], (size_t)i) != NULL);
    }
}

void begin_message(struct message *m)
{
    m->length = draft.leaves = 0;
    draft.message = m;
    draw_separators();
}

void put_segment(const char *usual)
{
    for (draft.length = 0; *usual != '\0'; usual++) {
        const char *separator = strchr(usual_separators, *usual);
        put_byte(separator == NULL ? (uint8_t)*usual : draft.separators[separator - usual_separators]);
    }
    put_lines();
}

/* A message that only the large form has room for. */
static struct measure draw_large_measure(void)
{
    switch (below(5)) {
    case 0: return (struct measure){ 4090 + below(7), 1, 2, false, false };
    case 1: return (struct measure){ 3 + below(600), 4, 4, true, false };
    case 2: return (struct measure){ 1200 + below(1200), 6, 250, false, true };
    case 3: return (struct measure){ 3 + below(8), 3, 3, false, true };
    default: return (struct measure){ 3 + below(8), 3, 120000, false, false };
    }
}

static struct measure draw_measure(uint8_t form)
{
    if (form == SARGACEU_LARGE && one_in(2))
        return draw_large_measure();
    switch (below(24)) {
    case 0: return (struct measure){ 245 + below(14), 1, 2, false, false };
    case 1: return (struct measure){ 3 + below(60), 4, 4, true, false };
    case 2: return (struct measure){ 40 + below(40), 6, 90, false, true };
    case 3: return (struct measure){ 3 + below(8), 3, 3, false, true };
    default: return (struct measure){ 2 + below(16), below(8), below(14), false, false };
    }
}

static uint8_t next_kind(uint8_t context, uint8_t last, bool enough_of_them)
{
    unsigned may = followers(context, last);
    if (enough_of_them && (may >> SARGACEU_L & 1) != 0)
        return SARGACEU_L;
    if (may != 1u << SARGACEU_L)
        may &= ~(1u << SARGACEU_L);
    uint8_t kind;
    do
        kind = (uint8_t)(1 + below(SARGACEU_L));
    while ((may >> kind & 1) == 0);
    return kind;
}

static void draw_segment(uint8_t kind, struct measure measure, const struct sizes *sizes)
{
    begin_segment(kind);
    if (kind == SARGACEU_OBR && !one_in(3))
        draw_order_number();
    if ((kind == SARGACEU_OBX && !one_in(3)) || (kind == SARGACEU_C && one_in(4))) /* a comment that looks like a result is none */
        draw_result();
    put_fields(below(measure.fields + 1), measure.text);
    if (kind == SARGACEU_L && measure.dense)
        for (size_t wanted = sizes->leaf_rows - 3 + below(6); draft.leaves < wanted;)
            split(0);
    put_lines();
}

void draw_sound_message(struct message *m, uint8_t form)
{
    const struct sizes *sizes = sizes_of(form);
    struct measure measure = draw_measure(form);
    static const uint8_t with_orders[3] = { SARGACEU_CONTEXT_ORM, SARGACEU_CONTEXT_ORA, SARGACEU_CONTEXT_ORU };
    uint8_t context = one_in(2) ? with_orders[below(3)] : (uint8_t)(1 + below(7)), last = SARGACEU_H;
    begin_message(m);
    draw_header(context, measure);
    put_lines();
    for (size_t row = 2; last != SARGACEU_L; row++) {
        uint8_t kind = one_in(6) ? SARGACEU_C : next_kind(context, last, row >= measure.segments);
        draw_segment(kind, measure, sizes);
        if (kind != SARGACEU_C)
            last = kind;
    }
    if (measure.full) /* control bytes after the last CR are skipped, and counted */
        for (size_t wanted = sizes->message - 2 + below(5); m->length < wanted;)
            put_in_message("\n", 1);
}

/* ---- damage ---- */

struct part {
    size_t start, length;
};

static struct part some_line(const struct message *m)
{
    size_t start = below(m->length), end = start;
    while (start > 0 && m->bytes[start - 1] != CR)
        start--;
    while (end < m->length && m->bytes[end] != CR)
        end++;
    return (struct part){ start, (end < m->length ? end + 1 : end) - start };
}

static void erase(struct message *m, struct part part)
{
    memmove(m->bytes + part.start, m->bytes + part.start + part.length, m->length - part.start - part.length);
    m->length -= part.length;
}

static void insert(struct message *m, size_t at, const uint8_t *bytes, size_t count)
{
    if (count > MESSAGE_MOST - m->length)
        return;
    memmove(m->bytes + at + count, m->bytes + at, m->length - at);
    memcpy(m->bytes + at, bytes, count);
    m->length += count;
}

static void change_byte(struct message *m)
{
    static const uint8_t telling[] = { 0, 9, 10, 13, 27, 31, 32, 33, 126, 127, 255, 'A', 'H', 'L', '|', '~', '^', '&', '\\' };
    size_t at = below(one_in(4) ? 60 : m->length);
    if (at < m->length)
        m->bytes[at] = one_in(2) ? (uint8_t)chance() : telling[below(sizeof telling)];
}

static void rename_kind(struct message *m)
{
    struct part line = some_line(m);
    size_t letters = 0;
    while (letters < line.length && m->bytes[line.start + letters] >= 'A' && m->bytes[line.start + letters] <= 'Z')
        letters++;
    const char *name = one_in(6) ? "XYZ" : kind_names[1 + below(12)];
    erase(m, (struct part){ line.start, letters });
    insert(m, line.start, (const uint8_t *)name, strlen(name));
}

/* A line goes elsewhere, or is there twice. */
static void move_line(struct message *m, bool twice)
{
    static uint8_t kept[MESSAGE_MOST];
    struct part line = some_line(m);
    memcpy(kept, m->bytes + line.start, line.length);
    if (!twice)
        erase(m, line);
    insert(m, m->length == 0 ? 0 : some_line(m).start, kept, line.length);
}

static void insert_bytes(struct message *m, size_t count)
{
    static uint8_t bytes[600];
    for (size_t i = 0; i < count; i++)
        bytes[i] = one_in(30) ? (uint8_t)chance() : 'x';
    insert(m, below(m->length + 1), bytes, count);
}

static void damage(struct message *m)
{
    if (m->length == 0)
        return;
    size_t at = below(m->length), left = m->length - at;
    switch (below(12)) {
    case 0: m->length = at; break;
    case 1: m->bytes[below(m->length < 7 ? m->length : 7)] = (uint8_t)chance(); break;
    case 2: erase(m, (struct part){ at, 1 + below(left < 6 ? left : 6) }); break;
    case 3: erase(m, some_line(m)); break;
    case 4: move_line(m, true); break;
    case 5: move_line(m, false); break;
    case 6: rename_kind(m); break;
    case 7: insert_bytes(m, below(8)); break;
    case 8: insert_bytes(m, 150 + below(300)); break;
    default: change_byte(m);
    }
}

static void draw_bytes(struct message *m)
{
    m->length = one_in(4) ? below(20) : below(600);
    for (size_t i = 0; i < m->length; i++)
        m->bytes[i] = (uint8_t)(one_in(3) ? chance() : 32 + below(96));
}

void draw_message(struct message *m, uint8_t form)
{
    if (one_in(40)) {
        draw_bytes(m);
        return;
    }
    draw_sound_message(m, form);
    if (one_in(2))
        for (size_t times = 1 + below(3); times > 0; times--)
            damage(m);
}

/* A place where a line begins, or any byte, or past the end. */
size_t draw_offset(const struct message *m)
{
    size_t at = below(m->length + 1);
    switch (below(8)) {
    case 0: return wild();
    case 1: return m->length;
    case 2: case 3: return at;
    default:
        while (at > 0 && (m->bytes[at - 1] >= 32 || (at < m->length && m->bytes[at] < 32)))
            at--;
        return at;
    }
}
