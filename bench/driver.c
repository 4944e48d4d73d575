/*
 * One program around both implementations, the library and the baseline:
 *
 *   driver compare FILE...                        both give the same on these messages, and on damaged and invented ones, in both forms
 *   driver read|write library|baseline FILE N     N readings of a message, or writings of its table, in the small form
 *   driver read-large|write-large library|baseline FILE N
 *                                                 the same in the large form
 *   driver find library|segment|baseline FILE N   N lookups of the last result's value, the library's over all leaves or within the segment
 *   driver read-value|write-value library|baseline SAMPLE N
 *                                                 N readings of a text, or writings of a value; SAMPLE is short, long or (reading) digits
 *   driver order-values|order-values-just|is-table library|baseline FILE N
 *                                                 N times the values of a message's middle order, in places that do for any order or in
 *                                                 just enough, or tests of its table
 *   driver screen|is-table library|baseline FILE N
 *                                                 N screening checks of a report, or tests of its table
 *   driver read-indexed-0|read-indexed-100|read-indexed-512 library|baseline FILE N
 *                                                 N readings of a message in the small form with an index that names so many codes, those
 *                                                 of the message among them, or none each time
 *   driver time FILE...                           times of both, interleaved, the least of nine, on x86-64
 *
 * Both are called by pointers that the compiler cannot see through, so no call is folded away.
 */
#define _POSIX_C_SOURCE 200809L
#include "driver.h"

#include <time.h>

/* ---- both implementations ---- */

typedef uint8_t reader(uint8_t, const uint8_t *, size_t, uint8_t *, size_t, uint32_t *, size_t, uint32_t *, size_t, size_t *, size_t);
typedef uint8_t writer(uint8_t, const size_t *, size_t, const uint32_t *, size_t, const uint32_t *, size_t, const uint8_t *, size_t,
                       uint8_t *, size_t, size_t *, size_t);
typedef uint8_t finder(const size_t *, size_t, const uint32_t *, size_t, const uint32_t *, size_t, const uint8_t *, size_t,
                       uint32_t, uint32_t, uint32_t, uint32_t, uint32_t, size_t *, size_t);

const char *const names[2] = { "library", "baseline" };
static reader *volatile readers[2] = { sargaceu_read, base_read };
static writer *volatile writers[2] = { sargaceu_write, base_write };

/* The library has two lookups of one question, the baseline one. */
enum { BY_LIBRARY, IN_SEGMENT, BY_BASELINE, FINDERS };
static const char *const finder_names[FINDERS] = { "library", "segment", "baseline" };
static finder *volatile finders[FINDERS] = { sargaceu_find_leaf, sargaceu_find_leaf_in_segment, base_find_leaf };

/* A leaf's place is the first five numbers of its row. */
enum { PLACE = 5 };

const struct form forms[FORMS] = {
    [SARGACEU_SMALL] = { SARGACEU_SMALL_MESSAGE, SARGACEU_SMALL_TEXT, SARGACEU_SMALL_SEGMENTS, SARGACEU_SMALL_LEAVES, SARGACEU_SMALL_OUTPUT,
                         SARGACEU_SMALL_VALUES },
    [SARGACEU_LARGE] = { SARGACEU_LARGE_MESSAGE, SARGACEU_LARGE_TEXT, SARGACEU_LARGE_SEGMENTS, SARGACEU_LARGE_LEAVES, SARGACEU_LARGE_OUTPUT,
                         SARGACEU_LARGE_VALUES },
};

#define WHOLE(form) { SARGACEU_##form, SARGACEU_##form##_TEXT + TEXT_PAST, SARGACEU_##form##_SEGMENTS + SEGMENTS_PAST, \
                      SARGACEU_##form##_LEAVES + LEAVES_PAST, SARGACEU_READ_ANSWER, SARGACEU_CARD, SARGACEU_##form##_OUTPUT + OUTPUT_PAST }
const struct lent whole[FORMS] = { [SARGACEU_SMALL] = WHOLE(SMALL), [SARGACEU_LARGE] = WHOLE(LARGE) };

uint8_t read_by(int which, const struct message *m, struct table *t, struct lent lent)
{
    return readers[which](lent.form, m->bytes, m->length, t->text, lent.text, t->segments, lent.segments, t->leaves, lent.leaves,
                          t->answer, lent.answer);
}

static uint8_t write_by(int which, const struct table *t, uint8_t *output, size_t *answer, struct lent lent)
{
    return writers[which](lent.form, t->answer + 1, lent.card, t->segments, lent.segments, t->leaves, lent.leaves, t->text, lent.text,
                          output, lent.output, answer, lent.answer < 3 ? lent.answer : 3);
}

static uint8_t find_by(int which, const struct table *t, const uint32_t *place, size_t *answer, struct lent lent)
{
    return finders[which](t->answer + 1, lent.card, t->segments, lent.segments, t->leaves, lent.leaves, t->text, lent.text,
                          place[0], place[1], place[2], place[3], place[4], answer, lent.answer < 3 ? lent.answer : 3);
}

/* ---- tables ---- */

struct table held;

static size_t least(size_t a, size_t b)
{
    return a < b ? a : b;
}

static size_t most(size_t a, size_t b)
{
    return a < b ? b : a;
}

static void *room(size_t bytes)
{
    void *begin = calloc(bytes, 1);
    if (!begin) {
        perror("driver");
        exit(2);
    }
    return begin;
}

struct reach all_of(uint8_t form)
{
    return (struct reach){ whole[form].text, whole[form].segments, whole[form].leaves };
}

void make_table(struct table *t, uint8_t form)
{
    t->form = form;
    t->reach = all_of(form);
    t->text = room(t->reach.text);
    t->segments = room(t->reach.segments * sizeof *t->segments);
    t->leaves = room(t->reach.leaves * sizeof *t->leaves);
}

/* A message's bytes that split or end: no table of it has more segments than lines, nor more leaves than these and two. */
static struct reach reach_of(uint8_t form, const struct message *m)
{
    struct reach all = all_of(form);
    size_t lines = 1, splits = 2;
    if (form == SARGACEU_SMALL)
        return all;
    bool split[256] = { [13] = true };
    for (size_t i = 1; i < 6 && i < m->length; i++)
        split[m->bytes[i]] = true;
    for (size_t i = 0; i < m->length; i++) {
        lines += m->bytes[i] == 13;
        splits += split[m->bytes[i]];
    }
    return (struct reach){
        least(m->length + TEXT_PAST, all.text),
        least(lines * SARGACEU_SEGMENT_ROW + SEGMENTS_PAST, all.segments),
        least(splits * SARGACEU_LEAF_ROW + LEAVES_PAST, all.leaves),
    };
}

void copy_table(struct table *to, const struct table *from)
{
    to->reach = from->reach;
    memcpy(to->text, from->text, from->reach.text);
    memcpy(to->segments, from->segments, from->reach.segments * sizeof *from->segments);
    memcpy(to->leaves, from->leaves, from->reach.leaves * sizeof *from->leaves);
    memcpy(to->answer, from->answer, sizeof from->answer);
}

void soil_table(struct table *t, struct reach reach, int with)
{
    t->reach = reach;
    memset(t->text, with, reach.text);
    memset(t->segments, with, reach.segments * sizeof *t->segments);
    memset(t->leaves, with, reach.leaves * sizeof *t->leaves);
    memset(t->answer, with, sizeof t->answer);
}

bool same_tables(const struct table *a, const struct table *b, struct reach reach)
{
    return memcmp(a->answer, b->answer, sizeof a->answer) == 0
        && memcmp(a->text, b->text, reach.text) == 0
        && memcmp(a->segments, b->segments, reach.segments * sizeof *a->segments) == 0
        && memcmp(a->leaves, b->leaves, reach.leaves * sizeof *a->leaves) == 0;
}

/* ---- comparing ---- */

/* By form: the tables that both read, and the outputs that both write. */
static struct table tables[FORMS][2];
static uint8_t *outputs[FORMS][2];
static size_t answers[2][SARGACEU_WRITE_ANSWER];

struct counts { size_t cases, accepted, numbers[14], tables, written; };
static struct counts counts[FORMS];
static size_t lookups, segment_lookups, sought[3];

static uint64_t state = 0x9e3779b97f4a7c15u;

size_t below(size_t limit)
{
    state ^= state << 13;
    state ^= state >> 7;
    state ^= state << 17;
    return limit ? (state >> 20) % limit : 0;
}

void show(const char *what, const struct message *m)
{
    fprintf(stderr, "driver: library and baseline differ: %s%s\n", what, m ? "; the message is in differs.msg" : "");
    FILE *file = m ? fopen("differs.msg", "wb") : NULL;
    if (file) {
        fwrite(m->bytes, 1, m->length, file);
        fclose(file);
    }
    exit(1);
}

/*
 * In the large form, what lies past the reach is looked at now and then: both hold the same there all the time, so what one of them has put
 * there is still there.
 */
static void compare_all(uint8_t form, const struct message *m)
{
    if (!same_tables(&tables[form][0], &tables[form][1], all_of(form)))
        show("reading, far behind what a message fills", m);
    if (memcmp(outputs[form][0], outputs[form][1], whole[form].output) != 0)
        show("writing, far behind what is written", m);
}

/* Both read the message into buffers that held the same before, without an index and with one; answers the number. */
static uint8_t same_reading(const struct message *m, uint8_t form, struct lent lent)
{
    enum { NOW_AND_THEN = 256 };
    int with = (int)below(256);
    uint8_t given[2];
    struct table *t = tables[form];
    struct reach reach = reach_of(form, m);
    for (int i = 0; i < 2; i++) {
        soil_table(&t[i], reach, with);
        given[i] = read_by(i, m, &t[i], lent);
    }
    if (given[0] != given[1] || !same_tables(&t[0], &t[1], reach)) {
        fprintf(stderr, "numbers %u %u, places %zu %zu\n", given[0], given[1], t[0].answer[0], t[1].answer[0]);
        show("reading", m);
    }
    if (given[0] > 11)
        show("a number that no reading gives", m);
    if (form != SARGACEU_SMALL && counts[form].cases % NOW_AND_THEN == 0)
        compare_all(form, m);
    counts[form].cases++;
    counts[form].numbers[given[0]]++;
    counts[form].accepted += given[0] == 0;
    compare_indexing(m, &t[0], given[0], lent);
    return given[0];
}

/* How far a table's message can go in an output, whatever the card counts: its bytes and separators, and what lines add to them. */
static size_t output_reach(const struct table *t)
{
    struct reach all = all_of(t->form);
    if (t->form == SARGACEU_SMALL)
        return whole[t->form].output;
    size_t bytes = least(t->answer[5], all.text) + least(t->answer[4], all.leaves);
    return least(bytes + bytes / 64 + least(t->answer[3], all.segments) + OUTPUT_PAST, whole[t->form].output);
}

/* Both write the table into outputs that held the same before; answers the number. */
static uint8_t same_writing(const struct table *t, struct lent lent, const struct message *m)
{
    int with = (int)below(256);
    uint8_t given[2], **output = outputs[t->form];
    size_t reach = output_reach(t);
    for (int i = 0; i < 2; i++) {
        memset(output[i], with, reach);
        memset(answers[i], with, sizeof answers[i]);
        given[i] = write_by(i, t, output[i], answers[i], lent);
    }
    if (given[0] != given[1] || memcmp(answers[0], answers[1], sizeof answers[0]) != 0 || memcmp(output[0], output[1], reach) != 0) {
        fprintf(stderr, "numbers %u %u, bytes %zu %zu, lines %zu %zu\n", given[0], given[1], answers[0][1], answers[1][1],
                answers[0][2], answers[1][2]);
        show("writing", m);
    }
    counts[t->form].tables++;
    counts[t->form].written += given[0] == 0;
    counts[t->form].numbers[given[0]] += given[0] > 11;
    return given[0];
}

/*
 * Both look a place up, with answers that held the same before. Within its segment the library finds the same where a reading gave the
 * table; of any other table it finds nothing there that is not found among all leaves.
 */
static void same_lookup(const struct table *t, const uint32_t *place, struct lent lent, bool was_read, const struct message *m)
{
    size_t answer[FINDERS][3];
    uint8_t given[FINDERS];
    memset(answer, (int)below(256), sizeof answer);
    for (int i = 0; i < FINDERS; i++)
        given[i] = find_by(i, t, place, answer[i], lent);
    bool same = given[BY_LIBRARY] == given[BY_BASELINE] && memcmp(answer[BY_LIBRARY], answer[BY_BASELINE], sizeof answer[0]) == 0;
    bool same_there = given[IN_SEGMENT] == given[BY_BASELINE] && memcmp(answer[IN_SEGMENT], answer[BY_BASELINE], sizeof answer[0]) == 0;
    if (!same || (was_read && !same_there) || given[IN_SEGMENT] > 2 || (given[IN_SEGMENT] && !given[BY_BASELINE])) {
        fprintf(stderr, "place %u %u %u %u %u, answers %u %u %u\n", place[0], place[1], place[2], place[3], place[4],
                given[BY_LIBRARY], given[IN_SEGMENT], given[BY_BASELINE]);
        show(same ? "looking up within the segment" : "looking up", m);
    }
    lookups++;
    segment_lookups += was_read;
    sought[given[BY_BASELINE]]++;
}

/* ---- damage to messages ---- */

static void replace(struct message *m, size_t at, size_t gone, const void *by, size_t come)
{
    if (at > m->length)
        at = m->length;
    if (gone > m->length - at)
        gone = m->length - at;
    if (m->length - gone + come > MESSAGE)
        return;
    memmove(m->bytes + at + come, m->bytes + at + gone, m->length - at - gone);
    memcpy(m->bytes + at, by, come);
    m->length += come - gone;
}

static uint8_t telling_byte(void)
{
    static const uint8_t telling[] = "||~^\\&\r\r\n\0\x1f\x20\x7f\x80\xff" "AHPLCOBXR1";
    return telling[below(sizeof telling - 1)];
}

static const char *name(void)
{
    static const char *const all[] = { "H", "P", "AP", "AC", "OBR", "OBX", "FAC", "REG", "ACT", "ERR", "L", "C", "A", "", "OB", "XYZ" };
    return all[below(below(4) ? 12 : 16)];
}

/* The place after some CR, where a line begins. */
static size_t some_line(const struct message *m)
{
    size_t at = below(m->length + 1);
    while (at < m->length && at > 0 && m->bytes[at - 1] != 13)
        at++;
    return at;
}

static void change_bytes(struct message *m)
{
    size_t at = below(m->length + 1);
    uint8_t b = below(3) ? telling_byte() : (uint8_t)below(256);
    switch (below(4)) {
    case 0: replace(m, at, 1, &b, 1); break;
    case 1: replace(m, at, 1, &b, 0); break;
    case 2: replace(m, at, 0, &b, 1); break;
    default: replace(m, below(8), below(2), &b, 1); break; /* the header */
    }
}

/* A line is cut, a cut is mended, bytes that are ignored come in, or a line grows long. */
static void change_lines(struct message *m)
{
    uint8_t much[300];
    size_t at = below(m->length + 1);
    uint8_t field = m->length > 1 ? m->bytes[1] : '|';
    uint8_t cut[3] = { 13, 'A', field };
    switch (below(6)) {
    case 0: case 1: replace(m, at, 0, cut, 3); break;
    case 2: replace(m, some_line(m), 0, cut + 1, 2); break;
    case 3: replace(m, some_line(m), 0, "\n\r\t", 1 + below(3)); break;
    case 4: replace(m, some_line(m) - 1, 1, "", 0); break;
    default:
        memset(much, below(2) ? 'x' : field, sizeof much);
        replace(m, at, 0, much, 1 + below(below(2) ? 300 : 30));
    }
}

/* Segments come, go, double or are named otherwise. */
static void change_segments(struct message *m)
{
    uint8_t line[400];
    size_t at = some_line(m), end = at;
    while (end < m->length && end - at < sizeof line && m->bytes[end++] != 13)
        ;
    size_t named = at;
    while (named < end && m->bytes[named] >= 'A' && m->bytes[named] <= 'Z')
        named++;
    const char *other = name();
    memcpy(line, m->bytes + at, end - at);
    switch (below(5)) {
    case 0: replace(m, at, end - at, "", 0); break;
    case 1: replace(m, at, 0, line, end - at); break;
    case 2: replace(m, at, named - at, other, strlen(other)); break;
    case 3: replace(m, at, 0, "\r", 1); replace(m, at, 0, other, strlen(other)); break;
    default: replace(m, some_line(m), 0, line, end - at); break;
    }
}

/* Past a limit of a form: of segments, of leaves, of bytes. */
static void swell(struct message *m, const struct form *form)
{
    static uint8_t much[2 * SARGACEU_LARGE_SEGMENTS];
    size_t at = some_line(m), lines = form->segments / SARGACEU_SEGMENT_ROW - 56 + below(100), left;
    switch (below(4)) {
    case 0:
        for (size_t i = 0; i < lines; i++)
            memcpy(much + 2 * i, "C\r", 2);
        replace(m, at, 0, much, 2 * lines);
        break;
    case 1:
        for (size_t i = 0; i <= form->leaves / SARGACEU_LEAF_ROW / 200; i++) {
            memset(much, "|~^&"[below(4)], 200);
            memcpy(much + 200, "\rA|", 3);
            replace(m, below(2) ? at : m->length, 0, much, 203);
        }
        break;
    case 2: replace(m, m->length, 0, "\n\n\n", below(4)); break;
    default:
        memset(much, '\n', 2300);
        while (m->length + 2200 < form->message)
            replace(m, m->length, 0, much, 2200);
        left = m->length < form->message ? form->message - m->length : 0;
        replace(m, m->length, 0, much, below(2) ? left + below(3) : below(2200));
    }
}

static void damage(struct message *m, const struct form *form)
{
    size_t kind = below(40);
    if (kind == 0)
        swell(m, form);
    else if (kind < 16)
        change_bytes(m);
    else if (kind < 28)
        change_lines(m);
    else
        change_segments(m);
}

/* One of the buffers around its least size, now and then; and for the small form now and then a number that is no form's. */
static struct lent some_lent(uint8_t form)
{
    struct lent lent = whole[form];
    const struct form *f = &forms[form];
    size_t *const sizes[] = { &lent.text, &lent.segments, &lent.leaves, &lent.answer, &lent.card, &lent.output };
    const size_t edges[] = { f->text, f->segments, f->leaves, 3, SARGACEU_CARD, f->output };
    size_t which = below(60);
    if (which < 6)
        *sizes[which] = edges[which] - 1 + below(which == 4 ? 2 : 3);
    if (form == SARGACEU_SMALL && below(16) == 0)
        lent.form = (uint8_t)(2 + below(254));
    return lent;
}

/* ---- invented messages ---- */

/* Grammar followed mostly: by context, the kinds that may follow each kind, as letters of `order`. */
static const char order[] = "?HPVWRXFGTELC"; /* V AP, W AC, R OBR, X OBX, F FAC, G REG, T ACT, E ERR */
static const char *const spelled[] = { "", "H", "P", "AP", "AC", "OBR", "OBX", "FAC", "REG", "ACT", "ERR", "L", "C" };
static const char *const contexts[8] = { "XXX", "ADM", "ORM", "ORA", "REG", "ERR", "ORU", "FAC" };
static const char *const after[8][13] = {
    [1] = { [1] = "P", [2] = "PVL", [3] = "PWL", [4] = "PWL" },
    [2] = { [1] = "P", [2] = "R", [5] = "PRXL", [6] = "PRXL" },
    [3] = { [1] = "P", [2] = "V", [3] = "WR", [4] = "WR", [5] = "PRXL", [6] = "PRXL" },
    [4] = { [1] = "P", [2] = "G", [8] = "PGL" },
    [5] = { [1] = "E", [10] = "EL" },
    [6] = { [1] = "P", [2] = "R", [5] = "X", [6] = "PRXL" },
    [7] = { [1] = "P", [2] = "VF", [3] = "WF", [4] = "WF", [7] = "PFGTL", [8] = "PFGTL", [9] = "PFTL" },
};

void add(struct message *m, const char *text)
{
    replace(m, m->length, 0, text, strlen(text));
}

static void invent_fields(struct message *m, const char *split)
{
    static const char *const texts[] = { "", "", "a", "12", "TEXT", "\xe9", "a longer text, of some words", "\\" };
    for (size_t i = below(12); i > 0; i--) {
        char s[2] = { split[below(3) ? 0 : below(4)], 0 };
        add(m, s);
        add(m, texts[below(8)]);
    }
}

/* Lines are cut at places that the writer would never choose. */
static void cut(struct message *m, size_t from)
{
    uint8_t piece[3] = { 13, 'A', m->bytes[1] };
    for (size_t at = from + 1 + below(60); at + 1 < m->length; at += 1 + below(200))
        replace(m, at, 0, piece, 3);
}

static void invent(struct message *m)
{
    static const char *const headers[] = { "H|~^\\&|", "H!#$%:!", "H\\|~^&\\" };
    static const char *const splits[] = { "|~^&", "!#$:", "\\|~&" };
    size_t style = below(3), context = 1 + below(7), kind = 1, most = 1 + below(below(20) ? 30 : 300);
    char field[2] = { splits[style][0], 0 };
    bool cuts = below(2);
    m->length = 0;
    add(m, headers[style]);
    for (int i = 0; i < 4; i++)
        add(m, field);
    add(m, contexts[below(50) ? context : below(8)]);
    for (size_t i = 0; kind != 11 && m->length < SARGACEU_SMALL_MESSAGE * 3 / 2; i++) {
        size_t from = i ? m->length : 7;
        add(m, i ? spelled[kind] : below(2) ? field : "");
        if (below(8) && (i || m->bytes[m->length - 1] == (uint8_t)field[0]))
            invent_fields(m, splits[style]);
        if (i && below(8) == 0) {
            add(m, "\rC");
            invent_fields(m, splits[style]);
        }
        if (cuts && below(3) == 0)
            cut(m, from);
        add(m, below(10) ? "\r" : "\r\n");
        const char *next = after[context][kind];
        if (!next)
            break;
        kind = (size_t)(strchr(order, i < most ? next[below(strlen(next))] : next[strlen(next) - 1]) - order);
        if (below(200) == 0)
            kind = 1 + below(12);
    }
    if (kind == 11)
        add(m, below(3) ? "L\r" : field[0] == '|' ? "L|1|x\rA|y\r" : "L\r");
}

/* ---- damage to tables ---- */

/* What 16 bits would not tell apart among them. */
static void nudge(uint32_t *number)
{
    switch (below(6)) {
    case 0: ++*number; break;
    case 1: --*number; break;
    case 2: *number = (uint32_t)below(13); break;
    case 3: *number = (uint32_t)below(65536); break;
    case 4: *number += 65536; break;
    default: *number = below(2) ? UINT32_MAX - (uint32_t)below(3) : (uint32_t)below(SIZE_MAX); break;
    }
}

/* The border between two texts moves, which keeps a table sound unless a name or the header is hit. */
static void move_border(struct table *t)
{
    size_t many = t->answer[4];
    if (many < 2 || many > forms[t->form].leaves / SARGACEU_LEAF_ROW)
        return;
    uint32_t *row = t->leaves + SARGACEU_LEAF_ROW * below(many - 1), *next = row + SARGACEU_LEAF_ROW;
    if (below(2) && row[6] > 0) {
        row[6]--, next[5]--, next[6]++;
    } else if (next[6] > 0) {
        row[6]++, next[5]++, next[6]--;
    }
}

/* The widest separator and context and one more, and counts whose rows would have more numbers than a size_t can say. */
static size_t telling_count(void)
{
    static const size_t telling[] = {
        UINT8_MAX, UINT8_MAX + 1, SIZE_MAX / SARGACEU_LEAF_ROW + 1, SIZE_MAX / SARGACEU_SEGMENT_ROW + 1, SIZE_MAX - 1, SIZE_MAX
    };
    return telling[below(sizeof telling / sizeof *telling)];
}

/* The last leaf or the last segment is no longer counted, or one more is. */
static void move_count(struct table *t)
{
    size_t which = 1 + below(5);
    switch (below(3)) {
    case 0: t->answer[which]++; break;
    case 1: t->answer[which]--; break;
    default: t->answer[which] = below(2) ? below(forms[t->form].message * 5 / 4) : telling_count(); break;
    }
}

/*
 * Long texts make a table that no message is short enough for: the last leaf's text goes on to the end of the text area. That takes a while in
 * the large form, and it mostly goes on for less there.
 */
static void stretch(struct table *t)
{
    size_t text = forms[t->form].text, many = t->answer[4];
    if (t->form != SARGACEU_SMALL && below(64))
        text = 3 * SARGACEU_SMALL_TEXT;
    size_t bytes = below(2) ? text - below(300) : below(text);
    if (bytes <= t->answer[5] || many == 0 || many > forms[t->form].leaves / SARGACEU_LEAF_ROW || t->answer[5] > whole[t->form].text)
        return;
    memset(t->text + t->answer[5], 'x', bytes - t->answer[5]);
    uint32_t *row = t->leaves + SARGACEU_LEAF_ROW * (many - 1);
    row[6] += (uint32_t)(bytes - t->answer[5]);
    t->answer[5] = bytes;
    t->reach.text = most(t->reach.text, bytes);
}

/* The leaves that the card counts, as far as the form has them. */
static size_t counted_leaves(const struct table *t)
{
    return least(t->answer[4], forms[t->form].leaves / SARGACEU_LEAF_ROW);
}

/* Two leaves get one place, and the first of them may reach up to the text's end or beyond. */
static void double_place(struct table *t)
{
    size_t many = counted_leaves(t);
    if (many < 2)
        return;
    size_t first = below(many - 1), second = first + 1 + below(many - 1 - first);
    uint32_t *row = t->leaves + first * SARGACEU_LEAF_ROW;
    memcpy(t->leaves + second * SARGACEU_LEAF_ROW, row, PLACE * sizeof *row);
    if (below(2))
        row[6] = (uint32_t)(t->answer[5] - row[5] + below(2));
}

static void damage_table(struct table *t)
{
    size_t rows = least(t->answer[3], forms[t->form].segments / SARGACEU_SEGMENT_ROW), leaves = counted_leaves(t);
    size_t bytes = least(t->answer[5], forms[t->form].text);
    switch (below(13)) {
    case 0: case 1: nudge(t->segments + below(rows * SARGACEU_SEGMENT_ROW)); break;
    case 2: case 3: case 4: nudge(t->leaves + below(leaves * SARGACEU_LEAF_ROW)); break;
    case 5: case 6: t->text[below(below(4) ? bytes : 8)] = below(2) ? telling_byte() : (uint8_t)below(256); break;
    case 7: case 8: case 9: move_border(t); break;
    case 10: stretch(t); break;
    case 11: double_place(t); break;
    default: move_count(t);
    }
}

/* ---- comparing lookups ---- */

/* Buffers just as long as the card counts, as far as there are any, now and then one of them short by one; and any answer. */
static struct lent just_lent(const struct table *t)
{
    struct lent lent = whole[t->form];
    size_t *const sizes[] = { &lent.segments, &lent.leaves, &lent.text, &lent.card };
    if (t->answer[3] < lent.segments / SARGACEU_SEGMENT_ROW)
        lent.segments = t->answer[3] * SARGACEU_SEGMENT_ROW;
    if (t->answer[4] < lent.leaves / SARGACEU_LEAF_ROW)
        lent.leaves = t->answer[4] * SARGACEU_LEAF_ROW;
    lent.text = least(t->answer[5], lent.text);
    lent.answer = below(4);
    size_t *size = sizes[below(4)];
    if (below(16) == 0 && *size > 0)
        --*size;
    return lent;
}

/* Places beside a leaf's: one number is one more or one less. */
enum { BESIDE = 2 * PLACE };

/* A leaf's place and so many of those beside it, all of them or any. */
static void look_around(const struct table *t, const uint32_t *row, size_t beside, bool was_read, const struct message *m)
{
    uint32_t place[PLACE];
    same_lookup(t, row, just_lent(t), was_read, m);
    for (size_t i = 0; i < beside; i++) {
        size_t which = beside == BESIDE ? i : below(BESIDE);
        memcpy(place, row, sizeof place);
        place[which / 2] += which % 2 ? 1u : -1u;
        same_lookup(t, place, just_lent(t), was_read, m);
    }
}

/* Places of segments that are none. */
static void look_outside(const struct table *t, bool was_read, const struct message *m)
{
    const uint32_t none[] = { 0, (uint32_t)(t->answer[3] + 1), 65536, UINT32_MAX };
    for (size_t i = 0; i < sizeof none / sizeof *none; i++)
        same_lookup(t, (uint32_t[PLACE]){ none[i], 1, 1, 1, 1 }, just_lent(t), was_read, m);
}

/*
 * The places of all leaves of a table that a reading gave, and all places beside each, or one. A lookup takes no form: in the large one those of
 * some leaves, the first and the last among them.
 */
static void compare_lookups(const struct table *t, bool all, const struct message *m)
{
    enum { SOME = 24 };
    size_t many = t->answer[4], step = t->form == SARGACEU_SMALL ? 1 : many / SOME + 1;
    for (size_t leaf = 0; leaf < many; leaf += step)
        look_around(t, t->leaves + leaf * SARGACEU_LEAF_ROW, all ? BESIDE : 1, true, m);
    look_around(t, t->leaves + (many - 1) * SARGACEU_LEAF_ROW, 1, true, m);
    look_outside(t, true, m);
}

/* The places of the leaves that the damage changed, as they were and as they are, and of one leaf more. */
static void compare_damaged_lookups(const struct table *was, const struct table *t, struct lent lent, const struct message *m)
{
    const uint32_t *any = t->leaves + below(counted_leaves(t)) * SARGACEU_LEAF_ROW;
    lent.answer = below(4);
    same_lookup(t, any, lent, false, m);
    look_around(t, any, 1, false, m);
    look_outside(t, false, m);
    for (size_t at = 0; at + SARGACEU_LEAF_ROW <= was->reach.leaves; at += SARGACEU_LEAF_ROW) {
        if (memcmp(was->leaves + at, t->leaves + at, SARGACEU_LEAF_ROW * sizeof *t->leaves) == 0)
            continue;
        same_lookup(t, t->leaves + at, lent, false, m);
        look_around(t, was->leaves + at, 1, false, m);
        look_around(t, t->leaves + at, 1, false, m);
    }
}

/* ---- the modes ---- */

/* A table of the large form, by the sizes of the small one: the number is 0 where it is within them, and else 13. */
static void compare_as_small(const struct table *t, const struct message *m)
{
    struct lent lent = whole[t->form];
    lent.form = below(2) ? SARGACEU_SMALL : (uint8_t)(2 + below(254));
    same_writing(t, lent, m);
    compare_screening(t, lent, m);
}

/*
 * The table of a message that reads is written, and what was written reads to the same table; its leaves are looked up; then the table is
 * damaged.
 */
static void compare_tables(const struct message *m, uint8_t form, size_t damaged, bool all)
{
    static struct message back;
    static struct table kept[FORMS], others[FORMS];
    struct table *t = &kept[form], *other = &others[form];
    if (!t->text) {
        make_table(t, form);
        make_table(other, form);
    }
    copy_table(t, &tables[form][0]);
    if (same_writing(t, whole[form], m) != 0)
        show("the table of a message is refused", m);
    back.length = answers[0][1];
    memcpy(back.bytes, outputs[form][0], back.length);
    copy_table(other, t);
    if (read_by(0, &back, other, whole[form]) != 0 || !same_tables(other, t, t->reach))
        show("what was written reads to another table", m);
    if (form != SARGACEU_SMALL)
        compare_as_small(t, m);
    compare_lookups(t, all, m);
    compare_orders(t, whole[form], all, m);
    compare_screening(t, whole[form], m);
    for (size_t i = 0; i < damaged; i++) {
        struct lent lent = some_lent(form);
        copy_table(other, t);
        for (size_t n = 1 + below(3); n > 0; n--)
            damage_table(other);
        same_writing(other, lent, m);
        compare_damaged_lookups(t, other, lent, m);
        compare_orders(other, lent, false, m);
        compare_screening(other, lent, m);
    }
}

/* What both forms accept they read to one table; and what the small form refuses for another reason than its sizes, the large one refuses too. */
static void compare_forms(uint8_t small, uint8_t large, const struct message *m)
{
    const struct table *a = &tables[SARGACEU_SMALL][0], *b = &tables[SARGACEU_LARGE][0];
    if (small == 1 || small == 2 || small == 7 || small == 11 || large == 1)
        return;
    struct reach counted = { a->answer[5], a->answer[3] * SARGACEU_SEGMENT_ROW, a->answer[4] * SARGACEU_LEAF_ROW };
    if (small != large || !same_tables(a, b, counted))
        show("the two forms give two tables, or refuse differently", m);
}

/* In both forms; of a table of the large one fewer are damaged. */
static void compare_one(const struct message *m, size_t damaged)
{
    uint8_t small = same_reading(m, SARGACEU_SMALL, some_lent(SARGACEU_SMALL)), large = same_reading(m, SARGACEU_LARGE, some_lent(SARGACEU_LARGE));
    compare_forms(small, large, m);
    if (small == 0)
        compare_tables(m, SARGACEU_SMALL, damaged, false);
    if (large == 0)
        compare_tables(m, SARGACEU_LARGE, (damaged + 1) / 2, false);
}

void load(struct message *m, const char *path)
{
    FILE *file = fopen(path, "rb");
    if (!file) {
        perror(path);
        exit(2);
    }
    m->length = fread(m->bytes, 1, MESSAGE, file);
    fclose(file);
}

static void copy_message(struct message *to, const struct message *from)
{
    to->length = from->length;
    memcpy(to->bytes, from->bytes, from->length);
}

/* ---- messages at the limits ---- */

/* The least buffers that do, each of them, and one element fewer; and the outputs of just so many bytes. */
static void compare_sizes(const struct message *m, uint8_t form)
{
    const struct form *f = &forms[form];
    const size_t edges[] = { f->text, f->segments, f->leaves };
    for (size_t i = 0; i < 8; i++) {
        struct lent lent = whole[form];
        size_t *const sizes[] = { &lent.text, &lent.segments, &lent.leaves };
        for (size_t which = 0; which < 3; which++)
            *sizes[which] = edges[which] - (i >> which & 1);
        if (same_reading(m, form, lent) != (i ? SARGACEU_SHORT_BUFFER : SARGACEU_ACCEPTED))
            show("a short buffer", m);
    }
    same_reading(m, form, whole[form]);
    for (size_t i = 0; i < 2; i++) {
        struct lent lent = whole[form];
        lent.output = f->output - i;
        if (same_writing(&tables[form][0], lent, m) != (i ? SARGACEU_SHORT_OUTPUT : SARGACEU_ACCEPTED))
            show("a short output", m);
    }
}

/* A message that is just within a limit, and then one past it. */
static void compare_within(const struct message *m, uint8_t form, size_t damaged)
{
    if (same_reading(m, form, whole[form]) != SARGACEU_ACCEPTED)
        show("a message at a limit is refused", m);
    compare_tables(m, form, damaged, false);
    compare_sizes(m, form);
}

static void compare_past_limit(const struct message *m, uint8_t form, uint8_t number)
{
    if (same_reading(m, form, whole[form]) != number)
        show("a message past a limit", m);
}

static void begin(struct message *m)
{
    m->length = 0;
    add(m, "H|~^\\&|||LAB||ORU\rP|1\rOBR|1\rOBX|1|TX|A||");
}

static void add_many(struct message *m, size_t many, const char *text)
{
    for (; many > 0; many--)
        add(m, text);
}

/* One text in filled lines, so that it is written as it was read, and just so many bytes in all. */
static void of_bytes(struct message *m, size_t bytes)
{
    static const char end[] = "\rL|1\r";
    enum { LINE = 219 };
    begin(m);
    for (size_t room = LINE - 12; m->length < bytes - 5; room = LINE - 2) {
        add_many(m, least(room, bytes - 5 - m->length), "x");
        if (m->length < bytes - 5 - 4)
            add(m, "\rA|");
    }
    add(m, end);
}

static void of_segments(struct message *m, size_t segments)
{
    begin(m);
    add(m, "\r");
    add_many(m, segments - 5, "C|1\r");
    add(m, "L\r");
}

/* A comment has up to 200 leaves. */
static void of_leaves(struct message *m, size_t leaves)
{
    enum { HEAD = 17, END = 1, MOST = 200 };
    begin(m);
    add(m, "\r");
    for (size_t left = leaves - HEAD - END; left > 0; left -= least(left, MOST)) {
        add(m, "C");
        add_many(m, least(left, MOST) - 1, "|");
        add(m, "\r");
    }
    add(m, "L\r");
}

/* The table whose message has all the bytes is written, and with one byte more in its last leaf it is none. */
static void compare_longer(const struct message *m, uint8_t form)
{
    static struct table longer[FORMS];
    struct table *t = &longer[form];
    make_table(t, form);
    if (read_by(0, m, t, whole[form]) != 0 || same_writing(t, whole[form], m) != 0 || answers[0][1] != forms[form].message)
        show("the longest message is not written", m);
    t->text[t->answer[5]++] = '1';
    t->leaves[(t->answer[4] - 1) * SARGACEU_LEAF_ROW + 6]++;
    if (same_writing(t, whole[form], m) != SARGACEU_NO_TABLE)
        show("the table of a message past the longest is written", m);
}

static void compare_limits(uint8_t form)
{
    static struct message m;
    const struct form *f = &forms[form];
    size_t damaged = form == SARGACEU_SMALL ? 100 : 8;
    of_bytes(&m, f->message);
    compare_within(&m, form, damaged);
    compare_longer(&m, form);
    add(&m, "\n");
    compare_past_limit(&m, form, SARGACEU_LONG_MESSAGE);
    of_segments(&m, f->segments / SARGACEU_SEGMENT_ROW);
    compare_within(&m, form, damaged);
    of_segments(&m, f->segments / SARGACEU_SEGMENT_ROW + 1);
    compare_past_limit(&m, form, SARGACEU_MANY_SEGMENTS);
    of_leaves(&m, f->leaves / SARGACEU_LEAF_ROW);
    compare_within(&m, form, damaged);
    of_leaves(&m, f->leaves / SARGACEU_LEAF_ROW + 1);
    compare_past_limit(&m, form, SARGACEU_MANY_LEAVES);
}

/* ---- all that is compared ---- */

/* A measured message, in the forms that have room for it; damaged in messages and in tables, the fewer the longer it is. */
static void compare_measured(const char *path)
{
    static struct message m, damaged;
    enum { TABLES = 400, MESSAGES = 600, CUT = 100 };
    load(&m, path);
    bool small = m.length <= SARGACEU_SMALL_MESSAGE;
    size_t share = small ? 1 : m.length / 4096;
    for (uint8_t form = small ? SARGACEU_SMALL : SARGACEU_LARGE; form < FORMS; form++) {
        if (same_reading(&m, form, whole[form]) != 0)
            show("a measured message is refused", &m);
        compare_tables(&m, form, form == SARGACEU_SMALL ? TABLES : TABLES / 4 / share + 4, true);
    }
    for (size_t n = 0; n < MESSAGES / share + 4; n++) {
        copy_message(&damaged, &m);
        for (size_t d = 1 + below(3); d > 0; d--)
            damage(&damaged, &forms[small ? SARGACEU_SMALL : SARGACEU_LARGE]);
        compare_one(&damaged, 2);
    }
    copy_message(&damaged, &m);
    for (size_t n = 0; n < CUT / share + 1 && damaged.length > 0; n++, damaged.length--)
        for (uint8_t form = small ? SARGACEU_SMALL : SARGACEU_LARGE; form < FORMS; form++)
            same_reading(&damaged, form, whole[form]);
}

static void report(const char *name, const struct counts *c)
{
    printf("%s form: library and baseline agree on %zu messages, %zu of them accepted, and on %zu tables, %zu of them written\n", name,
           c->cases, c->accepted, c->tables, c->written);
    for (int i = 0; i < 14; i++)
        printf("%s%d: %zu", i ? ", " : "answers by number: ", i, c->numbers[i]);
    printf("\n");
}

static int compare(int files, char **file)
{
    static struct message m;
    for (uint8_t form = 0; form < FORMS; form++) {
        for (int i = 0; i < 2; i++) {
            make_table(&tables[form][i], form);
            outputs[form][i] = room(whole[form].output);
        }
    }
    for (int i = 0; i < files; i++)
        compare_measured(file[i]);
    for (size_t n = 0; n < 12000; n++) {
        invent(&m);
        if (n % 3)
            damage(&m, &forms[SARGACEU_SMALL]);
        compare_one(&m, 4);
    }
    for (size_t n = 0; n < 4000; n++) {
        invent_orders(&m);
        compare_one(&m, 4);
    }
    for (size_t n = 0; n < 8000; n++) {
        invent_report(&m);
        compare_one(&m, 1);
    }
    for (size_t n = 0; n < 12000; n++) {
        invent_codes(&m);
        if (n % 8 == 0)
            damage(&m, &forms[SARGACEU_SMALL]);
        for (uint8_t form = 0; form < FORMS; form++)
            same_reading(&m, form, some_lent(form));
    }
    for (uint8_t form = 0; form < FORMS; form++) {
        compare_limits(form);
        compare_all(form, &m);
    }
    compare_values();
    report("small", &counts[SARGACEU_SMALL]);
    report("large", &counts[SARGACEU_LARGE]);
    printf("and on %zu lookups, %zu of them within the segment too: %zu found, %zu found empty, %zu not there\n", lookups, segment_lookups,
           sought[SARGACEU_FOUND], sought[SARGACEU_FOUND_EMPTY], sought[SARGACEU_NOT_THERE]);
    report_values();
    report_screening();
    report_indexing();
    return 0;
}

static void repeat(bool writing, int which, const struct message *m, uint8_t *output, size_t times)
{
    size_t answer[3];
    struct lent lent = whole[held.form];
    if (!writing) {
        for (size_t i = 0; i < times; i++)
            read_by(which, m, &held, lent);
        return;
    }
    for (size_t i = 0; i < times; i++)
        write_by(which, &held, output, answer, lent);
}

/* The table is read by the one that is not counted, so that its instructions can be left out of the log. */
static int run(bool writing, uint8_t form, const char *who, const char *path, size_t times)
{
    static struct message m;
    int which = strcmp(who, names[1]) == 0;
    load(&m, path);
    make_table(&held, form);
    if (read_by(!which, &m, &held, whole[form]) != 0) {
        fprintf(stderr, "driver: %s is refused\n", path);
        return 1;
    }
    repeat(writing, which, &m, room(whole[form].output), times);
    return 0;
}

/* ---- measured lookups ---- */

const char *name_in(const char *path)
{
    const char *slash = strrchr(path, '/');
    return slash ? slash + 1 : path;
}

/* Messages for lookups are named by the leaves that they have. */
static const char for_lookups[] = "leaves-";

static bool is_for_lookups(const char *path)
{
    return strncmp(name_in(path), for_lookups, strlen(for_lookups)) == 0;
}

/* The field of a result's value, 10.6. */
enum { VALUE = 6 };

/* Reads a message for lookups and answers the row of its last result, whose value is looked up. Another shape would measure another thing. */
static uint32_t last_result(const char *path)
{
    static struct message m;
    enum { LAST_LEAVES = 11 };
    load(&m, path);
    make_table(&held, SARGACEU_SMALL);
    if (!is_for_lookups(path) || read_by(0, &m, &held, whole[SARGACEU_SMALL]) != 0) {
        fprintf(stderr, "driver: %s is refused, or is no message for lookups\n", path);
        exit(1);
    }
    size_t row = held.answer[3], answer[3], leaves = strtoul(name_in(path) + strlen(for_lookups), NULL, 10);
    while (row > 1 && held.segments[(row - 1) * SARGACEU_SEGMENT_ROW] != SARGACEU_OBX)
        row--;
    size_t last = held.segments[(row - 1) * SARGACEU_SEGMENT_ROW + 3];
    const uint32_t place[PLACE] = { (uint32_t)row, VALUE, 1, 1, 1 };
    uint8_t found = find_by(BY_BASELINE, &held, place, answer, whole[SARGACEU_SMALL]);
    if (held.answer[4] != leaves || last != LAST_LEAVES || found != SARGACEU_FOUND) {
        fprintf(stderr, "driver: %s has %zu leaves, %zu of them in its last result: not the shape that is measured\n", path, held.answer[4], last);
        exit(1);
    }
    return place[0];
}

static void repeat_lookup(int which, uint32_t row, size_t times)
{
    size_t answer[SARGACEU_LEAF_ANSWER];
    for (size_t i = 0; i < times; i++)
        finders[which](held.answer + 1, SARGACEU_CARD, held.segments, SARGACEU_SMALL_SEGMENTS, held.leaves, SARGACEU_SMALL_LEAVES,
                       held.text, SARGACEU_SMALL_TEXT, row, VALUE, 1, 1, 1, answer, SARGACEU_LEAF_ANSWER);
}

static int run_lookups(const char *who, const char *path, size_t times)
{
    int which = 0;
    while (which < FINDERS && strcmp(who, finder_names[which]) != 0)
        which++;
    if (which == FINDERS) {
        fprintf(stderr, "driver: %s looks nothing up\n", who);
        return 2;
    }
    repeat_lookup(which, last_result(path), times);
    return 0;
}

/* ---- times ---- */

double seconds(void)
{
    struct timespec t;
    clock_gettime(CLOCK_MONOTONIC, &t);
    return (double)t.tv_sec + 1e-9 * (double)t.tv_nsec;
}

void keep_least(double *least, double began, size_t times)
{
    double took = (seconds() - began) / (double)times;
    if (took < *least)
        *least = took;
}

/* Nanoseconds a byte, of the library and of the baseline. */
static void time_one(bool writing, const struct message *m, uint8_t *output)
{
    double least[2] = { 1e9, 1e9 };
    size_t times = 20000000 / (m->length + 100) + 1;
    for (int round = 0; round < 9; round++) {
        for (int which = 0; which < 2; which++) {
            double began = seconds();
            repeat(writing, which, m, output, times);
            keep_least(&least[which], began, times);
        }
    }
    double bytes = (double)m->length;
    printf(" %8.3f %8.3f %6.2f", 1e9 * least[0] / bytes, 1e9 * least[1] / bytes, least[0] / least[1]);
}

/* Nanoseconds a lookup, of all three. */
static void time_lookups(const char *path)
{
    enum { TIMES = 20000 };
    double least[FINDERS] = { 1e9, 1e9, 1e9 };
    uint32_t row = last_result(path);
    for (int round = 0; round < 9; round++) {
        for (int which = 0; which < FINDERS; which++) {
            double began = seconds();
            repeat_lookup(which, row, TIMES);
            keep_least(&least[which], began, TIMES);
        }
    }
    printf("%-12s %8.1f %10.1f %8.1f %6.2f\n", name_in(path), 1e9 * least[BY_LIBRARY], 1e9 * least[IN_SEGMENT], 1e9 * least[BY_BASELINE],
           least[BY_LIBRARY] / least[BY_BASELINE]);
}

static int time_all(int files, char **file)
{
    static struct message m;
    printf("%-13s %26s %26s\n", "ns a byte", "reading: library, baseline", "writing: library, baseline");
    for (int i = 0; i < files; i++) {
        if (is_for_lookups(file[i]) || is_for_orders(file[i]) || is_for_screening(file[i]))
            continue;
        load(&m, file[i]);
        uint8_t form = m.length > SARGACEU_SMALL_MESSAGE ? SARGACEU_LARGE : SARGACEU_SMALL, *output = room(whole[form].output);
        make_table(&held, form);
        if (read_by(1, &m, &held, whole[form]) != 0)
            return 1;
        printf("%-13s", name_in(file[i]));
        time_one(false, &m, output);
        time_one(true, &m, output);
        printf("\n");
    }
    printf("\n%-12s %8s %10s %8s %6s\n", "ns a lookup", "library", "in segment", "baseline", "ratio");
    for (int i = 0; i < files; i++)
        if (is_for_lookups(file[i]))
            time_lookups(file[i]);
    time_values();
    printf("\n%-14s %8s %8s %8s %8s %8s %8s %6s %6s\n", "ns an order", "library", "just", "its test", "baseline", "just", "its test", "ratio", "just");
    for (int i = 0; i < files; i++)
        if (is_for_orders(file[i]))
            time_orders(file[i]);
    printf("\n%-14s %8s %8s %8s %8s %6s\n", "ns a report", "library", "its test", "baseline", "its test", "ratio");
    for (int i = 0; i < files; i++)
        if (is_for_screening(file[i]))
            time_screening(file[i]);
    printf("\n%-12s %5s %8s %8s %6s  %8s %8s %6s  %6s\n", "ns a reading", "codes", "library", "plain", "ratio", "baseline", "plain", "ratio", "ratio");
    for (int i = 0; i < files; i++)
        if (is_for_indexing(file[i]))
            time_indexing(file[i]);
    return 0;
}

static const char *const run_modes[FORMS][2] = { { "read", "write" }, { "read-large", "write-large" } };

int main(int words, char **word)
{
    if (words > 2 && strcmp(word[1], "compare") == 0)
        return compare(words - 2, word + 2);
    if (words > 2 && strcmp(word[1], "time") == 0)
        return time_all(words - 2, word + 2);
    for (uint8_t form = 0; words == 5 && form < FORMS; form++)
        for (int writing = 0; writing < 2; writing++)
            if (strcmp(word[1], run_modes[form][writing]) == 0)
                return run(writing, form, word[2], word[3], strtoul(word[4], NULL, 10));
    if (words == 5 && strcmp(word[1], "find") == 0)
        return run_lookups(word[2], word[3], strtoul(word[4], NULL, 10));
    if (words == 5 && is_indexing(word[1]))
        return run_indexing(word[1], word[2], word[3], strtoul(word[4], NULL, 10));
    if (words == 5 && is_for_screening(word[3]) && run_screening(word[1], word[2], word[3], strtoul(word[4], NULL, 10)) == 0)
        return 0;
    if (words == 5 && run_values(word[1], word[2], word[3], strtoul(word[4], NULL, 10)) == 0)
        return 0;
    fprintf(stderr, "usage: driver compare FILE... | driver read|write|read-large|write-large library|baseline FILE N | driver find library|segment|baseline FILE N"
                    " | driver read-value|write-value library|baseline SAMPLE N | driver order-values|order-values-just|is-table"
                    "|screen|read-indexed-0|read-indexed-100|read-indexed-512 library|baseline FILE N"
                    " | driver time FILE...\n");
    return 2;
}
