/* Trials of the functions that take a message, and of the order watcher. */
#include "hostile.h"

#include <stdio.h>
#include <string.h>

static struct message drawn;
static struct table read, again;
static uint8_t written[SARGACEU_LARGE_OUTPUT];

/* What the reader is to answer, by plain loops; the table is read in ordinary memory where it is accepted. */
static struct outcome expected_outcome(uint8_t form, struct room room)
{
    if (is_short(room, form))
        return (struct outcome){ SARGACEU_SHORT_BUFFER, 0 };
    struct outcome expected = plain_outcome(form, drawn.bytes, drawn.length);
    if (expected.number == SARGACEU_ACCEPTED) {
        size_t place;
        if (read_table(form, drawn.bytes, drawn.length, &read, &place) != SARGACEU_ACCEPTED)
            fail("refused, and a plain reading accepts");
        expect_owners(&read);
    }
    return expected;
}

static void expect_table(uint8_t number)
{
    bool accepted = number == SARGACEU_ACCEPTED;
    expect_front(TEXT, read.text, accepted ? read.card[CARD_TEXT] : 0);
    expect_front(SEGMENTS, read.segments, accepted ? read.card[CARD_SEGMENTS] * SARGACEU_SEGMENT_ROW : 0);
    expect_front(LEAVES, read.leaves, accepted ? read.card[CARD_LEAVES] * SARGACEU_LEAF_ROW : 0);
}

/* ---- against other calls ---- */

/* The line walk comes to the reader's fault, or to the end; how many lines it gave. */
static size_t walk(const uint8_t *message, size_t bytes, struct outcome expected)
{
    size_t at = 0, lines = 0, answer[SARGACEU_LINE_ANSWER];
    for (;; at = answer[1], lines++) {
        uint8_t number = sargaceu_line(message, bytes, at, answer, SARGACEU_LINE_ANSWER);
        if (number != SARGACEU_ACCEPTED) {
            if (number != expected.number || answer[0] != expected.place)
                fail("the walk says %d at %zu, the reader %d at %zu", number, answer[0], expected.number, expected.place);
            return lines;
        }
        if (answer[1] == at)
            break;
    }
    if (expected.number >= SARGACEU_CONTROL_BYTE && expected.number <= SARGACEU_OPEN_LINE)
        fail("the walk comes to the end, and the reader says %d at %zu", expected.number, expected.place);
    return lines;
}

/* The kinds that may come next are those that a watcher says yes to. */
static void expect_next(const uint8_t watcher[SARGACEU_WATCHER], uint8_t next[SARGACEU_NEXT_KINDS])
{
    if (!sargaceu_next_kinds(watcher[0], watcher[1], next, SARGACEU_NEXT_KINDS))
        fail("no next kinds for 13 bytes");
    for (uint8_t kind = 0; kind < SARGACEU_NEXT_KINDS; kind++) {
        uint8_t asked[SARGACEU_WATCHER] = { watcher[0], watcher[1] };
        if (sargaceu_watch(asked, SARGACEU_WATCHER, kind) != (next[kind] == 1))
            fail("the watcher says otherwise than the next kinds of kind %d after %d in context %d", kind, watcher[1], watcher[0]);
    }
}

/* Going from row to row comes to as many rows as the reader counts, and the row of a refusal is one of them, or the next where the L is missing. */
static void go_through(struct outcome expected)
{
    size_t at = 0, rows = 0, lines, start[SARGACEU_ROW_ANSWER], behind[SARGACEU_ROW_ANSWER];
    for (; (lines = sargaceu_row_at(drawn.bytes, drawn.length, at, behind, SARGACEU_ROW_ANSWER)) > 0; at = behind[0]) {
        rows++;
        if (rows == expected.place && (sargaceu_row_place(drawn.bytes, drawn.length, rows, start, SARGACEU_ROW_ANSWER) != lines || start[0] != at))
            fail("row %zu stands elsewhere than going from row to row finds it", rows);
    }
    if (expected.number == SARGACEU_ACCEPTED && rows != read.card[CARD_SEGMENTS])
        fail("%zu rows stand in the message, and the reader counts %zu", rows, read.card[CARD_SEGMENTS]);
    if (expected.place > rows + (expected.number == SARGACEU_MISPLACED))
        fail("%zu rows stand in the message, and the reader says %d at %zu", rows, expected.number, expected.place);
}

/* The watcher says yes up to the row that the reader refuses. */
static void watch_kinds(struct outcome expected)
{
    static uint8_t kinds[SARGACEU_LARGE_MESSAGE];
    uint8_t watcher[SARGACEU_WATCHER] = { 0, 0 }, next[SARGACEU_NEXT_KINDS];
    size_t segments = plain_kinds(kinds, sizeof kinds, watcher), yes = 0;
    while (yes < segments && sargaceu_watch(watcher, SARGACEU_WATCHER, kinds[yes]))
        yes++;
    size_t told = expected.number == SARGACEU_MISPLACED ? expected.place - 1 : segments;
    if (yes != told)
        fail("the watcher says yes to %zu kinds, the reader %d at %zu", yes, expected.number, expected.place);
    expect_next(watcher, next);
    if (yes < segments && next[kinds[yes]] != 0)
        fail("kind %d may come in row %zu, and the reader says 10 there", kinds[yes], expected.place);
}

/* What is read is written and read again to the same table, and its joined segments are those of the message. */
static void write_back(void)
{
    static uint8_t joined[SARGACEU_LARGE_MESSAGE];
    size_t answer[SARGACEU_WRITE_ANSWER], place, bytes;
    const uint8_t *of_message = plain_joined(&bytes);
    memcpy(joined, of_message, bytes);
    if (write_table(&read, written, answer) != SARGACEU_ACCEPTED)
        fail("the writer refuses what was read");
    if (read_table(read.form, written, answer[1], &again, &place) != SARGACEU_ACCEPTED)
        fail("the reader refuses what was written");
    expect_same_table(&read, &again, "what was read, written and read again");
    size_t length = 0;
    if (walk(written, answer[1], (struct outcome){ SARGACEU_ACCEPTED, 0 }) != answer[2])
        fail("the writer says %zu lines, and a walk finds another count", answer[2]);
    if (plain_outcome(read.form, written, answer[1]).number != SARGACEU_ACCEPTED ||
        memcmp(plain_joined(&length), joined, bytes) != 0 || length != bytes)
        fail("other segments were written than were read");
}

/* What the small form accepts the large one reads to the same table. */
static void read_large(void)
{
    size_t place;
    if (read_table(SARGACEU_LARGE, drawn.bytes, drawn.length, &again, &place) != SARGACEU_ACCEPTED)
        fail("the large form refuses what the small one accepts");
    expect_same_table(&read, &again, "what both forms read");
}

/* ---- the trials ---- */

static void expect_answer(struct outcome expected, size_t numbers)
{
    size_t answer[SARGACEU_READ_ANSWER] = { expected.place };
    if (expected.number == SARGACEU_ACCEPTED)
        memcpy(answer + 1, read.card, SARGACEU_CARD * sizeof *answer);
    expect_front(ANSWER, answer, numbers < SARGACEU_READ_ANSWER ? 0 : SARGACEU_READ_ANSWER);
}

int try_read(void)
{
    uint8_t form = draw_form();
    draw_message(&drawn, form);
    struct room room = draw_room(form);
    size_t numbers = one_in(24) ? below(SARGACEU_READ_ANSWER) : enough(SARGACEU_READ_ANSWER, SARGACEU_READ_ANSWER + 3);
    const void *answer_was = former(16 * sizeof(size_t));
    struct outcome expected = expected_outcome(form, room);
    if (numbers < SARGACEU_READ_ANSWER)
        expected = (struct outcome){ SARGACEU_SHORT_BUFFER, 0 };
    for (int side = 0; side < SIDES; side++) {
        begin_side(side);
        uint8_t number = sargaceu_read(form, lend(MESSAGE, drawn.bytes, drawn.length), drawn.length,
                                       lend_to_write(TEXT, room.text_was, room.text), room.text,
                                       lend_to_write(SEGMENTS, room.segments_was, room.segments), room.segments,
                                       lend_to_write(LEAVES, room.leaves_was, room.leaves), room.leaves,
                                       lend_to_write(ANSWER, answer_was, numbers), numbers);
        if (number != expected.number)
            fail("answers %d, and %d at %zu was expected", number, expected.number, expected.place);
        expect_table(number);
        expect_answer(expected, numbers);
    }
    if (expected.number > SARGACEU_BROKEN_HEADER || expected.number == SARGACEU_ACCEPTED)
        walk(drawn.bytes, drawn.length, expected);
    if (expected.number == SARGACEU_MISPLACED || expected.number == SARGACEU_ACCEPTED)
        watch_kinds(expected);
    if (expected.number == SARGACEU_UNKNOWN_KIND || expected.number == SARGACEU_MISPLACED || expected.number == SARGACEU_ACCEPTED)
        go_through(expected);
    if (expected.number == SARGACEU_ACCEPTED) {
        write_back();
        read_large();
    }
    return expected.number;
}

/* The listing of a table that was read, or of a refusal. */
static size_t plain_listing(struct outcome expected, char *to, size_t room)
{
    size_t answer[SARGACEU_WRITE_ANSWER];
    int n = snprintf(to, room, "form=1\nanswer=%d\nplace=%zu\n", expected.number, expected.place);
    if (expected.number != SARGACEU_ACCEPTED)
        return (size_t)n;
    if (write_table(&read, written, answer) != SARGACEU_ACCEPTED)
        fail("the writer refuses what was read");
    n += snprintf(to + n, room - (size_t)n, "context=%s\nsegments=%zu\nleaves=%zu\ntext=%zu\nwritten=%zu\n",
                  context_names[read.card[CARD_CONTEXT]], read.card[CARD_SEGMENTS], read.card[CARD_LEAVES], read.card[CARD_TEXT], answer[1]);
    for (size_t i = 0; i < read.card[CARD_SEGMENTS]; i++) {
        const uint32_t *row = read.segments + i * SARGACEU_SEGMENT_ROW;
        n += snprintf(to + n, room - (size_t)n, "seg=%zu,%s,%u,%u,%u\n", i + 1, kind_names[row[0]], row[1], row[2], row[3]);
    }
    return (size_t)n;
}

int try_list(void)
{
    static char listing[SARGACEU_LISTING + 1];
    draw_message(&drawn, SARGACEU_SMALL);
    struct room room = draw_room(SARGACEU_SMALL);
    struct outcome expected = expected_outcome(SARGACEU_SMALL, room);
    size_t bytes = one_in(16) ? short_of(SARGACEU_LISTING) : enough(SARGACEU_LISTING, SARGACEU_LISTING + 64), listed = 0;
    const void *listing_was = former(SARGACEU_LISTING + 64);
    bool none = bytes < SARGACEU_LISTING; /* then nothing is read, either */
    if (!none)
        listed = plain_listing(expected, listing, sizeof listing);
    for (int side = 0; side < SIDES; side++) {
        begin_side(side);
        size_t length = sargaceu_list(lend(MESSAGE, drawn.bytes, drawn.length), drawn.length,
                                      lend_to_write(TEXT, room.text_was, room.text), room.text,
                                      lend_to_write(SEGMENTS, room.segments_was, room.segments), room.segments,
                                      lend_to_write(LEAVES, room.leaves_was, room.leaves), room.leaves,
                                      lend_to_write(LISTING, listing_was, bytes), bytes);
        if (length != listed)
            fail("answers %zu bytes, and %zu were expected", length, listed);
        expect_table(none ? SARGACEU_SHORT_BUFFER : expected.number);
        expect_front(LISTING, listing, listed);
    }
    return none ? SARGACEU_SHORT_BUFFER : expected.number;
}

int try_line(void)
{
    draw_message(&drawn, draw_form_of_two());
    size_t at = draw_offset(&drawn), numbers = one_in(16) ? below(SARGACEU_LINE_ANSWER) : enough(SARGACEU_LINE_ANSWER, 5);
    size_t answer[SARGACEU_LINE_ANSWER];
    const void *answer_was = former(8 * sizeof(size_t));
    uint8_t expected = plain_line(drawn.bytes, drawn.length, at, answer);
    bool none = numbers < SARGACEU_LINE_ANSWER;
    if (none)
        expected = SARGACEU_SHORT_BUFFER;
    for (int side = 0; side < SIDES; side++) {
        begin_side(side);
        uint8_t number = sargaceu_line(lend(MESSAGE, drawn.bytes, drawn.length), drawn.length, at,
                                       lend_to_write(ANSWER, answer_was, numbers), numbers);
        if (number != expected)
            fail("answers %d at %zu, and %d was expected", number, at, expected);
        expect_front(ANSWER, answer, none ? 0 : SARGACEU_LINE_ANSWER);
    }
    return expected;
}

/* A kind that may come next, or, where none is found soon, any. */
static uint8_t draw_follower(uint8_t context, uint8_t last)
{
    uint8_t kind = (uint8_t)(1 + below(12));
    for (int i = 0; i < 12 && !may_follow(context, last, kind); i++)
        kind = (uint8_t)(kind % 12 + 1);
    return kind;
}

/* A watcher that was told an order which its context allows; the last kind of it, C aside. */
static uint8_t draw_watcher(uint8_t watcher[SARGACEU_WATCHER])
{
    uint8_t last = 0;
    watcher[0] = (uint8_t)(1 + below(7));
    watcher[1] = 0;
    for (size_t told = below(12); told > 0; told--) {
        uint8_t kind = draw_follower(watcher[0], last);
        bool may = may_follow(watcher[0], last, kind);
        if (sargaceu_watch(watcher, SARGACEU_WATCHER, kind) != may)
            fail("wrong about kind %d after %d in context %d", kind, last, watcher[0]);
        if (may && kind != SARGACEU_C)
            last = kind;
    }
    return last;
}

int try_watch(void)
{
    uint8_t watcher[8], after[SARGACEU_WATCHER];
    memcpy(watcher, former(sizeof watcher), sizeof watcher);
    bool strange = one_in(8); /* two bytes that nothing was begun with: only that a no changes nothing is known */
    uint8_t last = strange ? 0 : draw_watcher(watcher);
    if (!strange && one_in(16))
        watcher[0] = one_in(2) ? 0 : (uint8_t)(8 + below(248));
    size_t bytes = one_in(16) ? below(SARGACEU_WATCHER) : enough(SARGACEU_WATCHER, sizeof watcher);
    uint8_t kind = one_in(10) ? (uint8_t)chance() : one_in(2) ? draw_follower(watcher[0], last) : (uint8_t)below(14);
    bool yes = false;
    for (int side = 0; side < SIDES; side++) {
        begin_side(side);
        uint8_t *lent = lend_to_write(WATCHER, watcher, bytes);
        bool said = sargaceu_watch(lent, bytes, kind);
        if (side > 0 && said != yes)
            fail("another answer to the same");
        yes = said;
        if (bytes < SARGACEU_WATCHER ? yes : !strange && yes != may_follow(watcher[0], last, kind))
            fail("%s to kind %d after %d in context %d, %zu bytes", yes ? "yes" : "no", kind, last, watcher[0], bytes);
        if (yes)
            memcpy(after, lent, sizeof after);
        if (yes && after[0] != watcher[0])
            fail("the watcher's context changed");
        expect_front(WATCHER, after, yes ? SARGACEU_WATCHER : 0);
    }
    return yes ? SARGACEU_ACCEPTED : NO;
}

int try_next_kinds(void)
{
    uint8_t context = one_in(6) ? (uint8_t)chance() : (uint8_t)below(9), kind = one_in(6) ? (uint8_t)chance() : (uint8_t)below(14);
    size_t bytes = one_in(6) ? below(SARGACEU_NEXT_KINDS) : enough(SARGACEU_NEXT_KINDS, SARGACEU_NEXT_KINDS + 4);
    const void *kinds_were = former(24);
    uint8_t expected[SARGACEU_NEXT_KINDS];
    bool fits = bytes >= SARGACEU_NEXT_KINDS;
    plain_next_kinds(context, kind, expected);
    for (int side = 0; side < SIDES; side++) {
        begin_side(side);
        bool told = sargaceu_next_kinds(context, kind, lend_to_write(KINDS, kinds_were, bytes), bytes);
        if (told != fits)
            fail("says %s of %zu bytes", told ? "yes" : "no", bytes);
        expect_front(KINDS, expected, fits ? SARGACEU_NEXT_KINDS : 0);
    }
    return fits ? SARGACEU_ACCEPTED : NO;
}
