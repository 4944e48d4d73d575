/* Values: compared, repeated and timed by both implementations, as driver.c does it with messages and tables. */
#include "driver.h"

#include <inttypes.h>

typedef uint8_t value_reader(const uint8_t *, size_t, int64_t *, size_t);
typedef uint8_t value_writer(int64_t, size_t, uint8_t *, size_t, size_t *, size_t);
typedef bool tester(uint8_t, const size_t *, size_t, const uint32_t *, size_t, const uint32_t *, size_t, const uint8_t *, size_t);
typedef uint8_t order_reader(uint8_t, const size_t *, size_t, const uint32_t *, size_t, const uint32_t *, size_t, const uint8_t *, size_t,
                             uint32_t, uint8_t *, size_t, int64_t *, size_t, uint8_t *, size_t, size_t *, size_t);

static value_reader *volatile value_readers[2] = { sargaceu_read_value, base_read_value };
static value_writer *volatile value_writers[2] = { sargaceu_write_value, base_write_value };
static tester *volatile testers[2] = { sargaceu_is_table, base_is_table };
static order_reader *volatile order_readers[2] = { sargaceu_order_values, base_order_values };

static size_t texts, values, orders, results, by_number[26];

/* ---- comparing readings ---- */

/* The longest text that is drawn: a sign, a point, and nineteen digits on each side of it. */
enum { SIDE = 19, TEXT_BYTES = 2 + 2 * SIDE };

/* Both read the text, with answers that held the same before; answers the number. */
static uint8_t same_value(const uint8_t *text, size_t bytes)
{
    int64_t answer[2][3];
    uint8_t given[2];
    size_t lent = below(8) ? SARGACEU_VALUE_ANSWER : below(4);
    memset(answer, (int)below(256), sizeof answer);
    for (int i = 0; i < 2; i++)
        given[i] = value_readers[i](text, bytes, answer[i], lent);
    if (given[0] != given[1] || memcmp(answer[0], answer[1], sizeof answer[0]) != 0) {
        fprintf(stderr, "text '%.*s', numbers %u %u\n", (int)bytes, text, given[0], given[1]);
        show("reading a value", NULL);
    }
    texts++;
    by_number[given[0]]++;
    return given[0];
}

/* All texts up to a length of nine bytes that tell: signs, the point, digits, and two that belong to no number. */
static void compare_short_texts(void)
{
    enum { LONGEST = 6, TELLING = 9 };
    static const char telling[] = "+-.0159 x";
    uint8_t text[LONGEST];
    for (size_t bytes = 0, many = 1; bytes <= LONGEST; bytes++, many *= TELLING) {
        for (size_t n = 0; n < many; n++) {
            for (size_t i = 0, left = n; i < bytes; i++, left /= TELLING)
                text[i] = (uint8_t)telling[left % TELLING];
            same_value(text, bytes);
        }
    }
}

/* Digits of a number, now and then all 0 or all 9; answers the place behind them. */
static uint8_t *draw_digits(uint8_t *p, size_t count)
{
    size_t sort = below(8);
    for (; count > 0; count--)
        *p++ = (uint8_t)('0' + (sort == 0 ? 0 : sort == 1 ? 9 : below(10)));
    return p;
}

/* The text of a number or, one time in three, one that a byte may have spoilt; answers its bytes. */
static size_t draw_text(uint8_t *text)
{
    static const char spoiling[] = "+-.. xeE,/:09";
    uint8_t *p = text;
    if (below(2))
        *p++ = "+-"[below(2)];
    p = draw_digits(p, below(below(2) ? SIDE + 1 : 5));
    if (below(4)) {
        *p++ = '.';
        p = draw_digits(p, below(below(2) ? SIDE + 1 : 5));
    }
    size_t bytes = (size_t)(p - text);
    if (bytes > 0 && below(3) == 0)
        text[below(bytes)] = (uint8_t)spoiling[below(sizeof spoiling - 1)];
    return bytes;
}

static void compare_drawn_texts(void)
{
    uint8_t text[TEXT_BYTES], much[1000];
    for (size_t n = 0; n < 500000; n++) {
        size_t bytes = draw_text(text);
        if (bytes > 0 && below(20) == 0)
            text[below(bytes)] = (uint8_t)below(256);
        same_value(text, bytes);
    }
    for (size_t n = 0; n < 2000; n++) {
        size_t bytes = below(sizeof much);
        draw_digits(much, bytes);
        if (bytes > 0 && below(2))
            much[below(bytes)] = "+-. "[below(4)];
        same_value(much, bytes);
    }
}

/* ---- comparing writings ---- */

enum { ROOM = 40 };

/* Both write the value into outputs that held the same before, and what was written reads back. */
static void same_text(int64_t number, size_t decimals, size_t room)
{
    uint8_t output[2][ROOM], given[2];
    size_t answer[2][2], lent = below(8) ? SARGACEU_TEXT_ANSWER : below(3);
    int with = (int)below(256);
    for (int i = 0; i < 2; i++) {
        memset(output[i], with, ROOM);
        memset(answer[i], with, sizeof answer[i]);
        given[i] = value_writers[i](number, decimals, output[i], room, answer[i], lent);
    }
    bool same = given[0] == given[1] && memcmp(answer[0], answer[1], sizeof answer[0]) == 0 && memcmp(output[0], output[1], ROOM) == 0;
    int64_t back[2] = { 0, 0 };
    if (same && given[0] == SARGACEU_ACCEPTED)
        same = same_value(output[0], answer[0][0]) <= 1 && value_readers[0](output[0], answer[0][0], back, 2) == SARGACEU_ACCEPTED
            && back[0] == number && (size_t)back[1] == decimals;
    if (!same) {
        fprintf(stderr, "value %" PRId64 " with %zu, output of %zu bytes, numbers %u %u\n", number, decimals, room, given[0], given[1]);
        show("writing a value", NULL);
    }
    values++;
    by_number[given[0]]++;
}

/* One value with all decimals that tell, in outputs around the least that does. */
static void compare_texts_of(int64_t number)
{
    static const size_t rooms[] = { SARGACEU_VALUE_TEXT, SARGACEU_VALUE_TEXT - 1, SARGACEU_VALUE_TEXT + 1, ROOM, 0, 1 };
    for (size_t decimals = 0; decimals < 19; decimals++)
        for (size_t i = 0; i < sizeof rooms / sizeof *rooms; i++)
            same_text(number, decimals < 18 ? decimals : SIZE_MAX - below(2) * below(1000), rooms[i]);
}

static void compare_texts(void)
{
    int64_t power = 1;
    for (size_t digits = 1; digits < 20; digits++, power *= digits < 20 ? 10 : 1) {
        for (int64_t beside = -2; beside <= 2; beside++) {
            compare_texts_of(power + beside);
            compare_texts_of(-power - beside);
        }
    }
    for (int64_t beside = 0; beside < 3; beside++) {
        compare_texts_of(INT64_MIN + beside);
        compare_texts_of(INT64_MAX - beside);
    }
    for (size_t n = 0; n < 300000; n++) {
        uint64_t drawn = below(SIZE_MAX) ^ (uint64_t)below(SIZE_MAX) << 30;
        int64_t number = (int64_t)(drawn >> below(64));
        same_text(below(2) ? number : -number, below(17), below(10) ? SARGACEU_VALUE_TEXT + below(ROOM - SARGACEU_VALUE_TEXT + 1) : below(ROOM + 1));
    }
}

void compare_values(void)
{
    compare_short_texts();
    compare_drawn_texts();
    compare_texts();
}

/* ---- comparing orders ---- */

/* The buffers that an order's values go to, and how much of each is lent. */
struct places {
    uint8_t numbers[SARGACEU_LARGE_VALUES];
    int64_t wholes[SARGACEU_LARGE_VALUES];
    uint8_t decimals[SARGACEU_LARGE_VALUES];
    size_t answer[3];
};

struct room { size_t numbers, wholes, decimals; };

static struct places places[2];

static bool test_by(int which, const struct table *t, struct lent lent)
{
    return testers[which](lent.form, t->answer + 1, lent.card, t->segments, lent.segments, t->leaves, lent.leaves, t->text, lent.text);
}

static uint8_t order_by(int which, const struct table *t, struct lent lent, uint32_t order, struct places *p, struct room room, size_t answer)
{
    return order_readers[which](lent.form, t->answer + 1, lent.card, t->segments, lent.segments, t->leaves, lent.leaves, t->text, lent.text,
                                order, p->numbers, room.numbers, p->wholes, room.wholes, p->decimals, room.decimals, p->answer, answer);
}

/* The places that count: all that do for any order, and of the large form's as many as the table has rows, and some more. */
static size_t places_reach(const struct table *t)
{
    enum { PAST = 8 };
    size_t rows = t->answer[3], all = forms[t->form].values;
    return t->form == SARGACEU_SMALL || rows > all - PAST ? all : rows + PAST;
}

static void soil(struct places *p, size_t reach, int with)
{
    memset(p->numbers, with, reach);
    memset(p->wholes, with, reach * sizeof *p->wholes);
    memset(p->decimals, with, reach);
    memset(p->answer, with, sizeof p->answer);
}

static bool same_places(const struct places *a, const struct places *b, size_t reach)
{
    return memcmp(a->answer, b->answer, sizeof a->answer) == 0
        && memcmp(a->numbers, b->numbers, reach) == 0
        && memcmp(a->wholes, b->wholes, reach * sizeof *a->wholes) == 0
        && memcmp(a->decimals, b->decimals, reach) == 0;
}

/* Both give the order's values, in buffers that held the same before; answers the number. */
static uint8_t same_order(const struct table *t, struct lent lent, uint32_t order, struct room room, const struct message *m)
{
    uint8_t given[2];
    int with = (int)below(256);
    size_t answer = below(8) ? SARGACEU_ORDER_ANSWER : below(4), reach = places_reach(t);
    for (int i = 0; i < 2; i++) {
        soil(&places[i], reach, with);
        given[i] = order_by(i, t, lent, order, &places[i], room, answer);
    }
    if (given[0] != given[1] || !same_places(&places[0], &places[1], reach)) {
        fprintf(stderr, "row %u, room for %zu, %zu and %zu, numbers %u %u, counts %zu %zu\n", order, room.numbers, room.wholes, room.decimals,
                given[0], given[1], places[0].answer[1], places[1].answer[1]);
        show("the values of an order", m);
    }
    orders++;
    by_number[given[0]]++;
    return given[0];
}

/* One row in buffers that do for any order; and where it has values, in none, in just enough, and in one too few of one of the three. */
static void compare_order(const struct table *t, struct lent lent, uint32_t order, const struct message *m)
{
    size_t values = forms[t->form].values;
    const struct room any = { values, values, values };
    if (same_order(t, lent, order, any, m) > SARGACEU_SHORT_BUFFER)
        return;
    if (order_by(1, t, lent, order, &places[1], any, SARGACEU_ORDER_ANSWER) != SARGACEU_ACCEPTED)
        return;
    size_t count = places[1].answer[1];
    results += count;
    struct room just = { count, count, count }, none = { 0, 0, 0 };
    same_order(t, lent, order, just, m);
    same_order(t, lent, order, none, m);
    if (count > 0) {
        size_t *const sizes[] = { &just.numbers, &just.wholes, &just.decimals };
        --*sizes[below(3)];
        same_order(t, lent, order, just, m);
    }
}

/* The row behind the last one that is counted looks like an order, and is none. */
static void compare_past(const struct table *t, struct lent lent, const struct message *m)
{
    static struct table tables[FORMS];
    struct table *past = &tables[t->form];
    size_t rows = t->answer[3];
    if (!past->text)
        make_table(past, t->form);
    copy_table(past, t);
    memcpy(past->segments + rows * SARGACEU_SEGMENT_ROW, (uint32_t[]){ SARGACEU_OBR, 2, 1, 1 }, SARGACEU_SEGMENT_ROW * sizeof(uint32_t));
    compare_order(past, lent, (uint32_t)(rows + 1), m);
}

/* In a long table the rows of orders and some more; in the large form about one of either, since every one of them costs a test of the table. */
static bool is_sought(const struct table *t, bool all, size_t row, size_t orders_there)
{
    enum { FEW = 32 };
    size_t rows = t->answer[3];
    bool outside = row == 0 || row > rows, order = !outside && t->segments[(row - 1) * SARGACEU_SEGMENT_ROW] == SARGACEU_OBR;
    if (t->form != SARGACEU_SMALL)
        return outside || below(order ? orders_there : rows) == 0;
    return all || rows <= FEW || outside || order || below(rows / 4) == 0;
}

/* Where the table is none, no row is looked at. Else every row number up to one past the count, or those that are sought. */
void compare_orders(const struct table *t, struct lent lent, bool all, const struct message *m)
{
    size_t rows = t->answer[3], orders_there = 0;
    bool tested = test_by(1, t, lent);
    if (test_by(0, t, lent) != tested)
        show("the table test", m);
    if (!tested) {
        compare_order(t, lent, (uint32_t)below(rows + 2), m);
        return;
    }
    for (size_t row = 0; row < rows; row++)
        orders_there += t->segments[row * SARGACEU_SEGMENT_ROW] == SARGACEU_OBR;
    for (size_t row = 0; row <= rows + 1; row++)
        if (is_sought(t, all, row, orders_there))
            compare_order(t, lent, (uint32_t)row, m);
    compare_order(t, lent, UINT32_MAX, m);
    compare_past(t, lent, m);
}

/* ---- invented orders ---- */

static const char *drawn_of(const char *const *all, size_t many)
{
    return all[below(many)];
}

/* A result: its type mostly NM, its value mostly a number, and both now and then split, empty or missing. */
static void invent_result(struct message *m)
{
    static const char *const types[] = { "NM", "NM", "NM", "NM", "NM", "NM~X", "NM^X", "nm", "NMX", "N", "", "CE", "X~NM", "MN" };
    static const char *const split[] = { "", "1~2", "1^2", "1&2", "~", "12~", "^3", "|4", "" };
    static const char *const rest[] = { "", "|", "|mmol/L|3.9-6.1|N|F", "|g/L~6^6&6", "|6|6" };
    char text[TEXT_BYTES + 1];
    add(m, "OBX");
    if (below(20) == 0)
        return;
    add(m, "|1|");
    add(m, drawn_of(types, sizeof types / sizeof *types));
    if (below(20) == 0)
        return;
    add(m, below(4) ? "|GLY~Glycemie|" : "|~^&|a^b");
    if (below(20) == 0)
        return;
    add(m, "|");
    text[draw_text((uint8_t *)text)] = 0;
    add(m, below(5) ? text : drawn_of(split, sizeof split / sizeof *split));
    add(m, drawn_of(rest, sizeof rest / sizeof *rest));
}

void invent_orders(struct message *m)
{
    static const char *const contexts[] = { "ORU", "ORM", "ORA" };
    static const char *const comments[] = { "", "", "", "", "C|1|NM|a||5\r", "C\r" };
    const char *context = drawn_of(contexts, 3);
    size_t patients = 1 + below(3), most = 1 + below(below(10) ? 6 : 40);
    m->length = 0;
    add(m, "H|~^\\&|||||");
    add(m, context);
    add(m, "\r");
    for (; patients > 0; patients--) {
        add(m, context[2] == 'A' ? "P|1\rAP|1\r" : "P|1\r");
        for (size_t n = 1 + below(4); n > 0; n--) {
            add(m, "OBR|1|x||y\r");
            add(m, drawn_of(comments, 6));
            for (size_t left = context[2] == 'U' ? 1 + below(most) : below(most); left > 0; left--) {
                invent_result(m);
                add(m, "\r");
                add(m, drawn_of(comments, 6));
            }
        }
    }
    add(m, "L|1\r");
}

void report_values(void)
{
    printf("and on the values of %zu texts, on the texts of %zu values, and on %zu times the values of an order, with %zu numeric results\n",
           texts, values, orders, results);
    printf("answers by number: 0: %zu, 1: %zu, 13: %zu", by_number[0], by_number[1], by_number[13]);
    for (int i = SARGACEU_NOT_A_NUMBER; i <= SARGACEU_LITTLE_ROOM; i++)
        printf(", %d: %zu", i, by_number[i]);
    printf("\n");
}

/* ---- measured values ---- */

/* What is read and what is written, and a text that is refused: as many digits as a line can have bytes. */
enum { MANY = 219 };
static uint8_t many_digits[MANY];

struct sample { const char *name; const uint8_t *text; size_t bytes; int64_t number; size_t decimals; };

static const struct sample samples[] = {
    { "short", (const uint8_t *)"5.30", 4, 530, 2 },
    { "long", (const uint8_t *)"-123456.789012345", 17, -123456789012345, 9 },
    { "digits", many_digits, MANY, 0, 0 },
};

enum { SAMPLES = 3, WRITTEN_SAMPLES = 2 };

static const struct sample *sample_named(const char *name, size_t many)
{
    memset(many_digits, '5', MANY);
    for (size_t i = 0; i < many; i++)
        if (strcmp(name, samples[i].name) == 0)
            return samples + i;
    fprintf(stderr, "driver: %s is no sample\n", name);
    exit(2);
}

static void repeat_reading(int which, const struct sample *s, size_t times)
{
    int64_t answer[SARGACEU_VALUE_ANSWER];
    for (size_t i = 0; i < times; i++)
        value_readers[which](s->text, s->bytes, answer, SARGACEU_VALUE_ANSWER);
}

static void repeat_writing(int which, const struct sample *s, size_t times)
{
    uint8_t output[SARGACEU_VALUE_TEXT];
    size_t answer[SARGACEU_TEXT_ANSWER];
    for (size_t i = 0; i < times; i++)
        value_writers[which](s->number, s->decimals, output, SARGACEU_VALUE_TEXT, answer, SARGACEU_TEXT_ANSWER);
}

/* ---- measured orders ---- */

/* Messages for orders are named by the results of each order and the leaves of the table. */
static bool order_shape(const char *path, size_t *results_each, size_t *leaves)
{
    return sscanf(name_in(path), "order-%zu-%zu", results_each, leaves) == 2;
}

bool is_for_orders(const char *path)
{
    size_t results_each, leaves;
    return order_shape(path, &results_each, &leaves);
}

/* The order that is measured: its row, and how many numeric results it has. */
struct middle { uint32_t row; size_t results; };

/* Reads a message for orders and answers its middle order. Another shape would measure another thing. */
static struct middle middle_order(const char *path)
{
    static struct message m;
    size_t results_each, leaves, many = 0, row = 0;
    load(&m, path);
    make_table(&held, SARGACEU_SMALL);
    if (!order_shape(path, &results_each, &leaves) || read_by(0, &m, &held, whole[SARGACEU_SMALL]) != 0) {
        fprintf(stderr, "driver: %s is refused, or is no message for orders\n", path);
        exit(1);
    }
    for (size_t i = 0; i < held.answer[3]; i++)
        many += held.segments[i * SARGACEU_SEGMENT_ROW] == SARGACEU_OBR;
    for (size_t left = (many + 1) / 2; left > 0; row++)
        left -= held.segments[row * SARGACEU_SEGMENT_ROW] == SARGACEU_OBR;
    struct room any = { SARGACEU_SMALL_VALUES, SARGACEU_SMALL_VALUES, SARGACEU_SMALL_VALUES };
    uint8_t given = order_by(1, &held, whole[SARGACEU_SMALL], (uint32_t)row, &places[1], any, SARGACEU_ORDER_ANSWER);
    if (held.answer[4] != leaves || given != SARGACEU_ACCEPTED || places[1].answer[1] != results_each) {
        fprintf(stderr, "driver: %s has %zu leaves, and %zu results in its middle order: not the shape that is measured\n", path, held.answer[4],
                places[1].answer[1]);
        exit(1);
    }
    return (struct middle){ (uint32_t)row, results_each };
}

/* With so many places in each of the three buffers. */
static void repeat_order(int which, uint32_t row, size_t many, size_t times)
{
    struct room room = { many, many, many };
    for (size_t i = 0; i < times; i++)
        order_by(which, &held, whole[SARGACEU_SMALL], row, &places[0], room, SARGACEU_ORDER_ANSWER);
}

void repeat_test(int which, size_t times)
{
    for (size_t i = 0; i < times; i++)
        test_by(which, &held, whole[SARGACEU_SMALL]);
}

/* The values of a message's middle order, in places that do for any order or just enough; or the test of its table. */
static int run_orders(const char *mode, int which, const char *path, size_t times)
{
    bool just = strcmp(mode, "order-values-just") == 0;
    if (just || strcmp(mode, "order-values") == 0) {
        struct middle order = middle_order(path);
        repeat_order(which, order.row, just ? order.results : SARGACEU_SMALL_VALUES, times);
    } else if (strcmp(mode, "is-table") == 0) {
        middle_order(path);
        repeat_test(which, times);
    } else {
        return 2;
    }
    return 0;
}

int run_values(const char *mode, const char *who, const char *what, size_t times)
{
    int which = strcmp(who, names[1]) == 0;
    if (strcmp(mode, "read-value") == 0)
        repeat_reading(which, sample_named(what, SAMPLES), times);
    else if (strcmp(mode, "write-value") == 0)
        repeat_writing(which, sample_named(what, WRITTEN_SAMPLES), times);
    else
        return run_orders(mode, which, what, times);
    return 0;
}

/* ---- times ---- */

static void time_sample(const char *what, const struct sample *s, void (*repeat)(int, const struct sample *, size_t))
{
    enum { TIMES = 200000 };
    double least[2] = { 1e9, 1e9 };
    for (int round = 0; round < 9; round++) {
        for (int which = 0; which < 2; which++) {
            double began = seconds();
            repeat(which, s, TIMES);
            keep_least(&least[which], began, TIMES);
        }
    }
    printf("%-8s %-8s %8.1f %8.1f %6.2f\n", what, s->name, 1e9 * least[0], 1e9 * least[1], least[0] / least[1]);
}

void time_values(void)
{
    printf("\n%-17s %8s %8s %6s\n", "ns a value", "library", "baseline", "ratio");
    for (size_t i = 0; i < SAMPLES; i++)
        time_sample("reading", sample_named(samples[i].name, SAMPLES), repeat_reading);
    for (size_t i = 0; i < WRITTEN_SAMPLES; i++)
        time_sample("writing", samples + i, repeat_writing);
}

/* Nanoseconds for the values of an order, in places that do for any order and in just enough, and for the table test alone. */
void time_orders(const char *path)
{
    enum { TIMES = 2000 };
    double all[2] = { 1e9, 1e9 }, just[2] = { 1e9, 1e9 }, test[2] = { 1e9, 1e9 };
    struct middle order = middle_order(path);
    for (int round = 0; round < 9; round++) {
        for (int which = 0; which < 2; which++) {
            double began = seconds();
            repeat_order(which, order.row, SARGACEU_SMALL_VALUES, TIMES);
            keep_least(&all[which], began, TIMES);
            began = seconds();
            repeat_order(which, order.row, order.results, TIMES);
            keep_least(&just[which], began, TIMES);
            began = seconds();
            repeat_test(which, TIMES);
            keep_least(&test[which], began, TIMES);
        }
    }
    printf("%-14s %8.0f %8.0f %8.0f %8.0f %8.0f %8.0f %6.2f %6.2f\n", name_in(path), 1e9 * all[0], 1e9 * just[0], 1e9 * test[0], 1e9 * all[1],
           1e9 * just[1], 1e9 * test[1], all[0] / all[1], just[0] / just[1]);
}
