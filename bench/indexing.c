/* Reading with an index: compared, repeated and timed by both implementations, as driver.c does it with messages and tables. */
#include "driver.h"

typedef uint8_t indexer(uint8_t, const uint8_t *, size_t, uint8_t *, size_t, uint32_t *, size_t, uint32_t *, size_t, uint8_t *, size_t,
                        uint32_t *, size_t, uint32_t *, size_t, size_t *, size_t);

static indexer *volatile indexers[2] = { sargaceu_read_indexed, base_read_indexed };

/* A place has the length of its code, and room for the longest; before the counts stands how many codes are named. */
enum { CODES = 512, CODE = 22, PLACE = 1 + CODE, COUNTS = 1 + CODES, TALLY = 3 };
enum { LONG_CODE = 50, FULL_INDEX, FULL_COUNT, NO_INDEX };

/* Some room past each size, as tables have it. */
enum { CODES_PAST = 2 * PLACE, COUNTS_PAST = 2, TALLY_PAST = 1 };

struct index {
    uint8_t codes[CODES * PLACE + CODES_PAST];
    uint32_t counts[COUNTS + COUNTS_PAST];
    uint32_t tally[TALLY + TALLY_PAST];
};

/* How much of each buffer is lent. */
struct index_lent { size_t codes, counts, tally; };

static const struct index_lent all_lent = { CODES * PLACE + CODES_PAST, COUNTS + COUNTS_PAST, TALLY + TALLY_PAST };

static uint8_t index_by(int which, const struct message *m, struct table *t, struct lent lent, struct index *x, struct index_lent parts)
{
    return indexers[which](lent.form, m->bytes, m->length, t->text, lent.text, t->segments, lent.segments, t->leaves, lent.leaves,
                           x->codes, parts.codes, x->counts, parts.counts, x->tally, parts.tally, t->answer, lent.answer);
}

/* ---- indexes ---- */

/* Room for a code and a zero behind it. */
typedef char code[CODE + 1];

/* The codes of the measured messages, and behind them those of analyses as LOINC has them: a number, a hyphen and the number's check digit. */
static void name_code(code c, size_t which)
{
    static const char *const measured[] = {
        "GLY", "URE", "CRE", "NA", "K", "CL", "CA", "HB", "HT", "GB", "GR", "PLQ", "CRP", "TSH", "FER", "VS",
        "A0", "A1", "A2", "A3", "A4", "A5", "A6", "A7", "A8", "A9",
    };
    enum { MEASURED = sizeof measured / sizeof *measured, FIRST = 600, STEP = 7919, NUMBERS = 99000 };
    if (which < MEASURED) {
        snprintf(c, CODE + 1, "%s", measured[which]);
        return;
    }
    size_t number = FIRST + which * STEP % NUMBERS, sum = 0;
    bool twice = true;
    for (size_t left = number; left > 0; left /= 10, twice = !twice) {
        size_t digit = left % 10 * (twice ? 2 : 1);
        sum += digit / 10 + digit % 10;
    }
    snprintf(c, CODE + 1, "%zu-%zu", number, (10 - sum % 10) % 10);
}

static int in_order(const void *a, const void *b)
{
    return strcmp(a, b);
}

/* A sound index of so many of these codes, filled with a byte wherever no code stands, and a tally of zeros. */
static void make_index(struct index *x, size_t named, int with)
{
    static code codes[CODES];
    for (size_t i = 0; i < named; i++)
        name_code(codes[i], i);
    qsort(codes, named, sizeof *codes, in_order);
    memset(x, with, sizeof *x);
    memset(x->tally, 0, TALLY * sizeof *x->tally);
    x->counts[0] = (uint32_t)named;
    for (size_t i = 0; i < named; i++) {
        x->codes[i * PLACE] = (uint8_t)strlen(codes[i]);
        memcpy(x->codes + i * PLACE + 1, codes[i], strlen(codes[i]));
        x->counts[1 + i] = (uint32_t)(1 + i * 37 % 1000);
    }
}

/* ---- comparing ---- */

/* By form: what the messages so far have left, and the tables that both read. */
static struct index chain[FORMS];
static struct table tables[FORMS][2];
static size_t readings, accepted, new_codes, by_number[NO_INDEX + 1];

/* Close to the last number. */
static uint32_t nearly_full(void)
{
    return UINT32_MAX - (uint32_t)below(below(2) ? 3 : 400);
}

/* Another index to begin with: of no code, of some, of nearly or just as many as it has places for; now and then with counts that are nearly full. */
static void begin_chain(struct index *x)
{
    static const size_t some[] = { 0, 0, 1, 26, 100, 300 };
    make_index(x, below(2) ? some[below(6)] : CODES - below(below(2) ? 2 : 40), (int)below(256));
    if (below(6) == 0)
        for (size_t left = 1 + below(10); left > 0; left--)
            x->counts[1 + below(CODES)] = nearly_full();
    if (below(12) == 0)
        x->tally[below(TALLY)] = nearly_full();
}

/* One thing about an index is changed, most times so that it is none any more. */
static void damage_index(struct index *x, struct index_lent *parts)
{
    static const uint8_t lengths[] = { 0, 1, 21, CODE, CODE + 1, 24, 255 };
    size_t named = x->counts[0] <= CODES ? x->counts[0] : CODES, some = named ? below(named) : 0;
    uint8_t *place = x->codes + some * PLACE, last[PLACE];
    switch (below(11)) {
    case 0: parts->codes = CODES * PLACE - 1 + below(2); break;
    case 1: parts->counts = COUNTS - 1 + below(2); break;
    case 2: parts->tally = below(TALLY + 1); break;
    case 3: x->counts[0] = below(2) ? CODES + (uint32_t)below(2) : below(2) ? UINT32_MAX : (uint32_t)below(600); break;
    case 4: place[0] = lengths[below(sizeof lengths)]; break;
    case 5: place[1 + below(CODE)] = (uint8_t)below(256); break;
    case 6: place[1 + below(4)] += below(2) ? 1 : -1; break;
    case 7: memcpy(last, place, PLACE); memcpy(place, place + PLACE, PLACE); memcpy(place + PLACE, last, PLACE); break;
    case 8: memcpy(place + PLACE, place, PLACE); place[PLACE] += (uint8_t)(below(3) - 1); break;
    case 9: x->counts[1 + some] = nearly_full(); break;
    default: x->tally[below(TALLY)] = nearly_full();
    }
    if (below(16) == 0)
        *parts = (struct index_lent){ below(2) * CODES * PLACE, below(2) * COUNTS, below(2) * TALLY };
}

static void tell_and_show(const char *what, const uint8_t *given, const struct table *t, const struct index *x, const struct message *m)
{
    fprintf(stderr, "numbers %u %u, places %zu %zu, codes named %u %u\n", given[0], given[1], t[0].answer[0], t[1].answer[0], x[0].counts[0],
            x[1].counts[0]);
    for (int i = 0; i < 2; i++)
        fprintf(stderr, "tally %u %u %u\n", x[i].tally[0], x[i].tally[1], x[i].tally[2]);
    show(what, m);
}

/* Whether all of some bytes are one. */
static bool is_all(const void *bytes, size_t many, int with)
{
    const uint8_t *p = bytes;
    return many == 0 || (p[0] == with && memcmp(p, p + 1, many - 1) == 0);
}

/* Whether a refusal has left a table as it was. */
static bool is_soiled(const struct table *t, int with)
{
    return is_all(t->text, t->reach.text, with) && is_all(t->segments, t->reach.segments * sizeof *t->segments, with)
        && is_all(t->leaves, t->reach.leaves * sizeof *t->leaves, with);
}

/* Whether a reading with an index gave what the reader without one did, which read the message to this number and this table; or one of 50 to 53. */
static bool as_without(uint8_t given, const struct table *t, const struct table *read, uint8_t number)
{
    struct reach counted = { read->answer[5], read->answer[3] * SARGACEU_SEGMENT_ROW, read->answer[4] * SARGACEU_LEAF_ROW };
    if (given == NO_INDEX)
        return true;
    if (given >= LONG_CODE)
        return given < NO_INDEX && number == 0;
    return given == number && (number || same_tables(t, read, counted));
}

/* Both read the message with what the last one left, or with what damage makes of it. */
void compare_indexing(const struct message *m, const struct table *read, uint8_t number, struct lent lent)
{
    enum { ANEW = 30, NOW_AND_THEN = 256 };
    static struct index before, x[2];
    uint8_t form = read->form, given[2];
    struct table *t = tables[form];
    struct index_lent parts = all_lent;
    int with = (int)below(256);
    if (!t->text) {
        make_table(&t[0], form);
        make_table(&t[1], form);
        begin_chain(&chain[form]);
    }
    if (below(ANEW) == 0)
        begin_chain(&chain[form]);
    before = chain[form];
    if (below(6) == 0)
        damage_index(&before, &parts);
    for (int i = 0; i < 2; i++) {
        soil_table(&t[i], read->reach, with);
        x[i] = before;
        given[i] = index_by(i, m, &t[i], lent, &x[i], parts);
    }
    bool far = form != SARGACEU_SMALL && readings % NOW_AND_THEN == 0;
    if (given[0] != given[1] || !same_tables(&t[0], &t[1], far ? all_of(form) : read->reach) || memcmp(&x[0], &x[1], sizeof x[0]) != 0)
        tell_and_show("reading with an index", given, t, x, m);
    if (parts.tally >= TALLY && !as_without(given[0], &t[0], read, number))
        tell_and_show("reading with an index and without one", given, t, x, m);
    if (given[0] && (memcmp(&x[0], &before, sizeof before) != 0 || !is_soiled(&t[0], with)))
        tell_and_show("a refused message changes something", given, t, x, m);
    readings++;
    by_number[given[0]]++;
    accepted += given[0] == 0;
    new_codes += x[0].counts[0] - before.counts[0];
    if (given[0] == 0)
        chain[form] = x[0];
}

void report_indexing(void)
{
    printf("and on %zu readings with an index, %zu of them accepted, which put %zu new codes\nanswers by number:", readings, accepted, new_codes);
    for (int i = 0; i <= NO_INDEX; i++)
        if (by_number[i])
            printf("%s %d: %zu", i ? "," : "", i, by_number[i]);
    printf("\n");
}

/* ---- invented codes ---- */

/* A code: of the named ones, one of few letters, which others begin with, one of any bytes, or none; now and then it is about as long as may be. */
static void draw_code(code c, bool may_be_long)
{
    size_t sort = below(8), length = below(4) ? 1 + below(5) : below(2) ? 7 + below(4) : CODE - below(3);
    if (sort < 4) {
        name_code(c, below(700));
        return;
    }
    for (size_t i = 0; i < length; i++)
        c[i] = sort < 7 ? "AAAAAAB\\"[below(8)] : (char)(128 + below(128));
    c[sort == 4 && below(2) ? 0 : length] = 0;
    if (may_be_long && below(8) == 0)
        memset(c, 'A' + (int)below(3), CODE);
}

/* Puts a segment behind a message, and here and there goes on in an addendum. */
static void add_cut(struct message *m, const char *segment, size_t seldom)
{
    for (; *segment; segment++) {
        char b[2] = { *segment, 0 };
        add(m, b);
        if (below(seldom) == 0)
            add(m, below(8) ? "\rA|" : "\r\n\tA|");
    }
}

/* A laboratory's answer whose results have codes of all sorts, some of them one byte too long or split, or missing with all that stands behind. */
void invent_codes(struct message *m)
{
    static const char *const behind[] = { "|", "~Nom|", "^A|", "&A~B|", "|~A|", "|", "~", "A~B|" };
    static const char *const fronts[] = { "OBX|1|NM|", "OBX|1|NM|", "OBX||CE|", "OBX|1~1|A^A&A|", "OBX|||", "OBX|1|NM", "OBX|1", "OBX" };
    bool may_be_long = below(4) == 0, cuts = below(3) == 0;
    char segment[100];
    m->length = 0;
    add(m, "H|~^\\&|||LAB||ORU\rP|1\rOBR|1|A|B|GLY\r");
    for (size_t left = 1 + below(below(20) ? 20 : 200); left > 0; left--) {
        code c = "";
        draw_code(c, may_be_long);
        size_t end = below(may_be_long ? 9 : 7);
        if (below(10))
            snprintf(segment, sizeof segment, "%s%s%s5.12", fronts[below(5)], c, behind[end < 7 ? end : 7]);
        else
            snprintf(segment, sizeof segment, "%s", fronts[below(8)]);
        add_cut(m, segment, cuts ? 12 : SIZE_MAX);
        add(m, "\r");
        add(m, below(8) ? "" : "C|1|NM|GLY\r");
        add(m, below(20) ? "" : "OBR|2|NM|GLY\rOBX\r");
    }
    add(m, "L|1\r");
}

/* ---- measured readings ---- */

static const size_t sizes[] = { 0, 100, CODES };
enum { SIZES = sizeof sizes / sizeof *sizes };

/* Which of the sizes a mode names, or none of them. */
static size_t size_named(const char *mode)
{
    size_t i = 0, named;
    if (sscanf(mode, "read-indexed-%zu", &named) != 1)
        return SIZES;
    while (i < SIZES && sizes[i] != named)
        i++;
    return i;
}

bool is_indexing(const char *mode)
{
    return size_named(mode) < SIZES;
}

/* Each reading without codes begins with an index that names none: one instruction puts the count back. */
static void repeat_indexing(int which, const struct message *m, struct index *x, size_t named, size_t times)
{
    const struct index_lent parts = { CODES * PLACE, COUNTS, TALLY };
    for (size_t i = 0; i < times; i++) {
        if (named == 0)
            x->counts[0] = 0;
        index_by(which, m, &held, whole[SARGACEU_SMALL], x, parts);
    }
}

/* Makes the index for a message: all of its codes are named in it, unless none is. Another index would measure another thing. */
static void hold_index(int which, const struct message *m, struct index *x, size_t named, const char *path)
{
    make_index(x, named, 0);
    if (index_by(which, m, &held, whole[SARGACEU_SMALL], x, all_lent) != 0 || (named ? x->counts[0] != named : x->counts[0] == 0) || x->tally[2] == 0) {
        fprintf(stderr, "driver: %s is refused, or its codes are not those that are measured\n", path);
        exit(1);
    }
    make_index(x, named, 0);
}

int run_indexing(const char *mode, const char *who, const char *path, size_t times)
{
    static struct message m;
    static struct index x;
    int which = strcmp(who, names[1]) == 0;
    size_t named = sizes[size_named(mode)];
    load(&m, path);
    make_table(&held, SARGACEU_SMALL);
    hold_index(!which, &m, &x, named, path);
    repeat_indexing(which, &m, &x, named, times);
    return 0;
}

bool is_for_indexing(const char *path)
{
    static const char *const all[] = { "typical", "many", "dense" };
    for (size_t i = 0; i < sizeof all / sizeof *all; i++)
        if (strcmp(name_in(path), all[i]) == 0)
            return true;
    return false;
}

/* Nanoseconds a reading without an index and with one, by how many codes it names. */
void time_indexing(const char *path)
{
    static struct message m;
    static struct index x;
    enum { TIMES = 500 };
    load(&m, path);
    make_table(&held, SARGACEU_SMALL);
    for (size_t i = 0; i < SIZES; i++) {
        double plain[2] = { 1e9, 1e9 }, all[2] = { 1e9, 1e9 };
        hold_index(1, &m, &x, sizes[i], path);
        for (int round = 0; round < 9; round++) {
            for (int which = 0; which < 2; which++) {
                double began = seconds();
                for (size_t n = 0; n < TIMES; n++)
                    read_by(which, &m, &held, whole[SARGACEU_SMALL]);
                keep_least(&plain[which], began, TIMES);
                began = seconds();
                repeat_indexing(which, &m, &x, sizes[i], TIMES);
                keep_least(&all[which], began, TIMES);
            }
        }
        printf("%-12s %5zu %8.0f %8.0f %6.2f  %8.0f %8.0f %6.2f  %6.2f\n", name_in(path), sizes[i], 1e9 * all[0], 1e9 * plain[0], all[0] / plain[0],
               1e9 * all[1], 1e9 * plain[1], all[1] / plain[1], all[0] / all[1]);
    }
}
