/* The screening check: compared, repeated and timed by both implementations, as driver.c does it with messages and tables. */
#include "driver.h"

typedef uint8_t screener(uint8_t, const size_t *, size_t, const uint32_t *, size_t, const uint32_t *, size_t, const uint8_t *, size_t, size_t *, size_t);

static screener *volatile screeners[2] = { sargaceu_screen, base_screen };

static size_t verdicts, by_number[SARGACEU_WRONG_RESULT + 1];

static uint8_t screen_by(int which, const struct table *t, struct lent lent, size_t *answer, size_t room)
{
    return screeners[which](lent.form, t->answer + 1, lent.card, t->segments, lent.segments, t->leaves, lent.leaves, t->text, lent.text,
                            answer, room);
}

/* ---- comparing ---- */

void compare_screening(const struct table *t, struct lent lent, const struct message *m)
{
    size_t answer[2][3];
    uint8_t given[2];
    size_t room = below(8) ? SARGACEU_SCREEN_ANSWER : below(4);
    memset(answer, (int)below(256), sizeof answer);
    for (int i = 0; i < 2; i++)
        given[i] = screen_by(i, t, lent, answer[i], room);
    if (given[0] != given[1] || memcmp(answer[0], answer[1], sizeof answer[0]) != 0) {
        fprintf(stderr, "numbers %u %u, places %zu %zu\n", given[0], given[1], answer[0][0], answer[1][0]);
        show("the screening check", m);
    }
    verdicts++;
    by_number[given[0]]++;
}

void report_screening(void)
{
    printf("and on %zu times the screening check\nanswers by number: 0: %zu, 1: %zu, 13: %zu", verdicts, by_number[0], by_number[1], by_number[13]);
    for (int i = SARGACEU_NOT_A_REPORT; i <= SARGACEU_WRONG_RESULT; i++)
        printf(", %d: %zu", i, by_number[i]);
    printf("\n");
}

/* ---- invented reports ---- */

/* The rule that is to be broken, by its number; every other one seldom is. */
static size_t broken;

static bool breaks(size_t rule)
{
    return rule == broken ? below(2) : below(400) == 0;
}

/* A leaf that a rule asks for: a text, or where the rule is broken none, and there something may stand behind it. */
static void add_wanted(struct message *m, size_t rule, const char *before)
{
    static const char *const none[] = { "", "&A", "^A", "" }, *const some[] = { "A", "0", " ", "ESSAI", "A&B", "A^B" };
    add(m, before);
    add(m, breaks(rule) ? none[below(4)] : some[below(6)]);
}

/* The letter of a value, or where the rule is broken another text. */
static void add_letter(struct message *m, size_t rule, const char *letters)
{
    static const char *const wrong[] = { "", "Z", "n", "&N", "^N", "PN", "@", "[" };
    char letter[2] = { letters[below(strlen(letters))], 0 };
    add(m, breaks(rule) ? wrong[below(8)] : letter);
    add(m, below(4) ? "" : "~B^B");
}

static void invent_patient(struct message *m)
{
    add(m, "P|1|||");
    add_wanted(m, SARGACEU_NO_NAME, "|");
    add_wanted(m, SARGACEU_NO_FIRST_NAME, "~");
    add_wanted(m, SARGACEU_NO_BIRTH_NAME, "|");
    add_wanted(m, SARGACEU_NO_POSTAL_CODE, below(2) ? "||||~~~~" : "||||A~B&C~~D~");
    add_wanted(m, SARGACEU_NO_TELEPHONE, "||");
    add(m, "\r");
}

static void invent_order(struct message *m)
{
    add(m, "OBR|1|A~B");
    add_wanted(m, SARGACEU_NO_ORDER_NUMBER, below(2) ? "|~" : "|A&B~");
    add_wanted(m, SARGACEU_NO_SAMPLE_TIME, "||||");
    add(m, "\r");
}

/* A result with one of the four codes and a value that it may have. */
static void invent_coded(struct message *m, size_t code)
{
    static const char *const fronts[] = { "OBX|1|CE|PAYS", "OBX|1|CE|TYPOR", "OBX|1|ST|PROSS", "OBX|1|ST|FINGE" };
    add(m, fronts[code]);
    add(m, below(2) ? "~B~L||" : "||");
    if (code == 1)
        add_letter(m, SARGACEU_WRONG_TYPOR, "IHECAU");
    else if (code == 2)
        add_letter(m, SARGACEU_WRONG_PROSS, "ONU");
    else
        add(m, "A");
    add(m, "\r");
}

/* Another result, with a code that is close to one of the four now and then, named by LN or not. */
static void invent_other(struct message *m)
{
    static const char *const types[] = { "CE", "CE", "CE", "ST", "NM", "CEX", "C", "CE~B" };
    static const char *const codes[] = { "94500-6", "PAY", "TYPO", "PROSSE", "" };
    static const char *const systems[] = { "~B~LN", "~B~L~94500-6~B~LN", "~~LN~~~LN", "~B~LNX", "~B~L", "", "^~~LN", "~B&LN~L" };
    add(m, "OBX|1|");
    add(m, types[below(8)]);
    add(m, "|");
    add(m, codes[below(5)]);
    add(m, systems[below(8)]);
    add(m, "||");
    add_letter(m, SARGACEU_WRONG_RESULT, "PNIX");
    add(m, "\r");
}

/* The results of an order: of the four codes each once, or not; and others between them. */
static void invent_results(struct message *m)
{
    for (size_t code = 0; code < 4; code++) {
        size_t times = breaks(SARGACEU_NOT_ONE_PAYS + code) ? below(2) * 2 : 1;
        for (; times > 0; times--)
            invent_coded(m, code);
        for (size_t left = below(3); left > 0; left--)
            invent_other(m);
        add(m, below(8) ? "" : "C|1|CE|PAYS||FR\r");
    }
}

void invent_report(struct message *m)
{
    broken = SARGACEU_NOT_A_REPORT + below(SARGACEU_WRONG_RESULT - SARGACEU_NOT_A_REPORT + 3);
    m->length = 0;
    add_wanted(m, SARGACEU_NO_LABORATORY, "H|~^\\&|||");
    add(m, breaks(SARGACEU_NOT_A_REPORT) ? "||ORM\r" : "||ORU\r");
    for (size_t patients = 1 + below(3); patients > 0; patients--) {
        invent_patient(m);
        for (size_t orders = below(2); orders > 0; orders--) {
            invent_order(m);
            invent_other(m);
        }
        invent_order(m);
        invent_other(m);
        invent_results(m);
    }
    add(m, "L|1\r");
}

/* ---- measured reports ---- */

/* Messages for the check are named by their segments and patients. */
static bool report_shape(const char *path, size_t *segments, size_t *patients)
{
    return sscanf(name_in(path), "report-%zu-%zu", segments, patients) == 2;
}

bool is_for_screening(const char *path)
{
    size_t segments, patients;
    return report_shape(path, &segments, &patients);
}

/* Reads a message for the check. Another shape would measure another thing, and so would a report that breaks a rule. */
static void hold_report(const char *path)
{
    static struct message m;
    size_t segments, patients, many = 0, answer[SARGACEU_SCREEN_ANSWER];
    load(&m, path);
    make_table(&held, SARGACEU_SMALL);
    if (!report_shape(path, &segments, &patients) || read_by(0, &m, &held, whole[SARGACEU_SMALL]) != 0) {
        fprintf(stderr, "driver: %s is refused, or is no message for the screening check\n", path);
        exit(1);
    }
    for (size_t i = 0; i < held.answer[3]; i++)
        many += held.segments[i * SARGACEU_SEGMENT_ROW] == SARGACEU_P;
    uint8_t given = screen_by(1, &held, whole[SARGACEU_SMALL], answer, SARGACEU_SCREEN_ANSWER);
    if (held.answer[3] != segments || many != patients || given != SARGACEU_ACCEPTED) {
        fprintf(stderr, "driver: %s has %zu segments and %zu patients, and its verdict is %u: not the shape that is measured\n", path,
                held.answer[3], many, given);
        exit(1);
    }
}

static void repeat_screening(int which, size_t times)
{
    size_t answer[SARGACEU_SCREEN_ANSWER];
    for (size_t i = 0; i < times; i++)
        screen_by(which, &held, whole[SARGACEU_SMALL], answer, SARGACEU_SCREEN_ANSWER);
}

int run_screening(const char *mode, const char *who, const char *path, size_t times)
{
    int which = strcmp(who, names[1]) == 0;
    hold_report(path);
    if (strcmp(mode, "screen") == 0)
        repeat_screening(which, times);
    else if (strcmp(mode, "is-table") == 0)
        repeat_test(which, times);
    else
        return 2;
    return 0;
}

/* Nanoseconds for the check, and for the table test alone. */
void time_screening(const char *path)
{
    enum { TIMES = 2000 };
    double all[2] = { 1e9, 1e9 }, test[2] = { 1e9, 1e9 };
    hold_report(path);
    for (int round = 0; round < 9; round++) {
        for (int which = 0; which < 2; which++) {
            double began = seconds();
            repeat_screening(which, TIMES);
            keep_least(&all[which], began, TIMES);
            began = seconds();
            repeat_test(which, TIMES);
            keep_least(&test[which], began, TIMES);
        }
    }
    printf("%-14s %8.0f %8.0f %8.0f %8.0f %6.2f\n", name_in(path), 1e9 * all[0], 1e9 * test[0], 1e9 * all[1], 1e9 * test[1], all[0] / all[1]);
}
