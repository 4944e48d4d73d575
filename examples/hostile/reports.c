/* Screening reports that meet all rules, or break some of them. They are written with the usual separators; messages.c puts in the drawn ones. */
#include "hostile.h"

#include <string.h>

enum { SEGMENT_MOST = 400, RESULTS_MOST = 32 };

/* One of the texts that stand there. */
#define ONE_OF(...) one_of((const char *const[]){ __VA_ARGS__ }, sizeof((const char *const[]){ __VA_ARGS__ }) / sizeof(const char *))

static uint8_t broken; /* the number of the rule that is to be broken; 0 where none is */

static const char *one_of(const char *const *texts, size_t count)
{
    return texts[below(count)];
}

/* Whether a rule is broken here: mostly where it is the one to be broken, and now and then where it is not. */
static bool breaks(uint8_t rule)
{
    return rule == broken ? !one_in(3) : one_in(250);
}

/* ---- a segment ---- */

static char segment[SEGMENT_MOST];

static void begin(const char *front)
{
    segment[0] = '\0';
    strncat(segment, front, SEGMENT_MOST - 1);
}

static void add(const char *text)
{
    strncat(segment, text, SEGMENT_MOST - 1 - strlen(segment));
}

/* A leaf that must be there and begins its field. Where it is missing, something may stand behind it all the same. */
static void add_field(uint8_t rule)
{
    if (breaks(rule))
        add(ONE_OF("", "&A", "~A", "^A", "~~A^B"));
    else
        add(ONE_OF("A", "0", " ", "LEROY", "A&B", "A~", "A~B", "A^", "A^B"));
}

/* The same of a leaf that begins a subfield, with what stands before it where it is not the first. */
static void add_subfield(uint8_t rule, const char *before)
{
    if (!breaks(rule)) {
        add(before);
        add(ONE_OF("A", "0", " ", "DUPONT", "99120", "A&", "A&B"));
    } else if (!one_in(3)) {
        add(before);
        add(ONE_OF("", "&", "&A"));
    }
}

/* Where one of some rules is to be broken, the segment may end before any field, so that the rest was never sent. */
static void end_early(uint8_t from, uint8_t to)
{
    if (broken < from || broken > to || !one_in(6))
        return;
    size_t bars = 0;
    for (const char *at = segment; (at = strchr(at, '|')) != NULL; at++)
        bars++;
    char *at = strchr(segment, '|');
    for (size_t left = below(bars); left > 0; left--)
        at = strchr(at + 1, '|');
    *at = '\0';
}

/* Puts the segment, and a comment behind it now and then; one that looks like a result is none. */
static void put(void)
{
    put_segment(segment);
    if (one_in(12))
        put_segment(ONE_OF("C|1|L|A", "C|1|CE|PAYS||FR", "C|1|CE|A~B~LN||Z", "C"));
}

/* ---- header, patients and orders ---- */

static void put_header(void)
{
    begin("H|~^\\&|||");
    add_field(SARGACEU_NO_LABORATORY);
    add(breaks(SARGACEU_NOT_A_REPORT) ? "||ORM" : "||ORU");
    add(ONE_OF("", "|||A"));
    put();
}

static void put_patient(void)
{
    begin("P|1||||");
    add_subfield(SARGACEU_NO_NAME, "");
    add_subfield(SARGACEU_NO_FIRST_NAME, "~");
    add("|");
    add_field(SARGACEU_NO_BIRTH_NAME);
    add("||||");
    add(ONE_OF("~~~", "A~B~C~D", "A&B~~~"));
    add_subfield(SARGACEU_NO_POSTAL_CODE, "~");
    add("||");
    add_field(SARGACEU_NO_TELEPHONE);
    add(ONE_OF("", "", "|", "|A|B"));
    end_early(SARGACEU_NO_NAME, SARGACEU_NO_POSTAL_CODE);
    put();
}

static void put_order(void)
{
    begin("OBR|1|A~B|");
    add(ONE_OF("", "A", "A&B"));
    add_subfield(SARGACEU_NO_ORDER_NUMBER, "~");
    add("|A~B~L|R||");
    add_field(SARGACEU_NO_SAMPLE_TIME);
    add(ONE_OF("", "", "|", "||A"));
    end_early(SARGACEU_NO_ORDER_NUMBER, SARGACEU_NO_SAMPLE_TIME);
    put();
}

/* ---- results ---- */

/* The four pseudo-analyses, results of type CE with the table LN, and any others. */
enum sort { PAYS, TYPOR, PROSS, FINGE, CODED, OTHER };

static const char *const codes[] = { "PAYS", "TYPOR", "PROSS", "FINGE" };

static void add_letter(const char *letters)
{
    const char letter[2] = { letters[below(strlen(letters))], '\0' };
    add(letter);
}

/* One of the letters, or where the rule is broken another text, which may be one of them by chance. */
static void add_value(uint8_t rule, const char *letters)
{
    if (!breaks(rule)) {
        add_letter(letters);
        add(ONE_OF("", "", "~A", "&A", "^Z"));
    } else if (one_in(3)) {
        add(ONE_OF("", "", "i", "p", "II", "PN", "N ", "0"));
    } else if (one_in(2)) {
        add(ONE_OF("~", "&", "^", "X", " "));
        add_letter(letters);
    } else {
        add_letter("ABCDEFGHIJKLMNOPQRSTUVWXYZ");
    }
}

static void add_test(enum sort sort, bool misspelt)
{
    if (misspelt)
        add(ONE_OF("A", "^", "~", "&", "A~~L~"));
    add(codes[sort]);
    if (misspelt && one_in(4))
        add("S");
    if (one_in(broken == SARGACEU_WRONG_RESULT ? 12 : 200)) /* seldom, since the value must be one that a coded result has, too */
        add(ONE_OF("~A~LN", "~~L~~~LN"));
    else
        add(ONE_OF("", "~A", "~A~L", "~A~L~B~C~L", "&A~~L"));
}

/* Type and test. */
static void add_names(enum sort sort, bool misspelt)
{
    if (sort == CODED) {
        add(ONE_OF("CE|", "CE|", "CE|", "CE~A|", "CE&|"));
        add(ONE_OF("94500~A~LN", "A~B~L~94500~C~LN", "A~B~LN&C~~~LN", "~~LN", "A~~L&LN~~~LN"));
    } else if (sort == OTHER && one_in(2)) {
        add(ONE_OF("NM|", "ST|", "ce|", "CEX|", "C|", "|", "~CE|"));
        add(ONE_OF("94500~A~LN", "A~~L~B~~LN"));
    } else if (sort == OTHER) {
        add(ONE_OF("CE|A", "CE|A~LN", "CE|A~~ln", "CE|A~~LNX", "CE|A~~L~LN", "CE|A^~~LN", "CE|A~~&LN", "CE|APSYM~~L"));
    } else {
        add(ONE_OF("CE|", "CE|", "CE|", "ST|", "|"));
        add_test(sort, misspelt);
    }
}

static void put_result(enum sort sort, bool misspelt)
{
    begin("OBX|1|");
    add_names(sort, misspelt);
    add("||");
    switch (sort) {
    case TYPOR: add_value(SARGACEU_WRONG_TYPOR, "IHECAU"); break;
    case PROSS: add_value(SARGACEU_WRONG_PROSS, "ONU"); break;
    case CODED: add_value(SARGACEU_WRONG_RESULT, "PNIX"); break;
    default: add(ONE_OF("FR", "990000017", "", "A~B", "P", "1.2"));
    }
    for (size_t end = strlen(segment); segment[end - 1] == '|' && one_in(2); end--) /* an empty value was never sent */
        segment[end - 1] = '\0';
    put();
}

struct result {
    enum sort sort;
    bool misspelt; /* its code */
};

static void shuffle(struct result *results, size_t count)
{
    for (size_t left = count; left > 1; left--) {
        struct result *one = results + below(left), kept = *one;
        *one = results[left - 1];
        results[left - 1] = kept;
    }
}

/* A patient's results in any order: each code once, and where its rule is broken not at all, misspelt, or several times. */
static size_t draw_results(struct result *results)
{
    size_t count = 0;
    for (int sort = PAYS; sort <= FINGE; sort++) {
        bool wrong = breaks((uint8_t)(SARGACEU_NOT_ONE_PAYS + sort));
        size_t times = wrong ? below(4) : 1;
        for (size_t i = 0; i < times; i++)
            results[count++] = (struct result){ (enum sort)sort, wrong && times == 1 };
        if (one_in(20))
            results[count++] = (struct result){ (enum sort)sort, true };
    }
    for (size_t more = 1 + below(4); more > 0; more--)
        results[count++] = (struct result){ one_in(2) ? CODED : OTHER, false };
    shuffle(results, count);
    return count;
}

/* ---- a report ---- */

/* Results under some orders: each order has one at least. */
static void put_results(void)
{
    struct result results[RESULTS_MOST];
    size_t count = draw_results(results);
    for (size_t i = 0; i < count; i++) {
        if (i == 0 || one_in(4))
            put_order();
        put_result(results[i].sort, results[i].misspelt);
    }
}

void draw_report(struct message *m, uint8_t form)
{
    size_t most = form == SARGACEU_LARGE && one_in(8) ? 40 : 8; /* more than 256 segments now and then */
    broken = (uint8_t)(one_in(5) ? 0 : SARGACEU_NOT_A_REPORT + below(SARGACEU_WRONG_RESULT - SARGACEU_NOT_A_REPORT + 1));
    begin_message(m);
    put_header();
    for (size_t patients = most > 8 || one_in(24) ? 4 + below(most) : 1 + below(3); patients > 0; patients--) {
        put_patient();
        put_results();
    }
    put_segment("L|1");
}
