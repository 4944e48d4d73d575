/*
 * The screening check: once the table is tested, one pass over its rows. The leaves of a row are gone over once, up to the last that a rule asks for,
 * and the results of a patient are counted on the way to the next one.
 */
#include "baseline.h"
#include "baseline_table.h"

enum { NO_TABLE = 13, NOT_A_REPORT = 30 };
enum {
    NO_NAME = 31, NO_FIRST_NAME, NO_BIRTH_NAME, NO_TELEPHONE, NO_POSTAL_CODE, NO_ORDER_NUMBER, NO_SAMPLE_TIME, NO_LABORATORY,
    NOT_ONE_PAYS, NOT_ONE_TYPOR, NOT_ONE_PROSS, NOT_ONE_FINGE, WRONG_TYPOR, WRONG_PROSS, WRONG_RESULT,
    KEPT
};
enum { ORU = 6 };

/* ---- the leaves of a row ---- */

/* The table has been tested, so the leaf rows run on field by field, and what is sought next lies behind what was found. */
struct leaves { const uint32_t *row, *end; };

/* Goes on to the leaf of a field and a subfield; whether it is there. */
static inline bool seek(struct leaves *l, unsigned field, unsigned subfield)
{
    while (l->row < l->end && l->row[1] < field)
        l->row += LEAF_ROW;
    while (l->row < l->end && l->row[1] == field && l->row[2] == 1 && l->row[3] < subfield)
        l->row += LEAF_ROW;
    return l->row < l->end && l->row[1] == field && l->row[2] == 1 && l->row[3] == subfield;
}

static inline bool filled(struct leaves *l, unsigned field, unsigned subfield)
{
    return seek(l, field, subfield) && l->row[6] > 0;
}

/* A text of two letters. */
static inline bool says(struct leaves *l, unsigned field, unsigned subfield, const uint8_t *text, const char *wanted)
{
    return seek(l, field, subfield) && l->row[6] == 2 && memcmp(text + l->row[5], wanted, 2) == 0;
}

#define LETTER(letter) (1u << ((letter) - 'A'))

/* One of these letters. */
static inline bool says_letter(struct leaves *l, unsigned field, unsigned subfield, const uint8_t *text, uint32_t letters)
{
    if (!seek(l, field, subfield) || l->row[6] != 1)
        return false;
    uint8_t letter = text[l->row[5]] - 'A';
    return letter < 26 && letters >> letter & 1;
}

/* ---- the rows by their kind: the lowest rule that one fails ---- */

static unsigned judge_patient(struct leaves l)
{
    if (!filled(&l, 6, 1))
        return NO_NAME;
    if (!filled(&l, 6, 2))
        return NO_FIRST_NAME;
    if (!filled(&l, 7, 1))
        return NO_BIRTH_NAME;
    bool postal_code = filled(&l, 11, 5);
    if (!filled(&l, 13, 1))
        return NO_TELEPHONE;
    return postal_code ? KEPT : NO_POSTAL_CODE;
}

static unsigned judge_order(struct leaves l)
{
    if (!filled(&l, 4, 2))
        return NO_ORDER_NUMBER;
    return filled(&l, 8, 1) ? KEPT : NO_SAMPLE_TIME;
}

/* How many results have each code, 16 bits for each: a table has at most 4,096 segments. */
static const uint64_t PAYS = 1, TYPOR = (uint64_t)1 << 16, PROSS = (uint64_t)1 << 32, FINGE = (uint64_t)1 << 48;
static const uint64_t one_of_each = PAYS | TYPOR | PROSS | FINGE;

/* What a result adds to these counts. */
static inline uint64_t code_of(struct leaves *l, const uint8_t *text)
{
    if (!seek(l, 4, 1))
        return 0;
    const uint8_t *code = text + l->row[5];
    if (l->row[6] == 4)
        return memcmp(code, "PAYS", 4) == 0 ? PAYS : 0;
    if (l->row[6] != 5)
        return 0;
    return memcmp(code, "TYPOR", 5) == 0 ? TYPOR : memcmp(code, "PROSS", 5) == 0 ? PROSS : memcmp(code, "FINGE", 5) == 0 ? FINGE : 0;
}

static inline unsigned judge_result(struct leaves l, const uint8_t *text, uint64_t *counts)
{
    static const uint32_t residences = LETTER('I') | LETTER('H') | LETTER('E') | LETTER('C') | LETTER('A') | LETTER('U');
    static const uint32_t professions = LETTER('O') | LETTER('N') | LETTER('U');
    static const uint32_t outcomes = LETTER('P') | LETTER('N') | LETTER('I') | LETTER('X');
    bool coded = says(&l, 3, 1, text, "CE");
    uint64_t code = code_of(&l, text);
    *counts += code;
    coded = coded && (says(&l, 4, 3, text, "LN") || says(&l, 4, 6, text, "LN"));
    if (code == TYPOR && !says_letter(&l, 6, 1, text, residences))
        return WRONG_TYPOR;
    if (code == PROSS && !says_letter(&l, 6, 1, text, professions))
        return WRONG_PROSS;
    return coded && !says_letter(&l, 6, 1, text, outcomes) ? WRONG_RESULT : KEPT;
}

/* The first code that not exactly one of a patient's results has. */
static inline unsigned judge_counts(uint64_t counts)
{
    if (counts == one_of_each)
        return KEPT;
    return NOT_ONE_PAYS + (unsigned)__builtin_ctzll(counts ^ one_of_each) / 16;
}

/* ---- the table ---- */

struct lowest { unsigned number; size_t place; };

/* The lowest rule of all rows counts, and of the rows that fail it the first. */
static inline void note(struct lowest *lowest, unsigned number, size_t place)
{
    if (number < lowest->number)
        *lowest = (struct lowest){ number, place };
}

static struct lowest judge(const uint32_t *segments, size_t many, const uint32_t *leaves, const uint8_t *text)
{
    struct lowest lowest = { KEPT, 0 };
    size_t patient = 0;
    uint64_t counts = one_of_each;
    for (size_t i = 1; i <= many; i++, segments += SEGMENT_ROW) {
        const uint32_t *row = leaves + (segments[2] - 1) * LEAF_ROW;
        struct leaves l = { row, row + segments[3] * LEAF_ROW };
        switch (segments[0]) {
        case OBX:
            note(&lowest, judge_result(l, text, &counts), i);
            break;
        case P:
            note(&lowest, judge_counts(counts), patient);
            note(&lowest, judge_patient(l), i);
            patient = i;
            counts = 0;
            break;
        case OBR:
            note(&lowest, judge_order(l), i);
            break;
        case H:
            note(&lowest, filled(&l, 5, 1) ? KEPT : NO_LABORATORY, i);
            break;
        }
    }
    note(&lowest, judge_counts(counts), patient);
    return lowest;
}

uint8_t base_screen(uint8_t form,
                    const size_t *card, size_t card_numbers,
                    const uint32_t *segments, size_t segments_numbers,
                    const uint32_t *leaves, size_t leaves_numbers,
                    const uint8_t *text, size_t text_bytes,
                    size_t *answer, size_t answer_numbers)
{
    if (answer_numbers < 1)
        return 1;
    answer[0] = 0;
    if (!is_lent_table(form, card, card_numbers, segments, segments_numbers, leaves, leaves_numbers, text, text_bytes))
        return NO_TABLE;
    if (card[1] != ORU)
        return NOT_A_REPORT;
    struct lowest lowest = judge(segments, card[2], leaves, text);
    answer[0] = lowest.place;
    return lowest.number == KEPT ? 0 : lowest.number;
}
