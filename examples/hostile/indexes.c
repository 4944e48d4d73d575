/* Indexes by analysis code: sound and damaged ones, reports that carry codes of theirs, and what plain loops make of them. */
#include "hostile.h"

#include <string.h>

enum { PLACES_MOST = SARGACEU_INDEX_CODES_MOST + SARGACEU_LARGE_SEGMENTS / SARGACEU_SEGMENT_ROW };

/* Codes that drawn indexes and drawn reports have in common, in byte order; the last has as many bytes as a code may have. */
static const char *const known[] = { "2", "94500-6", "A", "AB", "ABC", "B", "FINGE", "GLY", "K", "PAYS", "TYPOR", "ZZZZZZZZZZZZZZZZZZZZZZ" };

enum { KNOWN = sizeof known / sizeof *known };

static uint8_t *place_of(struct index *i, size_t place)
{
    return i->codes + place * SARGACEU_INDEX_PLACE;
}

static const uint8_t *place_in(const struct index *i, size_t place)
{
    return i->codes + place * SARGACEU_INDEX_PLACE;
}

/* Below, at or over 0 as one code is before the other, the same, or behind it in byte order. */
static int compare(const uint8_t *a, size_t a_bytes, const uint8_t *b, size_t b_bytes)
{
    int first = memcmp(a, b, a_bytes < b_bytes ? a_bytes : b_bytes);
    return first != 0 ? first : (a_bytes > b_bytes) - (a_bytes < b_bytes);
}

/* ---- drawing ---- */

/* A code becomes another one that is behind it: longer, or cut and with a greater last byte. */
static void raise_code(uint8_t *place)
{
    size_t bytes = place[0], at = below(bytes);
    bool longer = bytes == 0 || (bytes < SARGACEU_INDEX_CODE_MOST && one_in(8));
    while (!longer && at < bytes && place[1 + at] == 255)
        at++;
    if (longer || at == bytes) {
        if (bytes == SARGACEU_INDEX_CODE_MOST) /* 22 times 255 is not reached from below in 512 steps */
            fail("a drawn code is the last one");
        place[++place[0]] = (uint8_t)(one_in(4) ? below(4) : 32 + below(32));
        return;
    }
    place[0] = (uint8_t)(at + 1);
    place[1 + at]++;
}

/* Places that rise: the known codes that are drawn, and others between them. What a place has behind its code may be anything. */
static size_t draw_places(struct index *i, size_t wanted)
{
    uint8_t last[SARGACEU_INDEX_PLACE] = { 0 };
    size_t named = 0, next = 0;
    while (named < wanted) {
        uint8_t other[SARGACEU_INDEX_PLACE];
        memcpy(other, last, sizeof other);
        raise_code(other);
        while (next < KNOWN && (one_in(3) || compare((const uint8_t *)known[next], strlen(known[next]), last + 1, last[0]) <= 0))
            next++;
        if (next < KNOWN && (one_in(4) || compare((const uint8_t *)known[next], strlen(known[next]), other + 1, other[0]) <= 0)) {
            other[0] = (uint8_t)strlen(known[next]);
            memcpy(other + 1, known[next], other[0]);
        }
        memcpy(last, other, sizeof last);
        memcpy(place_of(i, named++), other, 1 + (size_t)other[0]);
    }
    return named;
}

static void damage_index(struct index *i, size_t named)
{
    uint8_t kept[SARGACEU_INDEX_PLACE], *one = place_of(i, below(named)), *other = place_of(i, below(named));
    switch (below(8)) {
    case 0: i->counts[0] = one_in(2) ? SARGACEU_INDEX_CODES_MOST + 1 : (uint32_t)wild(); break;
    case 1: i->codes_bytes = short_of(SARGACEU_INDEX_CODES_BYTES); break;
    case 2: i->counts_numbers = short_of(SARGACEU_INDEX_COUNTS); break;
    case 3: one[0] = one_in(2) ? 0 : (uint8_t)(SARGACEU_INDEX_CODE_MOST + 1 + below(233)); break;
    case 4: one[below(SARGACEU_INDEX_PLACE)] = (uint8_t)chance(); break;
    case 5: memmove(one, other, SARGACEU_INDEX_PLACE); break;
    default:
        memcpy(kept, one, sizeof kept);
        memmove(one, other, sizeof kept);
        memcpy(other, kept, sizeof kept);
    }
}

void draw_index(struct index *i)
{
    static const size_t full[] = { SARGACEU_INDEX_CODES_MOST, SARGACEU_INDEX_CODES_MOST - 1, SARGACEU_INDEX_CODES_MOST - 3 };
    memcpy(i->codes, former(sizeof i->codes), sizeof i->codes);
    memcpy(i->counts, former(sizeof i->counts), sizeof i->counts);
    i->codes_bytes = enough(SARGACEU_INDEX_CODES_BYTES, sizeof i->codes);
    i->counts_numbers = enough(SARGACEU_INDEX_COUNTS, SARGACEU_INDEX_COUNTS + INDEX_COUNTS_SLACK);
    size_t wanted = one_in(5) ? full[below(3)] : one_in(8) ? below(SARGACEU_INDEX_CODES_MOST) : below(24);
    size_t named = draw_places(i, wanted);
    i->counts[0] = (uint32_t)named;
    for (size_t k = 1; k <= named; k++)
        i->counts[k] = one_in(24) ? UINT32_MAX - (uint32_t)below(2) : (uint32_t)below(1000);
    if (one_in(5))
        damage_index(i, named);
}

/* One that the index names, a known one, or any. */
size_t draw_code(const struct index *i, uint8_t code[CODE_DRAWN_MOST])
{
    size_t bytes = below(one_in(4) ? CODE_DRAWN_MOST : SARGACEU_INDEX_CODE_MOST + 1);
    const uint8_t *place = place_in(i, below(SARGACEU_INDEX_CODES_MOST));
    memcpy(code, former(CODE_DRAWN_MOST), CODE_DRAWN_MOST);
    if (one_in(3)) {
        const char *name = known[below(KNOWN)];
        bytes = strlen(name);
        memcpy(code, name, bytes);
    } else if (!one_in(4)) {
        place = place_in(i, below(i->counts[0] <= SARGACEU_INDEX_CODES_MOST ? i->counts[0] : SARGACEU_INDEX_CODES_MOST));
        bytes = place[0] <= SARGACEU_INDEX_CODE_MOST ? place[0] : SARGACEU_INDEX_CODE_MOST;
        memcpy(code, place + 1, bytes);
    }
    return bytes;
}

static void put_result(void)
{
    static const char *const others[] = { "", "~A", "^A", "&A", "A&B~C^D", "Q", "QQ", "GLYX", "ZZZZZZZZZZZZZZZZZZZZZ", "a b" };
    char segment[64] = "OBX|1|NM|";
    if (one_in(16)) {
        put_segment(one_in(2) ? "OBX" : "OBX|1|NM");
        return;
    }
    strcat(segment, one_in(4) ? others[below(sizeof others / sizeof *others)] : known[below(KNOWN)]);
    strcat(segment, one_in(96) ? "ZZZZZZZZZZZZZZZZZZZZZZZ" : one_in(4) ? "~B~L" : "");
    put_segment(segment);
    if (one_in(8))
        put_segment("C|1|NM|GLY"); /* a comment that looks like a result is none */
}

void draw_counted_report(struct message *m)
{
    begin_message(m);
    put_segment("H|~^\\&|||LAB||ORU");
    put_segment("P|1");
    put_segment("OBR|1");
    for (size_t results = 1 + below(one_in(16) ? 60 : 6); results > 0; results--)
        put_result();
    put_segment("L|1");
}

/* ---- what plain loops say of an index ---- */

bool plain_is_roomy(const struct index *i)
{
    return i->codes_bytes >= SARGACEU_INDEX_CODES_BYTES && i->counts_numbers >= SARGACEU_INDEX_COUNTS &&
           i->counts[0] <= SARGACEU_INDEX_CODES_MOST;
}

bool plain_is_index(const struct index *i)
{
    if (!plain_is_roomy(i))
        return false;
    for (size_t k = 0; k < i->counts[0]; k++) {
        const uint8_t *place = place_in(i, k);
        if (place[0] == 0 || place[0] > SARGACEU_INDEX_CODE_MOST)
            return false;
        const uint8_t *before = place - SARGACEU_INDEX_PLACE;
        if (k > 0 && compare(before + 1, before[0], place + 1, place[0]) >= 0)
            return false;
    }
    return true;
}

/* Where halving comes to: a place's length may be any byte, and then the code is before what is longer. */
static bool halved(const struct index *i, const uint8_t *code, size_t bytes, size_t *found)
{
    size_t low = 0, high = i->counts[0];
    while (low < high) {
        const uint8_t *place = place_in(i, *found = (low + high) / 2);
        int stands = compare(code, bytes, place + 1, place[0]);
        if (stands == 0)
            return true;
        if (stands < 0)
            high = *found;
        else
            low = *found + 1;
    }
    return false;
}

uint8_t plain_count(const struct index *i, const uint8_t *code, size_t bytes, size_t *count)
{
    size_t found = 0, sought = 0;
    if (!plain_is_roomy(i))
        return SARGACEU_NO_INDEX;
    bool named = bytes <= SARGACEU_INDEX_CODE_MOST && halved(i, code, bytes, &found);
    if (plain_is_index(i)) { /* then it is the only place that has the code */
        while (sought < i->counts[0] && compare(code, bytes, place_in(i, sought) + 1, place_in(i, sought)[0]) != 0)
            sought++;
        if (named != (sought < i->counts[0]) || (named && sought != found))
            fail("halving does not come to the place that has the code");
    }
    if (!named)
        return SARGACEU_NOT_NAMED;
    *count = i->counts[found + 1];
    return SARGACEU_NAMED;
}

uint8_t plain_code(const struct index *i, size_t k, size_t answer[SARGACEU_CODE_ANSWER])
{
    if (!plain_is_roomy(i))
        return SARGACEU_NO_INDEX;
    if (k == 0 || k > i->counts[0])
        return SARGACEU_NOT_NAMED;
    const uint8_t *place = place_in(i, k - 1);
    if (place[0] == 0 || place[0] > SARGACEU_INDEX_CODE_MOST)
        return SARGACEU_NO_INDEX;
    answer[0] = (size_t)(place + 1 - i->codes);
    answer[1] = place[0];
    answer[2] = i->counts[k];
    return SARGACEU_NAMED;
}

/* ---- what reading with an index makes of it ---- */

static struct {
    uint8_t place[SARGACEU_INDEX_PLACE];
    uint64_t count;
} entries[PLACES_MOST];
static size_t named;

static void add_code(const uint8_t *code, size_t bytes)
{
    size_t at = 0;
    while (at < named && compare(entries[at].place + 1, entries[at].place[0], code, bytes) < 0)
        at++;
    if (at < named && compare(entries[at].place + 1, entries[at].place[0], code, bytes) == 0) {
        entries[at].count++;
        return;
    }
    memmove(entries + at + 1, entries + at, (named++ - at) * sizeof *entries);
    memset(entries[at].place, 0, sizeof entries[at].place);
    entries[at].place[0] = (uint8_t)bytes;
    memcpy(entries[at].place + 1, code, bytes);
    entries[at].count = 1;
}

static void take_entries(const struct index *i)
{
    named = i->counts[0];
    for (size_t k = 0; k < named; k++) {
        memcpy(entries[k].place, place_in(i, k), SARGACEU_INDEX_PLACE);
        entries[k].count = i->counts[k + 1];
    }
}

/* Adds what the results of the message carry; the first row whose code is too long, or 0. */
static size_t add_codes(size_t rows, uint64_t *results)
{
    for (size_t row = 1; row <= rows; row++) {
        const uint8_t *code;
        size_t bytes = plain_code_carried(row, &code);
        if (bytes > SARGACEU_INDEX_CODE_MOST)
            return row;
        if (bytes == 0)
            continue;
        add_code(code, bytes);
        ++*results;
    }
    return 0;
}

static bool counts_fit(const uint64_t tally[SARGACEU_TALLY])
{
    bool fit = true;
    for (int k = 0; k < SARGACEU_TALLY; k++)
        fit = fit && tally[k] <= UINT32_MAX;
    for (size_t k = 0; k < named; k++)
        fit = fit && entries[k].count <= UINT32_MAX;
    return fit;
}

struct outcome plain_add_message(struct index *i, uint32_t tally[SARGACEU_TALLY], size_t rows)
{
    uint64_t after[SARGACEU_TALLY] = { tally[0] + UINT64_C(1), tally[1] + (uint64_t)rows, tally[2] };
    take_entries(i);
    size_t too_long = add_codes(rows, after + 2);
    if (too_long != 0)
        return (struct outcome){ SARGACEU_LONG_CODE, too_long };
    if (named > SARGACEU_INDEX_CODES_MOST)
        return (struct outcome){ SARGACEU_FULL_INDEX, 0 };
    if (!counts_fit(after))
        return (struct outcome){ SARGACEU_FULL_COUNT, 0 };
    for (int k = 0; k < SARGACEU_TALLY; k++)
        tally[k] = (uint32_t)after[k];
    i->counts[0] = (uint32_t)named;
    for (size_t k = 0; k < named; k++) {
        memcpy(place_of(i, k), entries[k].place, SARGACEU_INDEX_PLACE);
        i->counts[k + 1] = (uint32_t)entries[k].count;
    }
    return (struct outcome){ SARGACEU_ACCEPTED, 0 };
}
