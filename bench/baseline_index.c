/*
 * Reading with an index: one pass judges the index and takes down the front of each code as one number; the reader's survey decides its own refusals
 * and notes where the segments begin; then the code of each result is sought among the fronts by halving and counted where it lies. What that changes
 * is kept before, and put back where the message is refused after all. The table is filled last.
 */
#include "baseline.h"
#include "baseline_reader.h"

enum { LONG_CODE = 50, FULL_INDEX, FULL_COUNT, NO_INDEX };

/* A place has the length of its code, and room for the longest. */
enum { CODES = 512, CODE = 22, PLACE = 1 + CODE };

/* ---- codes ---- */

/* The first eight bytes of a code as one number, zeros behind a shorter one: of two codes whose fronts differ, the one with the lower comes first. */
static inline uint64_t front_of(const uint8_t *place)
{
    static const uint64_t all = UINT64_MAX, masks[PLACE] = {
        0, all << 56, all << 48, all << 40, all << 32, all << 24, all << 16, all << 8,
        all, all, all, all, all, all, all, all, all, all, all, all, all, all, all,
    };
    uint64_t front;
    memcpy(&front, place + 1, sizeof front);
    return __builtin_bswap64(front) & masks[place[0]];
}

/* Two codes whose fronts are the same: below 0 where the first comes first, 0 where they are one. */
static int compare(const uint8_t *place, const uint8_t *other)
{
    int differ = memcmp(place + 1, other + 1, place[0] < other[0] ? place[0] : other[0]);
    return differ ? differ : place[0] - other[0];
}

/* Whether so many codes are each of 1 to 22 bytes and before the next; their fronts are taken down. */
static inline bool rises(const uint8_t *place, size_t named, uint64_t *fronts)
{
    uint64_t before = 0;
    for (size_t i = 0; i < named; i++, place += PLACE) {
        if (place[0] - 1u >= CODE)
            return false;
        uint64_t front = front_of(place);
        if (front <= before && i > 0 && (front < before || compare(place - PLACE, place) >= 0))
            return false;
        fronts[i] = before = front;
    }
    return true;
}

/* ---- a result's code ---- */

/* Where the text goes on behind a line that ends at `p`: in the addendum that follows, if one does. */
static inline const uint8_t *next_text(const uint8_t *p, const uint8_t *end, uint8_t field)
{
    p = skip_low(p + 1, end);
    return p < end && is_addendum(p, end, field) ? p + 2 : NULL;
}

/*
 * Field 4 up to the first separator, of the segment that begins at `p`: its bytes go to `code`; answers how many, which is one past the most where
 * they are too many, and 0 where there are none. The survey has seen a CR in every line.
 */
static inline size_t take_code(const uint8_t *class, uint8_t field, const uint8_t *p, const uint8_t *end, uint8_t *code)
{
    for (unsigned left = 3; left; p++) {
        if (*p == field) {
            left--;
        } else if (*p < SPACE) {
            p = next_text(p, end, field);
            if (!p)
                return 0;
            p--;
        }
    }
    for (size_t n = 0;;) {
        for (; class[*p] == TEXT; p++) {
            if (n == CODE)
                return n + 1;
            code[n++] = *p;
        }
        if (class[*p] != LOW)
            return n;
        p = next_text(p, end, field);
        if (!p)
            return n;
    }
}

/* ---- counting ---- */

/* A lent index, the fronts of its codes, and how it was before: the counts at once, the codes where one is new, both as far as a message may reach. */
struct index {
    uint8_t *codes;
    uint32_t *counts;
    size_t named, reach;
    bool codes_kept;
    uint64_t fronts[CODES];
    uint32_t kept_counts[CODES + 1];
    uint8_t kept_codes[CODES * PLACE];
};

static void keep(struct index *x, size_t results)
{
    x->reach = x->named + results < CODES ? x->named + results : CODES;
    x->codes_kept = false;
    memcpy(x->kept_counts, x->counts, (x->reach + 1) * sizeof *x->counts);
}

static void put_back(struct index *x)
{
    memcpy(x->counts, x->kept_counts, (x->reach + 1) * sizeof *x->counts);
    if (x->codes_kept)
        memcpy(x->codes, x->kept_codes, x->reach * PLACE);
}

/* A new code at a place, counted once, those from there on one place further. */
static uint8_t insert(struct index *x, size_t at, uint64_t front, const uint8_t *code)
{
    size_t behind = x->named - at;
    uint8_t *place = x->codes + at * PLACE;
    if (x->named == CODES)
        return FULL_INDEX;
    if (!x->codes_kept)
        memcpy(x->kept_codes, x->codes, x->reach * PLACE);
    x->codes_kept = true;
    memmove(place + PLACE, place, behind * PLACE);
    memcpy(place, code, 1 + code[0]);
    memset(place + 1 + code[0], 0, CODE - code[0]);
    memmove(x->fronts + at + 1, x->fronts + at, behind * sizeof *x->fronts);
    x->fronts[at] = front;
    memmove(x->counts + 1 + at + 1, x->counts + 1 + at, behind * sizeof *x->counts);
    x->counts[1 + at] = 1;
    x->counts[0] = ++x->named;
    return 0;
}

/* One result more with this code. */
static inline uint8_t count_code(struct index *x, const uint8_t *code)
{
    uint64_t front = front_of(code);
    size_t low = 0, high = x->named;
    while (low < high) {
        size_t middle = (low + high) / 2;
        int order = x->fronts[middle] < front ? -1 : x->fronts[middle] > front ? 1 : compare(x->codes + middle * PLACE, code);
        if (order == 0) {
            if (x->counts[1 + middle] == UINT32_MAX)
                return FULL_COUNT;
            x->counts[1 + middle]++;
            return 0;
        }
        if (order < 0)
            low = middle + 1;
        else
            high = middle;
    }
    return insert(x, low, front, code);
}

/* All results in their order. A code that is too long is refused at once, a full index or a full count once all are seen: the lower number counts. */
static struct verdict count_results(struct index *x, const struct survey *seen, const uint32_t *starts, const uint8_t *class, uint8_t field,
                                    const uint8_t *message, size_t bytes, size_t *results)
{
    uint8_t code[PLACE] = { 0 }, lowest = 0;
    size_t many = 0;
    for (size_t i = 0; i < seen->segments; i++) {
        if (seen->kinds[i] != OBX)
            continue;
        size_t length = take_code(class, field, message + starts[i], message + bytes, code + 1);
        if (length == 0)
            continue;
        if (length > CODE)
            return verdict(LONG_CODE, i + 1);
        code[0] = length;
        uint8_t number = count_code(x, code);
        if (number && (lowest == 0 || number < lowest))
            lowest = number;
        many++;
    }
    *results = many;
    return verdict(lowest, 0);
}

/* One message more, where none of the three numbers passes its last. */
static inline bool tally_up(uint32_t *tally, size_t segments, size_t results)
{
    if (tally[0] == UINT32_MAX || tally[1] > UINT32_MAX - segments || tally[2] > UINT32_MAX - results)
        return false;
    tally[0]++;
    tally[1] += segments;
    tally[2] += results;
    return true;
}

static struct verdict count_message(struct index *x, const struct survey *seen, const uint32_t *starts, const uint8_t *class, uint8_t field,
                                    const uint8_t *message, size_t bytes, uint32_t *tally)
{
    size_t results;
    keep(x, seen->segments);
    struct verdict v = count_results(x, seen, starts, class, field, message, bytes, &results);
    if (v.number == 0 && !tally_up(tally, seen->segments, results))
        v = verdict(FULL_COUNT, 0);
    if (v.number)
        put_back(x);
    return v;
}

/* ---- the call ---- */

uint8_t base_read_indexed(uint8_t form,
                          const uint8_t *message, size_t message_bytes,
                          uint8_t *text, size_t text_bytes,
                          uint32_t *segments, size_t segments_numbers,
                          uint32_t *leaves, size_t leaves_numbers,
                          uint8_t *codes, size_t codes_bytes,
                          uint32_t *counts, size_t counts_numbers,
                          uint32_t *tally, size_t tally_numbers,
                          size_t *answer, size_t answer_numbers)
{
    if (answer_numbers < 6 || tally_numbers < 3)
        return 1;
    struct index x;
    if (codes_bytes < CODES * PLACE || counts_numbers < CODES + 1 || counts[0] > CODES || !rises(codes, counts[0], x.fronts))
        return refuse(NO_INDEX, 0, answer, 5);
    x.codes = codes;
    x.counts = counts;
    x.named = counts[0];
    struct form limits = form_of(form);
    struct separators s;
    uint8_t number = judge_head(limits, message, message_bytes, text_bytes, segments_numbers, leaves_numbers, &s);
    if (number)
        return refuse(number, 0, answer, 5);
    uint8_t class[256];
    struct survey seen;
    uint32_t starts[MOST_SEGMENTS];
    set_classes(class, s);
    struct verdict v = decide(limits, class, s.field, message, message_bytes, &seen, starts);
    if (v.number == 0)
        v = count_message(&x, &seen, starts, class, s.field, message, message_bytes, tally);
    if (v.number)
        return refuse(v.number, v.place, answer, 5);
    return put_table(class, s.field, &seen, message, message_bytes, text, segments, leaves, answer);
}
