/*
 * The hostile caller: calls every function of include/sargaceu.h with damaged messages, tables, cards and lengths of both forms, in buffers with
 * unmapped pages right around them, and ends with status 1 at the first byte that is touched and should not be, or at the first answer that
 * another call or a plain loop contradicts.
 *
 *   hostile [SEED [CALLS]]
 *
 * Each trial draws the arguments of one call and makes it twice: with every buffer flush against the page after it, then against the page
 * before it. A function joins by an entry below and a trial of its own.
 */
#include "hostile.h"

#include <stdio.h>
#include <stdlib.h>

enum { SEED = 24, CALLS = 200000, NUMBERS = EMPTY + 1, LEAST_SHARE = 20, VERDICT_SHARE = 200 };

/* The verdicts of the screening check: no table, no ORU, and each rule that may be broken. */
static bool all_verdicts(const size_t *count, size_t least)
{
    bool all = count[SARGACEU_NO_TABLE] >= least;
    for (int number = SARGACEU_NOT_A_REPORT; number <= SARGACEU_WRONG_RESULT; number++)
        all = all && count[number] >= least;
    return all;
}

/* Of the archived tables that are refused, some for what they are and some for the buffers. */
static bool never_read_came(const size_t *count, size_t least)
{
    return count[SARGACEU_NEVER_READ] >= least && count[SARGACEU_SHORT_BUFFER] >= least;
}

/* Of reading with an index, the four refusals that it adds. */
static bool index_refusals_came(const size_t *count, size_t least)
{
    return count[SARGACEU_LONG_CODE] >= least && count[SARGACEU_FULL_INDEX] >= least && count[SARGACEU_FULL_COUNT] >= least &&
           count[SARGACEU_NO_INDEX] >= least;
}

/* Of questions to an index, what is none; and for a code, one that is not named. */
static bool no_index_came(const size_t *count, size_t least)
{
    return count[SARGACEU_NO_INDEX] >= least;
}

static bool not_named_came(const size_t *count, size_t least)
{
    return count[SARGACEU_NO_INDEX] >= least && count[NO] >= least;
}

static const struct {
    const char *function;
    int (*try_it)(void);
    bool may_be_empty;                                   /* what it finds */
    bool (*all_came)(const size_t *count, size_t least); /* whether the numbers came that each must come now and then; NULL where there are none */
} trials[] = {
    { "sargaceu_read", try_read, false, NULL },
    { "sargaceu_write", try_write, false, NULL },
    { "sargaceu_is_table", try_is_table, false, NULL },
    { "sargaceu_find_leaf", try_find_leaf, true, NULL },
    { "sargaceu_find_leaf_in_segment", try_find_leaf_in_segment, true, NULL },
    { "sargaceu_next_row", try_next_row, false, NULL },
    { "sargaceu_same_order", try_same_order, false, NULL },
    { "sargaceu_line", try_line, false, NULL },
    { "sargaceu_row_place", try_row_place, false, NULL },
    { "sargaceu_row_at", try_row_at, false, NULL },
    { "sargaceu_position", try_position, false, NULL },
    { "sargaceu_watch", try_watch, false, NULL },
    { "sargaceu_next_kinds", try_next_kinds, false, NULL },
    { "sargaceu_list", try_list, false, NULL },
    { "sargaceu_read_value", try_read_value, false, NULL },
    { "sargaceu_write_value", try_write_value, false, NULL },
    { "sargaceu_order_values", try_order_values, false, NULL },
    { "sargaceu_screen", try_screen, false, all_verdicts },
    { "sargaceu_widen", try_widen, false, never_read_came },
    { "sargaceu_read_indexed", try_read_indexed, false, index_refusals_came },
    { "sargaceu_index_sound", try_index_sound, false, NULL },
    { "sargaceu_index_codes", try_index_codes, false, no_index_came },
    { "sargaceu_index_count", try_index_count, false, not_named_came },
    { "sargaceu_index_code", try_index_code, false, not_named_came },
    { "sargaceu_version", try_version, false, NULL },
};

/*
 * One line: the calls, those with something of the large form among them, how many were accepted and refused, those that found something empty,
 * and the numbers of the refusals where they have one.
 */
static void show(const char *function, const size_t *count, size_t calls)
{
    size_t accepted = count[SARGACEU_ACCEPTED] + count[EMPTY];
    size_t large = large_forms_drawn() * SIDES;
    printf("%-29s %zu calls", function, calls);
    if (large > 0)
        printf(" (large: %zu)", large);
    printf(", %zu accepted", accepted);
    if (count[EMPTY] > 0)
        printf(" (empty: %zu)", count[EMPTY]);
    printf(", %zu refused", calls - accepted);
    const char *between = " (";
    for (int number = 1; number < NO; number++)
        if (count[number] > 0) {
            printf("%s%d: %zu", between, number, count[number]);
            between = ", ";
        }
    printf("%s\n", between[0] == ',' ? ")" : "");
    fflush(stdout);
}

/* Whether each answer came often, so that the calls say something about all of them. */
static bool run(size_t which, uint64_t seed, size_t calls)
{
    size_t count[NUMBERS] = { 0 }, least = calls / LEAST_SHARE;
    for (size_t trial = 0; trial < calls / SIDES; trial++) {
        begin_trial(trials[which].function, seed, trial);
        chance_begin(seed, which, trial);
        count[trials[which].try_it()] += SIDES;
    }
    show(trials[which].function, count, calls);
    if (trials[which].try_it == try_version) /* which takes nothing and refuses nothing */
        return true;
    return count[SARGACEU_ACCEPTED] >= least && calls - count[SARGACEU_ACCEPTED] - count[EMPTY] >= least &&
           (!trials[which].may_be_empty || count[EMPTY] >= least) &&
           (trials[which].all_came == NULL || trials[which].all_came(count, calls / VERDICT_SHARE));
}

int main(int arguments, char **argument)
{
    uint64_t seed = arguments > 1 ? strtoull(argument[1], NULL, 10) : SEED;
    size_t calls = (arguments > 2 ? strtoull(argument[2], NULL, 10) : CALLS) / SIDES * SIDES;
    bool all = true;
    printf("hostile: seed %llu, %zu calls of each function\n", (unsigned long long)seed, calls);
    stop_at_faults();
    prepare_buffers();
    for (size_t which = 0; which < sizeof trials / sizeof *trials; which++)
        all = run(which, seed, calls) && all;
    if (!all) {
        printf("hostile: a function was too seldom accepted or refused, too seldom found something empty, or gave some verdict too seldom\n");
        return 1;
    }
    printf("hostile: no byte touched that should not be, no answer contradicted\n");
    return 0;
}
