/*
 * The planner's day: takes the messages that its arguments name, each in a file, reads them one after another with one index, and shows how often
 * each analysis (10.4.1) was asked for. An index that is kept from one day to the next is stored where this one is shown.
 */
#include <stdio.h>
#include "sargaceu.h"

static uint8_t message[SARGACEU_SMALL_MESSAGE + 1], text[SARGACEU_SMALL_TEXT];
static uint32_t segments[SARGACEU_SMALL_SEGMENTS], leaves[SARGACEU_SMALL_LEAVES];

/* Zeros begin an index and a tally. */
static uint8_t codes[SARGACEU_INDEX_CODES_BYTES];
static uint32_t counts[SARGACEU_INDEX_COUNTS], tally[SARGACEU_TALLY];

/* Reads one message and counts it. A message that is refused changes nothing, so it can be mended and read again. */
static bool count_message(const char *name)
{
    size_t answer[SARGACEU_READ_ANSWER], bytes = 0;
    FILE *file = fopen(name, "rb");
    if (file == NULL)
        return false;
    bytes = fread(message, 1, sizeof message, file);
    bool whole = !ferror(file);
    fclose(file);
    if (!whole)
        return false;
    uint8_t number = sargaceu_read_indexed(SARGACEU_SMALL, message, bytes, text, SARGACEU_SMALL_TEXT, segments, SARGACEU_SMALL_SEGMENTS,
                                           leaves, SARGACEU_SMALL_LEAVES, codes, SARGACEU_INDEX_CODES_BYTES, counts, SARGACEU_INDEX_COUNTS,
                                           tally, SARGACEU_TALLY, answer, SARGACEU_READ_ANSWER);
    if (number != SARGACEU_ACCEPTED)
        printf("%s refused: %d at %zu\n", name, number, answer[0]);
    return true;
}

/* The codes in byte order, each with its count. */
static void show_codes(void)
{
    size_t named[SARGACEU_CODES_ANSWER] = { 0 }, code[SARGACEU_CODE_ANSWER];
    sargaceu_index_codes(codes, SARGACEU_INDEX_CODES_BYTES, counts, SARGACEU_INDEX_COUNTS, named, SARGACEU_CODES_ANSWER);
    for (size_t k = 1; k <= named[0]; k++)
        if (sargaceu_index_code(codes, SARGACEU_INDEX_CODES_BYTES, counts, SARGACEU_INDEX_COUNTS, k, code, SARGACEU_CODE_ANSWER) == SARGACEU_NAMED)
            printf("%6zu %.*s\n", code[2], (int)code[1], (const char *)codes + code[0]);
}

int main(int arguments, char **argument)
{
    for (int i = 1; i < arguments; i++)
        if (!count_message(argument[i])) {
            fprintf(stderr, "%s cannot be read\n", argument[i]);
            return 2;
        }
    show_codes();
    printf("%u messages, %u segments, %u results\n", (unsigned)tally[0], (unsigned)tally[1], (unsigned)tally[2]);
    return 0;
}
