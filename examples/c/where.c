/*
 * Where things stand in a file: reads a message from standard input and prints the line of each row, as an editor counts lines. Of a refused
 * message it prints number and place, line and column of that place, and where a segment is to blame the kinds that may come there. The status is 0,
 * 1 for a refused message, 2 where the input could not be read.
 */
#include <stdio.h>
#include <string.h>
#include "sargaceu.h"

static uint8_t message[SARGACEU_LARGE_MESSAGE + 1], text[SARGACEU_LARGE_TEXT], joined[SARGACEU_LARGE_MESSAGE];
static uint32_t segments[SARGACEU_LARGE_SEGMENTS], leaves[SARGACEU_LARGE_LEAVES];
static size_t bytes, answer[SARGACEU_READ_ANSWER];

static const char *const kinds[] = { "", "H", "P", "AP", "AC", "OBR", "OBX", "FAC", "REG", "ACT", "ERR", "L", "C" };
static const char *const contexts[] = { "", "ADM", "ORM", "ORA", "REG", "ERR", "ORU", "FAC" };

/* The line of each row, counted on from row to row: each byte is looked at a few times, however many rows there are. */
static void show_rows(void)
{
    size_t at = 0, line = 1, lines, next[SARGACEU_ROW_ANSWER], column[SARGACEU_POSITION_ANSWER];
    for (size_t row = 1; (lines = sargaceu_row_at(message, bytes, at, next, SARGACEU_ROW_ANSWER)) > 0; row++, at = next[0]) {
        printf("row %zu: line %zu", row, line);
        if (lines > 1)
            printf(", in %zu lines", lines);
        printf("\n");
        line += sargaceu_position(message + at, next[0] - at, next[0] - at, column, SARGACEU_POSITION_ANSWER) - 1; /* the row's own line ends */
    }
}

static void show_position(size_t offset)
{
    size_t column[SARGACEU_POSITION_ANSWER], line = sargaceu_position(message, bytes, offset, column, SARGACEU_POSITION_ANSWER);
    printf("line %zu, column %zu\n", line, column[0]);
}

/* Joins the lines of a row; an addendum goes on behind its A and the field separator. Its bytes come back. */
static size_t join(size_t at, size_t lines)
{
    size_t length = 0, line[SARGACEU_LINE_ANSWER];
    for (size_t k = 0; k < lines; k++, at = line[1]) {
        sargaceu_line(message, bytes, at, line, SARGACEU_LINE_ANSWER);
        size_t from = k == 0 ? at : at + 2;
        memcpy(joined + length, message + from, line[0] - from);
        length += line[0] - from;
    }
    return length;
}

/* Which of some names stands in a field of the joined row: 0 where it is none of them, or the field is not there. */
static uint8_t named(const char *const *names, uint8_t count, size_t length, int field)
{
    const uint8_t *from = joined, *end = joined + length, *to;
    for (; field > 1; field--, from++)
        if ((from = memchr(from, message[1], (size_t)(end - from))) == NULL)
            return 0;
    if ((to = memchr(from, message[1], (size_t)(end - from))) == NULL)
        to = end;
    for (uint8_t k = 1; k < count; k++)
        if (strlen(names[k]) == (size_t)(to - from) && memcmp(names[k], from, (size_t)(to - from)) == 0)
            return k;
    return 0;
}

/* The kinds that may come in a row: a watcher is told those of the rows before it. A header that names no context allows no order. */
static void show_next(size_t row)
{
    uint8_t watcher[SARGACEU_WATCHER] = { 0, 0 }, may_come[SARGACEU_NEXT_KINDS];
    size_t at = 0, next[SARGACEU_ROW_ANSWER];
    for (size_t before = 1; before < row; before++, at = next[0]) {
        size_t length = join(at, sargaceu_row_at(message, bytes, at, next, SARGACEU_ROW_ANSWER));
        if (before == 1 && (watcher[0] = named(contexts, 8, length, 7)) == 0)
            return;
        sargaceu_watch(watcher, SARGACEU_WATCHER, named(kinds, SARGACEU_NEXT_KINDS, length, 1));
    }
    sargaceu_next_kinds(watcher[0], watcher[1], may_come, SARGACEU_NEXT_KINDS);
    printf("may come:");
    for (int kind = 1; kind < SARGACEU_NEXT_KINDS; kind++)
        if (may_come[kind] == 1)
            printf(" %s", kinds[kind]);
    printf(watcher[1] == SARGACEU_L ? " nothing\n" : "\n");
}

static void show_refusal(uint8_t number, size_t place)
{
    size_t start[SARGACEU_ROW_ANSWER];
    printf("refused: %d at %zu\n", number, place);
    switch (number) {
    case SARGACEU_CONTROL_BYTE: case SARGACEU_LONG_LINE: case SARGACEU_OPEN_LINE:
        show_position(place);
        break;
    case SARGACEU_UNKNOWN_KIND: case SARGACEU_MISPLACED:
        printf("row %zu: ", place);
        if (sargaceu_row_place(message, bytes, place, start, SARGACEU_ROW_ANSWER) > 0)
            show_position(start[0]);
        else /* one past the last row: the L is missing */
            show_position(bytes);
        show_next(place);
        break;
    }
}

int main(void)
{
    bytes = fread(message, 1, sizeof message, stdin); /* one byte over the limit: a longer file is refused, not cut */
    if (ferror(stdin))
        return 2;
    uint8_t number = sargaceu_read(SARGACEU_LARGE, message, bytes, text, SARGACEU_LARGE_TEXT, segments, SARGACEU_LARGE_SEGMENTS,
                                   leaves, SARGACEU_LARGE_LEAVES, answer, SARGACEU_READ_ANSWER);
    if (number != SARGACEU_ACCEPTED) {
        show_refusal(number, answer[0]);
        return 1;
    }
    show_rows();
    return 0;
}
