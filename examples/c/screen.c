/*
 * A check before sending: reads a message from standard input and says whether it meets the rules for screening reports, else the first rule that
 * it does not meet, with the row and its kind. The status is 0 for yes, 1 for no and for a refused message, 2 where the input could not be read.
 */
#include <stdio.h>
#include "sargaceu.h"

static uint8_t message[SARGACEU_SMALL_MESSAGE + 1], text[SARGACEU_SMALL_TEXT];
static uint32_t segments[SARGACEU_SMALL_SEGMENTS], leaves[SARGACEU_SMALL_LEAVES];
static size_t answer[SARGACEU_READ_ANSWER], *const card = answer + 1;

/* The kinds of the rows that a verdict names. */
static const char *const kinds[] = { [SARGACEU_H] = "H", [SARGACEU_P] = "P", [SARGACEU_OBR] = "OBR", [SARGACEU_OBX] = "OBX" };

static const char *const phrases[] = {
    [SARGACEU_NOT_A_REPORT] = "the message is no ORU",
    [SARGACEU_NO_NAME] = "a patient has no name in use (8.6.1)",
    [SARGACEU_NO_FIRST_NAME] = "a patient has no first name (8.6.2)",
    [SARGACEU_NO_BIRTH_NAME] = "a patient has no birth name (8.7)",
    [SARGACEU_NO_TELEPHONE] = "a patient has no telephone (8.13)",
    [SARGACEU_NO_POSTAL_CODE] = "a patient has no postal code (8.11.5)",
    [SARGACEU_NO_ORDER_NUMBER] = "an order has no number in the laboratory (9.4.2)",
    [SARGACEU_NO_SAMPLE_TIME] = "an order has no time of sampling (9.8)",
    [SARGACEU_NO_LABORATORY] = "the header does not name the laboratory (7.5.1)",
    [SARGACEU_NOT_ONE_PAYS] = "a patient has no PAYS, or several",
    [SARGACEU_NOT_ONE_TYPOR] = "a patient has no TYPOR, or several",
    [SARGACEU_NOT_ONE_PROSS] = "a patient has no PROSS, or several",
    [SARGACEU_NOT_ONE_FINGE] = "a patient has no FINGE, or several",
    [SARGACEU_WRONG_TYPOR] = "a TYPOR has none of the values I, H, E, C, A, U",
    [SARGACEU_WRONG_PROSS] = "a PROSS has none of the values O, N, U",
    [SARGACEU_WRONG_RESULT] = "a coded result with a LOINC code (LN) has none of the values P, N, I, X"
};

/* The place is 0 where no row is to blame. */
static void say_no(uint8_t number, size_t place)
{
    printf("no: ");
    if (place != 0)
        printf("row %zu, %s: ", place, kinds[segments[(place - 1) * SARGACEU_SEGMENT_ROW]]);
    printf("%s (%d)\n", phrases[number], number);
}

int main(void)
{
    size_t bytes = fread(message, 1, sizeof message, stdin), place[SARGACEU_SCREEN_ANSWER];
    if (ferror(stdin))
        return 2;
    uint8_t number = sargaceu_read(SARGACEU_SMALL, message, bytes, text, SARGACEU_SMALL_TEXT, segments, SARGACEU_SMALL_SEGMENTS,
                                   leaves, SARGACEU_SMALL_LEAVES, answer, SARGACEU_READ_ANSWER);
    if (number != SARGACEU_ACCEPTED) {
        printf("refused: %d at %zu\n", number, answer[0]);
        return 1;
    }
    number = sargaceu_screen(SARGACEU_SMALL, card, SARGACEU_CARD, segments, SARGACEU_SMALL_SEGMENTS, leaves, SARGACEU_SMALL_LEAVES,
                             text, SARGACEU_SMALL_TEXT, place, SARGACEU_SCREEN_ANSWER);
    if (number != SARGACEU_ACCEPTED) { /* 30 to 45, since what was read is a table */
        say_no(number, place[0]);
        return 1;
    }
    printf("yes: all rules are met\n");
    return 0;
}
