/* Walks the lines of a message of any length on standard input: place, length and beginning of each, to the end or a fault. */
#include <stdio.h>
#include <stdlib.h>
#include "sargaceu.h"

static uint8_t *message;
static size_t bytes;

static bool take_all(void)
{
    size_t room = 1 << 16;
    while ((message = realloc(message, room)) != NULL) {
        bytes += fread(message + bytes, 1, room - bytes, stdin);
        if (bytes < room)
            return !ferror(stdin);
        room *= 2;
    }
    return false;
}

int main(void)
{
    if (!take_all())
        return 2;
    size_t answer[SARGACEU_LINE_ANSWER];
    for (size_t at = 0;; at = answer[1]) {
        uint8_t number = sargaceu_line(message, bytes, at, answer, SARGACEU_LINE_ANSWER);
        if (number != SARGACEU_ACCEPTED) {
            printf("fault %d at %zu\n", number, answer[0]);
            return 1;
        }
        if (answer[1] == at) /* no line is empty, so staying is the end */
            break;
        size_t length = answer[0] - at;
        printf("%zu %zu %.*s\n", at, length, length < 20 ? (int)length : 20, (const char *)message + at);
    }
    printf("end\n");
    return 0;
}
