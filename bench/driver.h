/*
 * What the driver's four files share: driver.c has messages, tables and leaf lookups, values.c has values, screening.c has the screening check,
 * indexing.c has reading with an index. Both implementations are called by number, 0 the library and 1 the baseline.
 */
#ifndef DRIVER_H
#define DRIVER_H

#include "../include/sargaceu.h"
#include "baseline.h"

#include <stdbool.h>
#include <stdio.h>
#include <stdlib.h>
#include <string.h>

/* The sizes of a form, in elements; `values` do for any order. */
struct form { size_t message, text, segments, leaves, output, values; };

enum { FORMS = 2 };
extern const struct form forms[FORMS];

/* Some room past each size, to see that longer buffers are used at their front alone. */
enum { TEXT_PAST = 64, SEGMENTS_PAST = 32, LEAVES_PAST = 56, OUTPUT_PAST = 64 };

/* Some bytes more than the large form has. */
enum { MESSAGE = SARGACEU_LARGE_MESSAGE + 65536 };

struct message {
    uint8_t bytes[MESSAGE];
    size_t length;
};

/* How much of each buffer counts, from its front on. */
struct reach { size_t text, segments, leaves; };

/*
 * A table of a form, its buffers as long as the form asks and some more. What counts is filled, copied and compared: in the small form all of
 * it, in the large one what the message at hand can fill, and some more.
 */
struct table {
    uint8_t form;
    uint8_t *text;
    uint32_t *segments, *leaves;
    size_t answer[SARGACEU_READ_ANSWER];
    struct reach reach;
};

/* The form's number that is said, and how much of each buffer is lent. */
struct lent {
    uint8_t form;
    size_t text, segments, leaves, answer, card, output;
};

/* ---- driver.c ---- */

/* The names of the two. */
extern const char *const names[2];

/* All of each buffer, by form. */
extern const struct lent whole[FORMS];

/* The table of the message that is repeated. */
extern struct table held;

/* Numbers that look random and are the same every time. */
size_t below(size_t limit);

/* Says where the two differ, leaves the message in a file where there is one, and ends the program. */
void show(const char *what, const struct message *m);

/* Puts a text behind a message. */
void add(struct message *m, const char *text);

/* Makes a table of a form: buffers that are there until the program ends. */
void make_table(struct table *t, uint8_t form);

/* How long the buffers of a form's tables are. */
struct reach all_of(uint8_t form);

/* Fills a table with a byte, as far as it counts. */
void soil_table(struct table *t, struct reach reach, int with);

/* Whether two tables are the same up to there. */
bool same_tables(const struct table *a, const struct table *b, struct reach reach);

/* Copies a table, as far as it counts, into one of the same form. */
void copy_table(struct table *to, const struct table *from);

/* Reads a message's file, and a message. */
void load(struct message *m, const char *path);
uint8_t read_by(int which, const struct message *m, struct table *t, struct lent lent);

/* The name of a message's file, without its folder. */
const char *name_in(const char *path);

double seconds(void);

/* Keeps the lesser time of one call. */
void keep_least(double *least, double began, size_t times);

/* ---- values.c ---- */

/* Compares values of many texts, and texts of many values. */
void compare_values(void);

/* Compares the values of the orders of a table, of all its rows or, in a long table, of some. */
void compare_orders(const struct table *t, struct lent lent, bool all, const struct message *m);

/* A message of orders with numeric results of all sorts. */
void invent_orders(struct message *m);

/* Says how much was compared. */
void report_values(void);

/* Repeats: the mode's name, who, what and how many times. Answers the program's exit status. */
int run_values(const char *mode, const char *who, const char *what, size_t times);

/* Repeats the test of the table that is held. */
void repeat_test(int which, size_t times);

/* Times of values, and of the orders of these messages. */
bool is_for_orders(const char *path);
void time_values(void);
void time_orders(const char *path);

/* ---- screening.c ---- */

/* Compares the verdicts on a table. */
void compare_screening(const struct table *t, struct lent lent, const struct message *m);

/* A screening report that keeps most rules. */
void invent_report(struct message *m);

/* Says how much was compared. */
void report_screening(void);

/* Repeats: the mode's name, who, which report and how many times. Answers the program's exit status. */
int run_screening(const char *mode, const char *who, const char *path, size_t times);

/* Times of these reports. */
bool is_for_screening(const char *path);
void time_screening(const char *path);

/* ---- indexing.c ---- */

/* The reader with an index; include/sargaceu.h says what it does. */
uint8_t sargaceu_read_indexed(uint8_t form,
                              const uint8_t *message, size_t message_bytes,
                              uint8_t *text, size_t text_bytes,
                              uint32_t *segments, size_t segments_numbers,
                              uint32_t *leaves, size_t leaves_numbers,
                              uint8_t *codes, size_t codes_bytes,
                              uint32_t *counts, size_t counts_numbers,
                              uint32_t *tally, size_t tally_numbers,
                              size_t *answer, size_t answer_numbers);

/* Compares readings with an index: of a message that was read to this number and this table without one. */
void compare_indexing(const struct message *m, const struct table *read, uint8_t number, struct lent lent);

/* A message whose results have codes of all sorts. */
void invent_codes(struct message *m);

/* Says how much was compared. */
void report_indexing(void);

/* Repeats: the mode's name, who, which message and how many times. Answers the program's exit status. */
bool is_indexing(const char *mode);
int run_indexing(const char *mode, const char *who, const char *path, size_t times);

/* Times of these messages. */
bool is_for_indexing(const char *path);
void time_indexing(const char *path);

#endif
