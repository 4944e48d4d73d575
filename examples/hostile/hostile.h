/* What the parts of the hostile caller share; hostile.c says what it does. */
#ifndef HOSTILE_INCLUDED
#define HOSTILE_INCLUDED

#include "sargaceu.h"

/* ---- chance.c: numbers that a seed determines ---- */

void chance_begin(uint64_t seed, uint64_t function, uint64_t trial);
uint64_t chance(void);
size_t below(size_t bound); /* 0 to bound - 1, and 0 for the bound 0 */
bool one_in(size_t n);
size_t wild(void);                         /* a number at some limit, or any other */
size_t short_of(size_t least);             /* a size under the least one */
size_t enough(size_t least, size_t most);  /* a size from the least one on, mostly the least */
const void *former(size_t bytes);          /* what a buffer held before a call: any bytes, aligned for every element */

/* ---- forms.c: the two forms of a message ---- */

struct sizes {
    size_t message, text, segments, leaves, output, values; /* as the header states them */
    size_t segment_rows, leaf_rows;                         /* the most that a table has */
};

uint8_t draw_form(void);                    /* mostly the small form, by a number that may be any but that of the large one */
uint8_t draw_form_of_two(void);             /* one of the two, the large one seldom */
size_t large_forms_drawn(void);             /* since it was asked last */
const struct sizes *sizes_of(uint8_t form); /* of the form that a number is taken as */

/* ---- stop.c: which call is under way, and how the program ends where it went wrong ---- */

enum { SIDES = 2 };

void stop_at_faults(void);
void begin_trial(const char *function, uint64_t seed, size_t trial);
void begin_side(int side);
bool flush_with_page_after(void);
bool look_at_all_around(void);
_Noreturn void fail(const char *format, ...) __attribute__((format(printf, 1, 2)));

/* ---- lend.c: buffers with unmapped pages right before and after them ---- */

enum buffer {
    MESSAGE, TEXT, SEGMENTS, LEAVES, CARD, ANSWER, OUTPUT, LISTING, WATCHER,
    OTHER_TEXT, OTHER_SEGMENTS, OTHER_LEAVES, OTHER_CARD,
    VALUE_NUMBERS, VALUE_WHOLES, VALUE_DECIMALS, ARCHIVED_SEGMENTS, ARCHIVED_LEAVES,
    INDEX_CODES, INDEX_COUNTS, TALLY, CODE, KINDS, BUFFERS
};

void prepare_buffers(void);
const void *lend(enum buffer which, const void *content, size_t count); /* pages that can only be read */
void *lend_to_write(enum buffer which, const void *content, size_t count);
void expect_kept(enum buffer which);                                          /* all is as it was lent */
void expect_front(enum buffer which, const void *front, size_t count);        /* the front is this, the rest as it was lent */
void describe_address(const void *address, char *to, size_t room);

/* ---- messages.c ---- */

enum { MESSAGE_MOST = SARGACEU_LARGE_MESSAGE + 24000 };

struct message {
    uint8_t bytes[MESSAGE_MOST];
    size_t length;
};

void draw_sound_message(struct message *m, uint8_t form); /* of the form, but for the limits, which it may pass */
void draw_message(struct message *m, uint8_t form);       /* sound, damaged, or any bytes */
size_t draw_offset(const struct message *m);              /* where a line begins, or any byte, or past the end */
void begin_message(struct message *m);                    /* one of no bytes yet, whose separators are drawn */
void put_segment(const char *usual); /* goes on with it: written with the usual separators, which become the drawn ones */

/* ---- reports.c ---- */

void draw_report(struct message *m, uint8_t form); /* an ORU that meets the rules for screening, or breaks some of them */

/* ---- indexes.c ---- */

enum { INDEX_CODES_SLACK = 64, INDEX_COUNTS_SLACK = 16, CODE_DRAWN_MOST = 40 };

struct index {
    uint8_t codes[SARGACEU_INDEX_CODES_BYTES + INDEX_CODES_SLACK];
    size_t codes_bytes;
    uint32_t counts[SARGACEU_INDEX_COUNTS + INDEX_COUNTS_SLACK];
    size_t counts_numbers;
};

void draw_index(struct index *i);                                        /* a sound one mostly; what lies past the named codes is anything */
size_t draw_code(const struct index *i, uint8_t code[CODE_DRAWN_MOST]);  /* to be sought in it, and how many bytes it has */
void draw_counted_report(struct message *m);                             /* an ORU whose results carry codes that drawn indexes name, and others */
bool plain_is_roomy(const struct index *i);
bool plain_is_index(const struct index *i);
uint8_t plain_count(const struct index *i, const uint8_t *code, size_t bytes, size_t *count);
uint8_t plain_code(const struct index *i, size_t k, size_t answer[SARGACEU_CODE_ANSWER]);

/* ---- numerals.c ---- */

enum { NUMERAL_MOST = 64 };

size_t draw_numeral(uint8_t *to); /* the text of a number mostly, and how many bytes it has: NUMERAL_MOST at most */
int64_t draw_whole(void);         /* a whole number at some limit, or any other */

/* ---- tables.c ---- */

enum {
    TEXT_SLACK = 64, SEGMENTS_SLACK = 32, LEAVES_SLACK = 56, /* how much longer than its least size a buffer may be */
    TEXT_MOST = SARGACEU_LARGE_TEXT + TEXT_SLACK,
    SEGMENTS_MOST = SARGACEU_LARGE_SEGMENTS + SEGMENTS_SLACK,
    LEAVES_MOST = SARGACEU_LARGE_LEAVES + LEAVES_SLACK,
    CARD_MOST = 8
};

struct table {
    uint8_t form; /* by which it is judged */
    size_t card[CARD_MOST], card_numbers;
    uint32_t segments[SEGMENTS_MOST];
    size_t segments_numbers;
    uint32_t leaves[LEAVES_MOST];
    size_t leaves_numbers;
    uint8_t text[TEXT_MOST];
    size_t text_bytes;
};

enum { CARD_SEPARATOR, CARD_CONTEXT, CARD_SEGMENTS, CARD_LEAVES, CARD_TEXT };

/* The buffers that a table is put into: how long each is, and what it holds. */
struct room {
    size_t text, segments, leaves;
    const void *text_was, *segments_was, *leaves_was;
};

struct room draw_room(uint8_t form); /* enough for the form mostly */
bool is_short(struct room room, uint8_t form);

bool draw_table(struct table *t, uint8_t form);        /* what the reader made of some message, or that damaged; whether it is undamaged */
bool draw_report_table(struct table *t, uint8_t form); /* the same of a screening report */
void copy_table(struct table *to, const struct table *from);
uint8_t read_table(uint8_t form, const uint8_t *message, size_t bytes, struct table *t, size_t *place); /* in buffers of ordinary memory */
uint8_t write_table(const struct table *t, uint8_t *output, size_t *answer); /* the same, with output enough */
bool is_table(const struct table *t);                                        /* by its form, as the library says */
void expect_same_table(const struct table *a, const struct table *b, const char *what);
void expect_owners(const struct table *t); /* each row has the owner that plain_owner finds */
size_t segments_there(const struct table *t); /* segment rows that are counted and lie in the buffer */
size_t leaves_there(const struct table *t);
uint32_t draw_order(const struct table *t);   /* the row of an order mostly */

/* ---- plain.c: the same answers by plain loops ---- */

struct outcome {
    uint8_t number;
    size_t place;
};

extern const char *const kind_names[13];
extern const char *const context_names[8];

unsigned followers(uint8_t context, uint8_t last); /* bit k: kind k may come next, C aside */
bool may_follow(uint8_t context, uint8_t last, uint8_t kind);
size_t plain_owner(const struct table *t, size_t row);        /* by context and kinds alone, of a table that was read or written */
size_t plain_former_owner(const struct table *t, size_t row); /* the owner that a row had by the former levels */
uint8_t plain_line(const uint8_t *message, size_t bytes, size_t at, size_t answer[2]);
size_t plain_row_place(const uint8_t *message, size_t bytes, size_t row, size_t *start); /* the lines of the row with a number */
size_t plain_row_at(const uint8_t *message, size_t bytes, size_t at, size_t *next);      /* those of the row at a place */
size_t plain_rows(const uint8_t *message, size_t bytes);                                 /* how many rows there are */
size_t plain_position(const uint8_t *message, size_t bytes, size_t offset, size_t *column);
void plain_next_kinds(uint8_t context, uint8_t kind, uint8_t kinds[SARGACEU_NEXT_KINDS]);
struct outcome plain_outcome(uint8_t form, const uint8_t *message, size_t bytes); /* what the reader answers where the buffers are enough */
size_t plain_kinds(uint8_t *kinds, size_t room, uint8_t *context); /* of the message that plain_outcome saw last */
const uint8_t *plain_joined(size_t *bytes);                        /* its joined segments, a CR behind each */
size_t plain_code_carried(size_t row, const uint8_t **code);       /* the bytes of its leaf 10.4.1 in a row, 0 where that is no OBX */
uint8_t plain_find_leaf(const struct table *t, const uint32_t place[5], size_t answer[2]);
uint8_t plain_find_leaf_in_segment(const struct table *t, const uint32_t place[5], size_t answer[2]);
size_t plain_next_row(const struct table *t, size_t after, uint32_t kind, uint32_t owner);
bool plain_same_order(const struct table *a, uint32_t row, const struct table *b, uint32_t other_row);

struct value {
    uint8_t number; /* 0, 20 or 21 */
    int64_t whole;
    uint8_t decimals;
};

struct value plain_read_value(const uint8_t *text, size_t bytes);
size_t plain_write_value(int64_t whole, size_t decimals, uint8_t text[SARGACEU_VALUE_TEXT]); /* 0 where no text reads to it */
bool plain_is_order(const struct table *t, uint32_t row);
size_t plain_order_values(const struct table *t, uint32_t order, struct value values[SARGACEU_LARGE_VALUES]); /* of an order in a table */
struct outcome plain_screen(const struct table *t);                                                           /* of a table */

/* indexes.c again: the message that plain_outcome saw last, of so many rows, added to an index and a tally, or what it is refused with. */
struct outcome plain_add_message(struct index *i, uint32_t tally[SARGACEU_TALLY], size_t rows);

/* ---- the trials: each draws arguments, makes the call on both sides, and answers 0 where it was accepted ---- */

enum {
    NO = SARGACEU_NO_INDEX + 1, /* a plain no, which has no number */
    EMPTY                       /* accepted, and what was found is empty */
};

int try_read(void);
int try_list(void);
int try_line(void);
int try_row_place(void);
int try_row_at(void);
int try_position(void);
int try_watch(void);
int try_next_kinds(void);
int try_write(void);
int try_is_table(void);
int try_find_leaf(void);
int try_find_leaf_in_segment(void);
int try_next_row(void);
int try_same_order(void);
int try_read_value(void);
int try_write_value(void);
int try_order_values(void);
int try_screen(void);
int try_widen(void);
int try_read_indexed(void);
int try_index_sound(void);
int try_index_codes(void);
int try_index_count(void);
int try_index_code(void);
int try_version(void);

#endif
