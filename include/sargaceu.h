/*
 * Sargaceu: the reader, the writer, the lookups, the numeric results and the screening check of laboratory messages in H.PR.I.M. Santé 2.4,
 * the widening of archived tables, and the index by analysis code.
 *
 * Every function takes any bytes, any numbers and any lengths, and returns. None allocates, none keeps anything between two calls,
 * and none touches memory but the buffers of that call, so calls may run at the same time where none writes to a buffer that another uses.
 *
 * A buffer goes in as a pointer and a count of its elements. Four things no function can test, and every caller owes them: the pointer is
 * not null, not even where the count is 0; as many elements as the count says are there; the pointer is aligned as its type asks (uint32_t
 * to 4 bytes, size_t and int64_t to 8, the uint16_t of sargaceu_widen to 2); and a buffer that is written overlaps no other buffer of the call.
 *
 * A message has one of two forms, the small one or the large one, which differ in how much a message may have and a buffer must hold, and in
 * nothing else (T6, T8). `form` says by which of them a call judges: SARGACEU_SMALL or SARGACEU_LARGE, and any other number is taken as the
 * small form. A table does not know its form: it is judged by the one that goes in. What the small form accepts the large one accepts as
 * well, with the same answer and the same table; a table over the limits of the small form is none there. Functions without the parameter do
 * the same for both, but for sargaceu_list and sargaceu_widen, which are of the small form.
 *
 * A card is five numbers: field separator, context, counts of segments, leaves and text bytes. What `sargaceu_read` answers from
 * answer[1] on is one. Of more numbers the first five count; fewer than five, or a separator or context over 255, are taken as the card
 * that is all zero, which counts nothing.
 *
 * `answer` is where the numbers go that do not fit the return value: of size_t, and for sargaceu_read_value alone of int64_t, which has a
 * sign. A refusal is answered there, too: reader and writer put its place into answer[0], and zeros for the card or the counts behind it,
 * while every other buffer stays as it was. So do sargaceu_read_indexed, sargaceu_order_values and sargaceu_widen. The answer of sargaceu_screen
 * is the place alone.
 * The refusal of a single value has no place, and answer gets zeros. An answer that is shorter than stated gets no number at all: it stays as
 * it was, and the call has no place then.
 *
 * Elements of a buffer past those that a call fills stay as they were.
 *
 * Rows of a table go in as uint32_t, and sargaceu_next_row gives size_t. C cuts a larger number and says nothing: 4294967299 would go in as 3. No
 * row of a table is over 4096, so one that sargaceu_next_row gave goes in as it is. A row of a message goes into sargaceu_row_place as size_t.
 *
 * L1, N3, W4, E1, V3, D2, R1, B2, X1 and the like are rules of docs/RULES.md.
 */
#ifndef SARGACEU_INCLUDED
#define SARGACEU_INCLUDED

#include <stdbool.h>
#include <stddef.h>
#include <stdint.h>

#ifdef __cplusplus
extern "C" {
#endif

/*
 * The version of this header: it rises where a function's parameters, a size or the meaning of a number changes. The archive says its own
 * (sargaceu_version), so that a program can tell where it was built with the header of another one.
 */
enum { SARGACEU_VERSION = 3 };

/*
 * The two forms: up to 16384 bytes, 256 segments and 2048 leaves in a message (T6), for hosts with little memory; up to 1048576, 4096 and
 * 65536 (T8), for reports of a megabyte.
 */
enum sargaceu_form { SARGACEU_SMALL = 0, SARGACEU_LARGE = 1 };

/* The most bytes that an accepted message of a form has. A message of any length may be read: a longer one is refused with 2. */
enum { SARGACEU_SMALL_MESSAGE = 16384, SARGACEU_LARGE_MESSAGE = 1048576 };

/* The numbers of one segment row and of one leaf row. */
enum { SARGACEU_SEGMENT_ROW = 4, SARGACEU_LEAF_ROW = 7 };

/* The least sizes of lent buffers, in elements (bytes or numbers); longer ones are used at their front. In the small form: */
enum {
    SARGACEU_SMALL_TEXT = 16384,
    SARGACEU_SMALL_SEGMENTS = 1024,
    SARGACEU_SMALL_LEAVES = 14336,
    SARGACEU_SMALL_OUTPUT = 16384
};

/* In the large form: */
enum {
    SARGACEU_LARGE_TEXT = 1048576,
    SARGACEU_LARGE_SEGMENTS = 16384,
    SARGACEU_LARGE_LEAVES = 458752,
    SARGACEU_LARGE_OUTPUT = 1048576
};

/* In both: */
enum {
    SARGACEU_LISTING = 8448,
    SARGACEU_CARD = 5,
    SARGACEU_READ_ANSWER = 6,   /* of sargaceu_read_indexed and sargaceu_widen, too */
    SARGACEU_WRITE_ANSWER = 3,
    SARGACEU_LEAF_ANSWER = 2,
    SARGACEU_LINE_ANSWER = 2,
    SARGACEU_ROW_ANSWER = 1,    /* of sargaceu_row_place and sargaceu_row_at */
    SARGACEU_POSITION_ANSWER = 1,
    SARGACEU_WATCHER = 2,
    SARGACEU_NEXT_KINDS = 13,   /* a byte for each number from 0 to the last kind */
    SARGACEU_VALUE_TEXT = 17,   /* the output of sargaceu_write_value */
    SARGACEU_VALUE_ANSWER = 2,  /* of sargaceu_read_value, in int64_t */
    SARGACEU_TEXT_ANSWER = 1,   /* of sargaceu_write_value */
    SARGACEU_ORDER_ANSWER = 2,  /* of sargaceu_order_values */
    SARGACEU_SCREEN_ANSWER = 1, /* of sargaceu_screen */
    SARGACEU_TALLY = 3,         /* messages, segments, results */
    SARGACEU_CODES_ANSWER = 1,  /* of sargaceu_index_codes */
    SARGACEU_COUNT_ANSWER = 1,  /* of sargaceu_index_count */
    SARGACEU_CODE_ANSWER = 3    /* of sargaceu_index_code */
};

/*
 * The index by analysis code (X1): up to so many codes, of 1 to so many bytes each. A place is the code's length in its first byte, and room for the
 * longest code behind it. The two buffers of an index have at least so many bytes and numbers: 512 places; how many codes are named, and a count for
 * each place.
 */
enum {
    SARGACEU_INDEX_CODES_MOST = 512,
    SARGACEU_INDEX_CODE_MOST = 22,
    SARGACEU_INDEX_PLACE = 23,
    SARGACEU_INDEX_CODES_BYTES = 11776,
    SARGACEU_INDEX_COUNTS = 513
};

/*
 * The elements that always do for the values of an order of a form: three buffers of as many are never refused with 25. Fewer may do as well,
 * and as many as the card counts segments always do.
 */
enum { SARGACEU_SMALL_VALUES = 256, SARGACEU_LARGE_VALUES = 4096 };

/*
 * The numbers that come back, each with its place (N1). Those from 20 to 25 are of numeric results (D3, D5, D6). Those from 30 to 45 are of the
 * screening check (R5): what is missing is not there or empty, and a place is the first row of which the rule does not hold. 46 is of the
 * widening of archived tables (B2). Those from 50 to 53 are of the index (X3).
 */
enum sargaceu_number {
    SARGACEU_ACCEPTED = 0,
    SARGACEU_SHORT_BUFFER = 1,     /* place 0, and no place at all where the answer itself or a tally is short */
    SARGACEU_LONG_MESSAGE = 2,     /* place 0 */
    SARGACEU_BROKEN_HEADER = 3,    /* place 0 */
    SARGACEU_CONTROL_BYTE = 4,     /* the byte's offset, from 0 */
    SARGACEU_LONG_LINE = 5,        /* the offset of the line's 220th byte */
    SARGACEU_OPEN_LINE = 6,        /* the message's length */
    SARGACEU_MANY_SEGMENTS = 7,    /* place 0 */
    SARGACEU_UNKNOWN_KIND = 8,     /* the first such segment, from 1 */
    SARGACEU_NO_CONTEXT = 9,       /* place 0 */
    SARGACEU_MISPLACED = 10,       /* the first such segment, or segments + 1 where the L is missing */
    SARGACEU_MANY_LEAVES = 11,     /* place 0 */
    SARGACEU_SHORT_OUTPUT = 12,    /* place 0 */
    SARGACEU_NO_TABLE = 13,        /* place 0 */
    SARGACEU_NOT_A_NUMBER = 20,    /* no place */
    SARGACEU_MANY_DIGITS = 21,     /* no place */
    SARGACEU_OUT_OF_RANGE = 22,    /* no place */
    SARGACEU_NARROW_OUTPUT = 23,   /* no place */
    SARGACEU_NOT_AN_ORDER = 24,    /* place 0 */
    SARGACEU_LITTLE_ROOM = 25,     /* place 0 */
    SARGACEU_NOT_A_REPORT = 30,    /* no ORU; place 0 */
    SARGACEU_NO_NAME = 31,         /* 8.6.1; the P */
    SARGACEU_NO_FIRST_NAME = 32,   /* 8.6.2; the P */
    SARGACEU_NO_BIRTH_NAME = 33,   /* 8.7; the P */
    SARGACEU_NO_TELEPHONE = 34,    /* 8.13; the P */
    SARGACEU_NO_POSTAL_CODE = 35,  /* 8.11.5; the P */
    SARGACEU_NO_ORDER_NUMBER = 36, /* 9.4.2; the OBR */
    SARGACEU_NO_SAMPLE_TIME = 37,  /* 9.8; the OBR */
    SARGACEU_NO_LABORATORY = 38,   /* 7.5.1; the H, which is row 1 */
    SARGACEU_NOT_ONE_PAYS = 39,    /* none of the patient's OBX has this code in 10.4.1, or several have; the P */
    SARGACEU_NOT_ONE_TYPOR = 40,   /* the same */
    SARGACEU_NOT_ONE_PROSS = 41,   /* the same */
    SARGACEU_NOT_ONE_FINGE = 42,   /* the same */
    SARGACEU_WRONG_TYPOR = 43,     /* its 10.6.1 is none of I, H, E, C, A, U; the OBX */
    SARGACEU_WRONG_PROSS = 44,     /* its 10.6.1 is none of O, N, U; the OBX */
    SARGACEU_WRONG_RESULT = 45,    /* coded (CE) and named by LN: its 10.6.1 is none of P, N, I, X; the OBX */
    SARGACEU_NEVER_READ = 46,      /* no reader gave the archived table; place 0 */
    SARGACEU_LONG_CODE = 50,       /* a code of over 22 bytes; the first such OBX */
    SARGACEU_FULL_INDEX = 51,      /* a new code, and all 512 places are taken; place 0 */
    SARGACEU_FULL_COUNT = 52,      /* a count or the tally would pass 4294967295; place 0 */
    SARGACEU_NO_INDEX = 53         /* what is lent is no index; place 0 */
};

/* A segment row's first number (S1). */
enum sargaceu_kind {
    SARGACEU_H = 1, SARGACEU_P = 2, SARGACEU_AP = 3, SARGACEU_AC = 4, SARGACEU_OBR = 5, SARGACEU_OBX = 6,
    SARGACEU_FAC = 7, SARGACEU_REG = 8, SARGACEU_ACT = 9, SARGACEU_ERR = 10, SARGACEU_L = 11, SARGACEU_C = 12
};

/* A card's second number (C1). */
enum sargaceu_context {
    SARGACEU_CONTEXT_ADM = 1, SARGACEU_CONTEXT_ORM = 2, SARGACEU_CONTEXT_ORA = 3, SARGACEU_CONTEXT_REG = 4,
    SARGACEU_CONTEXT_ERR = 5, SARGACEU_CONTEXT_ORU = 6, SARGACEU_CONTEXT_FAC = 7
};

/*
 * What a lookup of a leaf answers (F1): a field that was sent empty is not one that was never sent. In a switch, cast the answer to this type:
 * then the compiler warns of a case that is left out.
 */
enum sargaceu_sought {
    SARGACEU_NOT_THERE = 0,
    SARGACEU_FOUND = 1,       /* with a text of one byte or more */
    SARGACEU_FOUND_EMPTY = 2  /* there, with no text */
};

/*
 * What the planner's questions answer where an index is lent (X4); where none is, they answer SARGACEU_NO_INDEX.
 */
enum sargaceu_asked {
    SARGACEU_NOT_NAMED = 0, /* the index names no such code */
    SARGACEU_NAMED = 1
};

/*
 * Reads a message of a form into the text area, the segment rows and the leaf rows (T1 to T5). Returns the number; answer gets the place and
 * the card: place, field separator, context, segments, leaves, text bytes. A refusal changes none of the three buffers; answer gets its place
 * and five zeros (N3). Buffers under the form's sizes are refused with 1. So is an answer of under six numbers, before anything else is
 * looked at; it stays as it was.
 */
uint8_t sargaceu_read(uint8_t form,
                      const uint8_t *message, size_t message_bytes,
                      uint8_t *text, size_t text_bytes,
                      uint32_t *segments, size_t segments_numbers,
                      uint32_t *leaves, size_t leaves_numbers,
                      size_t *answer, size_t answer_numbers);

/*
 * Writes the message of a table of a form at the front of the output (W1). Returns the number; answer gets place, bytes and lines. Returns 12
 * where the output is under the form's size, for a short message too; else 13 where the table is none of the form. A refusal changes no output
 * byte; answer gets three zeros. An answer of under three numbers is refused with 1 before table and output are looked at; it stays as it was.
 */
uint8_t sargaceu_write(uint8_t form,
                       const size_t *card, size_t card_numbers,
                       const uint32_t *segments, size_t segments_numbers,
                       const uint32_t *leaves, size_t leaves_numbers,
                       const uint8_t *text, size_t text_bytes,
                       uint8_t *output, size_t output_bytes,
                       size_t *answer, size_t answer_numbers);

/* Whether some message of a form reads to this table (W4): the writer, asked with the same form, would not refuse it with 13. */
bool sargaceu_is_table(uint8_t form,
                       const size_t *card, size_t card_numbers,
                       const uint32_t *segments, size_t segments_numbers,
                       const uint32_t *leaves, size_t leaves_numbers,
                       const uint8_t *text, size_t text_bytes);

/*
 * The leaf at a place, sought among all leaf rows that the card counts (F1). Returns SARGACEU_FOUND, and answer gets where its text starts in
 * the text area and how many bytes it has, 1 or more; SARGACEU_FOUND_EMPTY where the leaf is there and has no text, and answer gets 0 and 0,
 * so that whoever only asks for 'not 0' gets an empty text; SARGACEU_NOT_THERE, and answer stays as it was. Of several rows with the place the
 * first counts; one whose text would reach beyond the card's text bytes never counts; and no leaf is there where the card counts more than
 * some buffer holds. An answer of under two numbers stays as it was whatever comes back, and the return value still tells.
 *
 * It is for buffers that nobody has tested: their rows may lie anywhere, so it goes over all of them, up to the one that it finds.
 */
uint8_t sargaceu_find_leaf(const size_t *card, size_t card_numbers,
                           const uint32_t *segments, size_t segments_numbers,
                           const uint32_t *leaves, size_t leaves_numbers,
                           const uint8_t *text, size_t text_bytes,
                           uint32_t segment, uint32_t field, uint32_t repetition, uint32_t subfield, uint32_t subsubfield,
                           size_t *answer, size_t answer_numbers);

/*
 * The same question within the segment (F4): the leaf is sought among those leaf rows alone that the place's segment row names, from its first
 * leaf on and as many as it has, as far as the card counts them. Returns and answers as sargaceu_find_leaf does. The whole place is compared,
 * so a leaf of another segment is never answered, whatever the segment row names. Not there, too, where the place's segment is 0 or past the
 * card's count of segments, and where the segment row's first leaf is 0.
 *
 * It is for tables that sargaceu_read or sargaceu_widen gave or that sargaceu_is_table said yes to, in either form: there it answers the same
 * as sargaceu_find_leaf, and costs at most as many steps as the segment has leaves, not as many as the table has. In other buffers it may say
 * not there of a leaf that sargaceu_find_leaf finds, or answer another of several rows with the place.
 */
uint8_t sargaceu_find_leaf_in_segment(const size_t *card, size_t card_numbers,
                                      const uint32_t *segments, size_t segments_numbers,
                                      const uint32_t *leaves, size_t leaves_numbers,
                                      const uint8_t *text, size_t text_bytes,
                                      uint32_t segment, uint32_t field, uint32_t repetition, uint32_t subfield, uint32_t subsubfield,
                                      size_t *answer, size_t answer_numbers);

/*
 * The next row behind row `after` that has a kind and an owner, rows counting from 1: 0 looks at all of them (F2). Returns 0 where there is
 * none, or where the segment rows are fewer than the card counts. Orders and invoices are found under their P in every context (O5).
 */
size_t sargaceu_next_row(const size_t *card, size_t card_numbers,
                         const uint32_t *segments, size_t segments_numbers,
                         size_t after, uint32_t kind, uint32_t owner);

/*
 * Whether a row of one table and a row of another are the same order (F3): both OBR, and leaf 9.4.2 is found in both (SARGACEU_FOUND) with
 * the same bytes. The tables may be of two forms. Found empty is no: two orders without a number are not the same one. Row 0 and rows past the
 * count are no orders. Two laboratories may give one number to two orders, so a caller compares the laboratories first.
 */
bool sargaceu_same_order(const size_t *card, size_t card_numbers,
                         const uint32_t *segments, size_t segments_numbers,
                         const uint32_t *leaves, size_t leaves_numbers,
                         const uint8_t *text, size_t text_bytes,
                         uint32_t row,
                         const size_t *other_card, size_t other_card_numbers,
                         const uint32_t *other_segments, size_t other_segments_numbers,
                         const uint32_t *other_leaves, size_t other_leaves_numbers,
                         const uint8_t *other_text, size_t other_text_bytes,
                         uint32_t other_row);

/*
 * The line that begins at a place of a message of any length (P1, P2). Returns 0, and answer gets where the line ends, without its CR, and
 * where the next one begins. At or past the message's end both are the place itself: 0 with the next place equal to `at` is the end,
 * since a line is never empty. Returns 4, 5 or 6 at a fault, and answer gets the fault's place and the place itself, so that going on
 * there says the same again; a first byte below 32, CR too, is 4 at the place. An answer of under two numbers is refused with 1 and stays
 * as it was.
 */
uint8_t sargaceu_line(const uint8_t *message, size_t message_bytes, size_t at, size_t *answer, size_t answer_numbers);

/*
 * Where rows and offsets stand in a message's file (E1 to E4), of any length and either form. A row is no line: a segment may go on in addenda, and
 * blank lines vanish. A line is an addendum where it begins with A and the message's second byte, be the header sound or not (A1). The rows of a
 * refused message are those of its lines before the first fault. An answer of no number stays as it was, and the return value still tells.
 */

/*
 * Where the row with a number stands (E1), counted from 1 as the reader counts: the place of refusals 8 and 10 goes in as it is, and so does each row
 * of the table that the message reads to. Returns how many lines the row takes, its addenda among them, and answer gets the offset at which the first
 * of them begins. Returns 0, and answer gets 0, where there is no such row: row 0, and every row past the last one, as the place of 10 is where the L
 * is missing. Addenda that stand before every other line are of no row.
 *
 * Each call goes from the message's start to the row.
 */
size_t sargaceu_row_place(const uint8_t *message, size_t message_bytes, size_t row, size_t *answer, size_t answer_numbers);

/*
 * The line that begins at a place, and the addenda behind it (E2): at the place of a row, that row. Returns how many lines these are, and answer gets
 * the place behind them, where the next row begins. Returns 0, and answer gets the place itself, at or past the message's end and at a fault;
 * sargaceu_line tells which. The place may be any: inside a line the rest of it is the line, and at an addendum that is the first of the lines.
 *
 * It is for going through all rows, one after the other, with each line looked at twice at most. In every accepted message the first row begins at
 * 0. Any other may begin with addenda: there it begins where sargaceu_row_place says of row 1, if there is one.
 */
size_t sargaceu_row_at(const uint8_t *message, size_t message_bytes, size_t at, size_t *answer, size_t answer_numbers);

/*
 * Line and column of an offset (E4), both counted from 1. Returns the line, which is one more than there are CRs before the offset, and answer gets
 * the column, which is one more than there are bytes since the last of them, or since the message's start; an LF behind a CR is such a byte. An
 * offset past the message's end counts as that end. So the places of refusals 4, 5 and 6 go in as they are, and those that sargaceu_row_place
 * answers.
 */
size_t sargaceu_position(const uint8_t *message, size_t message_bytes, size_t offset, size_t *answer, size_t answer_numbers);

/*
 * Tells an order watcher a kind (V1, V2): yes where the kinds that it said yes to, with this one after them, begin an order that its
 * context allows. A watcher is two bytes, begun as { context, 0 }, and is brought up to date here; a no changes nothing in it. A watcher
 * of under two bytes says no to all, and so does one whose context is not 1 to 7.
 */
bool sargaceu_watch(uint8_t *watcher, size_t watcher_bytes, uint8_t kind);

/*
 * Which kinds may come next in a context (V3): `kinds` gets one byte for each number from 0 to 12, which is 1 where the kind may come and else 0, C
 * (12) among them. `kind` is the last kind, C aside, and 0 at the beginning, where H alone may come; after a C ask with the kind before it. The two
 * bytes of a watcher are just these two, and of one that was begun and told 1 stands where it would say yes. All are 0 where the context is not 1 to
 * 7, and where `kind` is L, C or none that the context has. Returns yes; no where `kinds` has under 13 bytes, which stay as they were.
 */
bool sargaceu_next_kinds(uint8_t context, uint8_t kind, uint8_t *kinds, size_t kinds_bytes);

/*
 * Reads a message as sargaceu_read does in the small form and puts its listing (G1, G2), as the program `list` prints it, at the front of
 * `listing`. Returns the listing's bytes, never more than `listing` has; 0, with every buffer as it was, where `listing` has under
 * SARGACEU_LISTING bytes.
 */
size_t sargaceu_list(const uint8_t *message, size_t message_bytes,
                     uint8_t *text, size_t text_bytes,
                     uint32_t *segments, size_t segments_numbers,
                     uint32_t *leaves, size_t leaves_numbers,
                     uint8_t *listing, size_t listing_bytes);

/*
 * Numeric results as numbers. A value is a whole number and a count of decimals, so nothing is rounded: -.52 is -52 with 2. Where several
 * refusals hold, the first of these comes back: from sargaceu_read_value 1, 20, 21; from sargaceu_write_value 1, 22, 23; from
 * sargaceu_order_values 1, 13, 24, 25. Here 1 is an answer that is too short, and nothing else was looked at then.
 */

/*
 * The value of a text of any length (D1 to D3): an optional sign, then digits, at most one point among them and a digit behind it. Returns 0,
 * and answer gets the whole number that all the digits make, with its sign, and how many of them stand behind the point. Returns 20 where the
 * text says no number, else 21 where it has over 15 digits, zeros in front too, and answer gets 0 and 0. An answer of under two numbers is
 * refused with 1 before the text is looked at; it stays as it was.
 */
uint8_t sargaceu_read_value(const uint8_t *text, size_t text_bytes, int64_t *answer, size_t answer_numbers);

/*
 * Writes the shortest text that reads to a whole number and a count of decimals at the front of the output (D4): no plus, and no zero in front
 * of a point, so 0 with 2 is .00 and -5 with 1 is -.5. Returns 0, and answer gets the text's bytes. Returns 22 where no text reads to the value:
 * the whole number without its sign has over 15 digits, or there are over 15 decimals; else 23 where the output has under 17 bytes, for a short
 * text too (D5). A refusal changes no output byte; answer gets 0. An answer of no number is refused with 1 before value and output are looked
 * at; it stays as it was.
 */
uint8_t sargaceu_write_value(int64_t whole, size_t decimals,
                             uint8_t *output, size_t output_bytes,
                             size_t *answer, size_t answer_numbers);

/*
 * The values of an order's numeric results (D6): of all OBX rows whose owner is the OBR in row `order` and whose leaf 10.3 is NM, in row order.
 * Returns 0; answer gets the place, which is 0, and how many there are; and the result that comes k-th among them, from 0 on, has its answer
 * in numbers[k], wholes[k] and decimals[k]: 0, 20 or 21, the whole number and the decimals, as sargaceu_read_value answers the text of field
 * 10.6. So numbers[k] is how the result is answered and not its value: look at it first, since beside 20 and 21 stand 0 and 0. Where that
 * field is not there or is several leaves, the answer is 20. Returns 13 where no message of the form reads to the table (W4); 24 where the row
 * is no OBR that the card counts; 25 where one of the three buffers has fewer elements than there are such results. A refusal changes none of
 * the three; answer gets two zeros. An answer of under two numbers is refused with 1 before the table is looked at; it stays as it was.
 *
 * The table is tested once a call, as sargaceu_is_table does; after that only the order's own rows and leaves are looked at.
 */
uint8_t sargaceu_order_values(uint8_t form,
                              const size_t *card, size_t card_numbers,
                              const uint32_t *segments, size_t segments_numbers,
                              const uint32_t *leaves, size_t leaves_numbers,
                              const uint8_t *text, size_t text_bytes,
                              uint32_t order,
                              uint8_t *numbers, size_t numbers_bytes,
                              int64_t *wholes, size_t wholes_numbers,
                              uint8_t *decimals, size_t decimals_bytes,
                              size_t *answer, size_t answer_numbers);

/*
 * Whether a report meets the rules for screening: the fields that must be there (R1), the four pseudo-analyses of each patient (R2), and the
 * values that a result may have (R3). Returns 0 where all hold, and answer gets 0. Else the first of these comes back: 13 where no message of
 * the form reads to the table (W4), and 30 where its context is not ORU, with the place 0; then the lowest of 31 to 45 whose rule does not
 * hold, with the first row of which it does not, which for 39 to 42 is the patient's (R4, R5). So a lower number comes before a higher one that
 * fails in an earlier row. Nothing else is judged. An answer of no number is refused with 1 before the table is looked at; it stays as it was.
 *
 * The table is tested once a call, as sargaceu_is_table does.
 */
uint8_t sargaceu_screen(uint8_t form,
                        const size_t *card, size_t card_numbers,
                        const uint32_t *segments, size_t segments_numbers,
                        const uint32_t *leaves, size_t leaves_numbers,
                        const uint8_t *text, size_t text_bytes,
                        size_t *answer, size_t answer_numbers);

/*
 * Widens a table of the archive, whose rows hold numbers of 16 bits, into buffers of the small form (B1 to B3): they get exactly the table that
 * reading its message gives now, with the owners in force, whichever were in force when it was read (O1, O4). Card, leaf rows and text are those
 * of the archive. Returns the number; answer gets place and card as sargaceu_read has them. Returns 1 where a new buffer is under the small
 * form's size; else 46 where no reader gave the table, be it by the owners in force or by the former ones: a table with some owners of both is
 * none. A refusal changes none of the three new buffers; answer gets six zeros. An answer of under six numbers is refused with 1 before anything
 * else is looked at; it stays as it was.
 *
 * The call copies the archived rows into some 61 KB of stack; every other function but sargaceu_read_indexed takes under 7 KB.
 */
uint8_t sargaceu_widen(const size_t *card, size_t card_numbers,
                       const uint16_t *segments, size_t segments_numbers,
                       const uint16_t *leaves, size_t leaves_numbers,
                       const uint8_t *text, size_t text_bytes,
                       uint8_t *new_text, size_t new_text_bytes,
                       uint32_t *new_segments, size_t new_segments_numbers,
                       uint32_t *new_leaves, size_t new_leaves_numbers,
                       size_t *answer, size_t answer_numbers);

/*
 * The index by analysis code (X1 to X5). For a planner it names codes of analyses (10.4.1, in its first repetition) in rising byte order, each
 * with the count of the OBX rows that carried it, in all messages that were read with the index; the tally beside it counts these messages, their
 * segments, and the rows that were counted. The caller keeps both. An index is two buffers: `codes` has a place of SARGACEU_INDEX_PLACE bytes
 * for each code, and `counts` has first how many codes are named, then their counts, so the code in place k, from 1 on, begins at
 * codes[(k - 1) * 23 + 1], and counts[k] is its count. counts[0] = 0 begins an index, whatever else the two hold, and zeros begin a tally. All
 * are plain bytes and numbers: whoever stores them and lends them again goes on where he was.
 */

/*
 * Reads a message as sargaceu_read does, and adds the codes of its results to the index and the message to the tally (X2 to X5): from a sound index
 * each OBX row that carries a code raises the code's count by 1, a code that is new gets its place among the others, and an OBX whose code is not
 * there or empty is not counted. tally[0] rises by 1, tally[1] by the segments, tally[2] by the rows that were counted. A message that is read twice
 * is counted twice. Returns and answers as sargaceu_read does, with four numbers more. 53 comes first, before anything else is looked at: what is
 * lent as an index is none (sargaceu_index_sound). Behind the reader's own come 50 at the first OBX whose code has over 22 bytes, then 51 where a
 * new code finds no place, then 52 where a count or a number of the tally would pass 4294967295; the place of 51, 52 and 53 is 0. A refusal changes
 * neither table nor index nor tally; answer gets its place and five zeros. An answer of under six numbers, or a tally of under three, is refused
 * with 1 before all that, and nothing is written then, not even the answer.
 *
 * The call takes some 52 KB of stack, among it a copy of the index.
 */
uint8_t sargaceu_read_indexed(uint8_t form,
                              const uint8_t *message, size_t message_bytes,
                              uint8_t *text, size_t text_bytes,
                              uint32_t *segments, size_t segments_numbers,
                              uint32_t *leaves, size_t leaves_numbers,
                              uint8_t *codes, size_t codes_bytes,
                              uint32_t *counts, size_t counts_numbers,
                              uint32_t *tally, size_t tally_numbers,
                              size_t *answer, size_t answer_numbers);

/*
 * Whether the two buffers are an index (X1): long enough for 512 codes and naming no more, each named code of 1 to 22 bytes and before the next in
 * byte order. It is what sargaceu_read_indexed asks first, and refuses with 53. Counts may be any numbers.
 */
bool sargaceu_index_sound(const uint8_t *codes, size_t codes_bytes, const uint32_t *counts, size_t counts_numbers);

/*
 * The planner's three questions (X4). Each looks at no more of the index than it needs, and at every buffer: SARGACEU_NO_INDEX where the two are too
 * short for 512 codes or name more. What is no index for another reason is answered by what stands there. answer stays as it was where
 * SARGACEU_NAMED does not come back; one that is too short stays as it was whatever comes back, and the return value still tells.
 */

/* How many codes an index names: SARGACEU_NAMED, and answer gets it; it may be 0. */
uint8_t sargaceu_index_codes(const uint8_t *codes, size_t codes_bytes,
                             const uint32_t *counts, size_t counts_numbers,
                             size_t *answer, size_t answer_numbers);

/*
 * The count of a code: SARGACEU_NAMED, and answer gets it; SARGACEU_NOT_NAMED where the index does not name the code, which no code of 0 or of over
 * 22 bytes is. It is sought by halving: at most ten codes are compared.
 */
uint8_t sargaceu_index_count(const uint8_t *codes, size_t codes_bytes,
                             const uint32_t *counts, size_t counts_numbers,
                             const uint8_t *code, size_t code_bytes,
                             size_t *answer, size_t answer_numbers);

/*
 * The k-th code in byte order, from 1 on: SARGACEU_NAMED, and answer gets where in `codes` it begins, how many bytes it has, and its count;
 * SARGACEU_NOT_NAMED where k is 0 or over the count of codes; SARGACEU_NO_INDEX, too, where its place says another length than 1 to 22.
 */
uint8_t sargaceu_index_code(const uint8_t *codes, size_t codes_bytes,
                            const uint32_t *counts, size_t counts_numbers,
                            size_t k,
                            size_t *answer, size_t answer_numbers);

/* The version of the archive: SARGACEU_VERSION where this header is its own. */
uint32_t sargaceu_version(void);

#ifdef __cplusplus
}
#endif

#endif
