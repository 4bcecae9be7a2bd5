/*
 * Tackturnel: a verified reader of STAR Files.
 *
 * The library reads one STAR File from lent bytes into five lent tables of
 * 32-bit words, finds data blocks, save frames, names and values in them, names
 * of global blocks too, compares names and codes, answers values as numbers
 * with their uncertainties, writes the file's plain form, reads the layout of
 * 1991 and converts between it and today's, writes old files without their header
 * stops, answers whether names and codes keep the limit of older readers, and
 * builds, checks and uses an index of the names.
 *
 * THE FIVE TABLES. Rows count from 1 and stand in file order. Offsets count
 * the file's bytes from 0; the end of a span is not included.
 *
 *   no.  table    words of a row
 *   1    tokens   kind, start of content, end of content
 *   2    sets     kind (1 data block, 2 save frame, 3 global block), token of the
 *                 heading or of global_, parent set (0 for a data or global block)
 *   3    names    set, name token, loop, level (loop and level 0 for a single item)
 *   4    packets  loop, level, parent packet (0 at level 1)
 *   5    values   name row, packet (0 for a single item), token, next value row
 *                 of the same name (0 after the last)
 *
 * Kinds of tokens: 1 data_ and a code, 2 save_ and a code, 3 save_ alone,
 * 4 loop_, 5 stop_, 6 name, 7 word, 8 $ and a frame code, 9 single-quoted
 * string, 10 double-quoted string, 11 text field, 12 global_. Values are 7 to
 * 11. The content of a token is the code for kinds 1, 2 and 8, what stands
 * between the delimiters for kinds 9 to 11, else the whole word.
 *
 * GLOBAL BLOCKS. A global block is global_ and what follows it up to the next
 * data_ and a code, the next global_ or the end: items, loops and save frames,
 * none included. It may stand wherever a data block may. It has no code. Its
 * names are unique within it, those of its frames not counted, and so are the
 * codes of its frames; both may come again in any other block. A data block
 * takes the names that it does not have from the global blocks before it, the
 * nearest first (star_find_name). Save frames and global blocks take nothing.
 *
 * LAYOUTS. In today's layout save_ alone closes a save frame. In the layout of
 * 1991 stop_ closes it: outside the header of a loop, stop_ closes the open inner
 * level if there is one, else the frame. In a header it never closes a frame and
 * is refused as in today's layout. save_ alone is always out of place in that
 * layout. All else is the same, and a file is refused by the rules of the layout
 * that it is read in. The stop_ that closes a frame is a token of kind 5.
 *
 *   no.  constant           what closes a save frame
 *   0    STAR_LAYOUT_TODAY  save_
 *   1    STAR_LAYOUT_1991   stop_
 *
 * star_read and star_convert take the number of the layout that is read. Every
 * other call that reads a file reads today's. Lookups are the same in tables of
 * either.
 *
 * HEADER STOPS. Old files may have stop_ in the header of a loop of two levels or
 * more, after the last name of the innermost level: at most one for each inner
 * level, and nothing but a value may follow them. Such a header stop says nothing
 * that the names do not say, and it is retired: every call that reads a file, in
 * either layout, answers refusal 16 at the first one of a header, whatever follows
 * it. Only star_drop_header_stops reads them, and writes the file without them.
 * Anywhere else in a header stop_ is out of place, refusal 8.
 *
 * COLUMNS. The values of a name are a column. They stand among those of the
 * other names, and the fourth word of each value row links it to the next of
 * its column. So a caller goes down a column in one pass: the first value row
 * whose first word is the name row, then link by link. An inner level may have
 * no packets, so that there may be no such row.
 *
 *   size_t row = 1;
 *   while (row <= counts.values && values[(row - 1) * STAR_VALUES_WIDTH] != name_row)
 *       row++;
 *   if (row > counts.values)
 *       row = 0;
 *   while (row != 0) {
 *       const uint32_t *value = values + (row - 1) * STAR_VALUES_WIDTH;
 *       const uint32_t *token = tokens + (size_t)(value[2] - 1) * STAR_TOKENS_WIDTH;
 *       one_value(file + token[1], file + token[2]);
 *       row = value[3];
 *   }
 *
 * In tables that a reading, a writing, a conversion, a check or the dropping of
 * header stops accepted, with its counts, that visits each value of the name
 * once, in file order, and nothing else. Who does not know where the tables come
 * from has to check what star_value_at checks: before, that counts.values and
 * counts.tokens are no more than the rows that the tables hold; at each link that
 * is not 0, before it is followed, that it is greater than the number of its own
 * row, so that the walk ends, and no greater than counts.values, and that the row
 * it leads to has the same first word; at each value, that its token row is from 1
 * to counts.tokens, and that the span does not start after its end or end after
 * the file.
 *
 * star_value_at, star_value_part and star_value_number go by the same links, from
 * the first value on at each call. Asked for the n values of a column one after
 * the other they follow n * (n - 1) / 2 links, where a walk follows n - 1.
 *
 * AN INDEX. An index is a lent range of 32-bit words, its slots, each of which
 * holds a name row or 0. The hash of a name row is 32-bit FNV-1a (it begins at
 * 2166136261, and each byte goes in by exclusive or and a multiplication by
 * 16777619 modulo two to the 32) of the four bytes of the number of its set,
 * lowest first, and then of the name, underscore included. Its home is the hash
 * modulo the number of slots, which count from 0. Slots are an index of a file
 * exactly when there are more of them than names, every name row is in just one
 * slot, no other number but 0 occurs, and no slot from the home of a row to its
 * own, round the end if needed, is 0.
 *
 * So a name is found by looking at its home and at the slots after it up to the
 * first 0, and not at all name rows. star_index_build makes an index, and
 * another program may make one by these rules. One that comes from elsewhere, or
 * was stored beside its file, is checked by star_index_check before it is used:
 * the file may have changed. With tables and slots as either of the two accepted
 * them, star_index_find answers what star_find_name answers. With twice as many
 * slots as names or more it looks at few of them; where nearly all are full, at
 * many.
 *
 * LINE ENDS. 13 directly followed by 10 is one line end, and so is each other
 * 10, 12 and 13. A ; at the start of a line or of the file opens a text field,
 * and the first line end that is directly followed by ; closes it: that line
 * end, both bytes of 13, 10, is not content. Any line end before it is, byte
 * for byte.
 *
 * REFUSALS. Every answer but star_compared, star_part and star_number has a
 * refusal; 0, STAR_OK, means accepted or found. A place is an offset into the
 * file unless said otherwise.
 *
 *   no.  constant          given when                                        place
 *   1    STAR_TOO_LARGE    file (or plain form) over 1,048,576 bytes         0
 *   2    STAR_BAD_BYTE     a byte not allowed (allowed: 9 to 13, 32 to 126)  the first such byte
 *   3    STAR_BAD_WORD     ill-formed word                                   its first byte
 *   4    STAR_TOO_LONG     name or code over 75 bytes                        its token's first byte
 *   5    STAR_OPEN_QUOTE   quote not closed on its line                      the quote
 *   6    STAR_OPEN_TEXT    text field not closed, or byte after its          the opening ;
 *                          closing ;
 *   7    STAR_TOO_SHORT    table (or output) too short, or slots not more    the table's number, 6 for the output,
 *                          than names                                        8 for the slots
 *   8    STAR_MISPLACED    token or end out of place                         its first byte, or the file's length
 *   9    STAR_TAKEN        name or code already taken                        first byte
 *   10   STAR_INCOMPLETE   packet not full, or inner level not closed        first byte, or the file's length
 *   11   STAR_TOO_DEEP     loop_ that opens level 9                          first byte
 *   13   STAR_NOT_FOUND    not found                                         0
 *   14   STAR_OUTSIDE      a number, row or link that points outside, or a   0
 *                          link to a row not later or not of the same name;
 *                          a layout that is neither 0 nor 1
 *   15   STAR_NO_INDEX     slots are no index of the file's names            0
 *   16   STAR_HEADER_STOP  a header stop: stop_ after the names of a loop    its first byte
 *                          of two levels or more
 *
 * 12 is not used: readers that do not know global blocks give it at global_.
 *
 * Order of checking: 14 for a layout; 1; 2 over the whole file; the first token
 * faulty by 3 to 6; 7 for table 1; the first token that breaks the grammar of the
 * layout, 8 to 11 and 16; 7 for tables 2 to 5, the lowest number first.
 *
 * NUMBERS. A value of kind 7 is a number where its content is, in this order:
 * + or - or no sign; digits, one at least, with no point or one point before,
 * between or after them; no exponent, or e or E, then + or - or no sign, then
 * one digit or more; no uncertainty, or one digit or more in round brackets.
 *
 * m is the digits before the exponent as a whole number, e is the written
 * exponent, 0 if there is none, less the count of digits after the point, and
 * u is the digits in brackets as a whole number. With m and u at most
 * 9,007,199,254,740,992 and e from -22 to 22, the value is m times ten to the
 * e or, for e below 0, m divided by ten to the -e, and then the sign: -0 is
 * negative zero. The uncertainty is u times or divided by the same power of
 * ten and has no sign. Each is rounded once, to the nearest double and of two
 * equally near to the even one, as the processor rounds unless it is set
 * otherwise. 8.53(1) is 853 / 100 with the uncertainty 1 / 100.
 *
 *   no.  form                        given when                         value  uncertainty
 *   1    STAR_NUMBER_FLOAT           a number without brackets          yes    +0.0
 *   2    STAR_NUMBER_UNCERTAIN       a number with brackets             yes    yes
 *   3    STAR_NUMBER_UNKNOWN         kind 7, the content is ?           +0.0   +0.0
 *   4    STAR_NUMBER_NOT_APPLICABLE  kind 7, the content is .           +0.0   +0.0
 *   5    STAR_NUMBER_TOO_WIDE        a number with m, u or e outside    +0.0   +0.0
 *                                    these limits; 0e30 too
 *   6    STAR_NUMBER_TEXT            anything else, and any content     +0.0   +0.0
 *                                    of another kind
 *
 * LENT MEMORY. A range is a pointer and its number of elements. Every pointer
 * must be non-null and aligned for its type and must lead to that many
 * elements; with length 0 any non-null aligned pointer will do. A range that
 * a call writes must not overlap any other range lent to the same call. That
 * is all a caller owes: any bytes, words, counts and numbers may be handed in,
 * also tables that no reading made. A call writes nothing outside the ranges
 * that are lent to it without const, its answer depends on what is lent alone
 * (the floats of a number also on the processor's rounding mode, above), and
 * nothing lent is kept after it returns.
 */
#ifndef STAR_H
#define STAR_H

#include <stdbool.h>
#include <stddef.h>
#include <stdint.h>

#ifdef __cplusplus
extern "C" {
#endif

/* The refusals, as the table above has them. */
enum star_refusal {
    STAR_OK = 0,
    STAR_TOO_LARGE = 1,
    STAR_BAD_BYTE = 2,
    STAR_BAD_WORD = 3,
    STAR_TOO_LONG = 4,
    STAR_OPEN_QUOTE = 5,
    STAR_OPEN_TEXT = 6,
    STAR_TOO_SHORT = 7,
    STAR_MISPLACED = 8,
    STAR_TAKEN = 9,
    STAR_INCOMPLETE = 10,
    STAR_TOO_DEEP = 11,
    STAR_NOT_FOUND = 13,
    STAR_OUTSIDE = 14,
    STAR_NO_INDEX = 15,
    STAR_HEADER_STOP = 16
};

/* The layouts, as the table above has them. */
enum star_layout {
    STAR_LAYOUT_TODAY = 0,
    STAR_LAYOUT_1991 = 1
};

/* The kinds of tokens. */
enum star_token_kind {
    STAR_TOKEN_BLOCK = 1,         /* data_ and a code */
    STAR_TOKEN_FRAME = 2,         /* save_ and a code */
    STAR_TOKEN_FRAME_END = 3,     /* save_ alone */
    STAR_TOKEN_LOOP = 4,          /* loop_ */
    STAR_TOKEN_STOP = 5,          /* stop_; in the layout of 1991 also what closes a frame */
    STAR_TOKEN_NAME = 6,
    STAR_TOKEN_WORD = 7,
    STAR_TOKEN_REFERENCE = 8,     /* $ and a frame code */
    STAR_TOKEN_SINGLE_QUOTED = 9,
    STAR_TOKEN_DOUBLE_QUOTED = 10,
    STAR_TOKEN_TEXT = 11,         /* text field */
    STAR_TOKEN_GLOBAL = 12        /* global_ */
};

/* The kinds of sets. */
enum star_set_kind {
    STAR_SET_BLOCK = 1,           /* data block */
    STAR_SET_FRAME = 2,           /* save frame */
    STAR_SET_GLOBAL = 3           /* global block */
};

/* The forms of numbers, as the table above has them. */
enum star_number_form {
    STAR_NUMBER_FLOAT = 1,
    STAR_NUMBER_UNCERTAIN = 2,
    STAR_NUMBER_UNKNOWN = 3,
    STAR_NUMBER_NOT_APPLICABLE = 4,
    STAR_NUMBER_TOO_WIDE = 5,
    STAR_NUMBER_TEXT = 6
};

/* The words of a row in each table. */
#define STAR_TOKENS_WIDTH 3
#define STAR_SETS_WIDTH 3
#define STAR_NAMES_WIDTH 4
#define STAR_PACKETS_WIDTH 3
#define STAR_VALUES_WIDTH 4

/* The most bytes of a file and of a plain form. */
#define STAR_MOST_BYTES 1048576
/* The most bytes of a name, its underscore included, and of a block or frame code: CIF 1.1's limit. */
#define STAR_MOST_NAME_BYTES 75
/* The most bytes of a name or code that readers before this limit was raised take. */
#define STAR_OLD_NAME_BYTES 32
/* The most levels of a loop. */
#define STAR_MOST_LEVELS 8
/* The most that the digits of a number, and those of its uncertainty, may be: 2 to the 53. */
#define STAR_MOST_WHOLE 9007199254740992
/* The most that e of a number may be; the least is its negative. */
#define STAR_MOST_POWER 22

/*
 * ROOM FOR A FILE OF n BYTES. With STAR_TOKENS_WORDS(n) to STAR_VALUES_WORDS(n)
 * words lent, no table is too short for any file of n bytes, accepted or not,
 * with STAR_PLAIN_BYTES(n) bytes no output is, and with STAR_SLOTS_WORDS(n) words
 * there are more slots than names: refusal 7 is not answered.
 *
 * Each is a constant expression where n is one, may evaluate n more than once,
 * and is never 0: C has no arrays without elements, and malloc may answer a
 * null pointer for 0 bytes. For n over STAR_MOST_BYTES they give what they give
 * for STAR_MOST_BYTES, since such a file is refused by 1 whatever is lent; so
 * no step overflows, for any n that is not negative.
 *
 * The reason for the rows: white space or the end directly follows each token,
 * so k tokens of b bytes or more each take k * b bytes and k - 1 between them:
 * k * (b + 1) <= n + 1, and therefore k <= n / (b + 1) + 1. For tokens that is
 * proved; the others are reasons and tests, not theorems.
 */
#define STAR_READ_BYTES_(n) ((n) < STAR_MOST_BYTES ? (n) : STAR_MOST_BYTES)

/* A token has 1 byte or more: tokens * 2 <= n + 1 is theorem tokens-bound of star_lex. */
#define STAR_MOST_TOKENS(n) (STAR_READ_BYTES_(n) / 2 + 1)
/* Each set has a heading of its own, data_ or save_ and a code or the 7 bytes of global_: 6 bytes or more. */
#define STAR_MOST_SETS(n) (STAR_READ_BYTES_(n) / 7 + 1)
/* Each row of names has a token of its own, _ and 1 byte or more: 2 bytes or more. */
#define STAR_MOST_NAMES(n) (STAR_READ_BYTES_(n) / 3 + 1)
/* Each row of values has a token of its own, so there are no more than tokens. */
#define STAR_MOST_VALUES(n) STAR_MOST_TOKENS(n)
/* Each packet has a value of its own, its first, so there are no more than values. */
#define STAR_MOST_PACKETS(n) STAR_MOST_VALUES(n)

#define STAR_TOKENS_WORDS(n) (STAR_MOST_TOKENS(n) * STAR_TOKENS_WIDTH)
#define STAR_SETS_WORDS(n) (STAR_MOST_SETS(n) * STAR_SETS_WIDTH)
#define STAR_NAMES_WORDS(n) (STAR_MOST_NAMES(n) * STAR_NAMES_WIDTH)
#define STAR_PACKETS_WORDS(n) (STAR_MOST_PACKETS(n) * STAR_PACKETS_WIDTH)
#define STAR_VALUES_WORDS(n) (STAR_MOST_VALUES(n) * STAR_VALUES_WIDTH)

/* Twice as many slots as there may be names. */
#define STAR_SLOTS_WORDS(n) (STAR_MOST_NAMES(n) * 2)

/*
 * In the plain form each token has at most as many bytes as in the file and one
 * byte 10 after it, n + 1 at most together, and at most one byte more: a word
 * that begins with ; has a blank before it, and a text field whose content ends
 * in 13 has 13, 10 before its closing ;, where the file may have one byte. No
 * token is both. In the other layout it has as many bytes: save_ and stop_ are of
 * one length. Without header stops it has fewer.
 */
#define STAR_PLAIN_BYTES(n) (STAR_READ_BYTES_(n) + 1 + STAR_MOST_TOKENS(n))

/* What reading, and building and checking an index, answer: the refusal and its place, and the rows in each table. */
typedef struct {
    uint32_t refusal, place, tokens, sets, names, packets, values;
} star_reading;

/* The rows in each table, as a reading, a writing, a conversion, the dropping of header stops, a check or the building of an index answered them. */
typedef struct {
    uint32_t tokens, sets, names, packets, values;
} star_counts;

/* What a lookup answers: the refusal and the row found, 0 when refused. */
typedef struct {
    uint32_t refusal, row;
} star_found;

/* What comparing answers: whether two contents are the same bytes, and how many byte pairs were compared. */
typedef struct {
    bool equal;
    size_t pairs;
} star_compared;

/* What a value's lookup answers: the refusal, and the value's kind and packet, both 0 when refused. */
typedef struct {
    uint32_t refusal, kind, packet;
} star_value;

/* The part of the file that holds a value, from start up to but without end; 0, 0 when refused. */
typedef struct {
    size_t start, end;
} star_part;

/* A number: its form, its value and its uncertainty, +0.0 where the form has none. */
typedef struct {
    uint32_t form;
    double value, uncertainty;
} star_number;

/* What the lookup of a number answers: the refusal, and the number, all of it 0 when refused. */
typedef struct {
    uint32_t refusal, form;
    double value, uncertainty;
} star_value_number_t;

/* What writing, conversion and the dropping of header stops answer: as reading, and the length of the plain form. */
typedef struct {
    uint32_t refusal, place, length, tokens, sets, names, packets, values;
} star_written;

/* What a check of a file answers: as reading, and yes, 1 for yes and 0 for no; 0 when refused. */
typedef struct {
    uint32_t refusal, place, yes, tokens, sets, names, packets, values;
} star_checked;

/* The rows of a reading, as lookups take them. */
static inline star_counts star_counts_of(star_reading reading)
{
    star_counts counts = {reading.tokens, reading.sets, reading.names, reading.packets,
                          reading.values};
    return counts;
}

/* The rows of a writing, a conversion or the dropping of header stops, as lookups take them. */
static inline star_counts star_counts_of_written(star_written written)
{
    star_counts counts = {written.tokens, written.sets, written.names, written.packets,
                          written.values};
    return counts;
}

/* The rows of a check, as lookups take them. */
static inline star_counts star_counts_of_checked(star_checked checked)
{
    star_counts counts = {checked.tokens, checked.sets, checked.names, checked.packets,
                          checked.values};
    return counts;
}

/*
 * Reads a file of this layout: 0 for today's, 1 for that of 1991.
 *
 * Refusals: 14, place 0, if the layout is any other number; then 1 to 11 and 16.
 * The number and place of the first check that fails, in the order given above;
 * both 0 when the file is accepted.
 * Afterwards: accepted, each table holds its rows and 0 in every word after
 * them, and the counts are those of the rows. Refused, every word of every
 * table is 0 and the counts are 0. What the tables held before never matters.
 */
star_reading star_read(const uint8_t *file, size_t file_len, uint32_t layout,
                       uint32_t *tokens, size_t tokens_len,
                       uint32_t *sets, size_t sets_len,
                       uint32_t *names, size_t names_len,
                       uint32_t *packets, size_t packets_len,
                       uint32_t *values, size_t values_len);

/*
 * Finds a data block: the first set of kind 1 whose heading's content equals
 * the code. Global blocks are not looked at.
 *
 * Refusals: 14 if any of the five counts is larger than its table holds; then,
 * set by set, 14 at a data block whose token row is 0 or above the count of
 * tokens, or whose span starts after its end or ends after the file; 13 if
 * none is equal. A refused lookup answers row 0.
 * Afterwards: all lent memory is as it was.
 */
star_found star_find_block(const uint8_t *file, size_t file_len,
                           const uint32_t *tokens, size_t tokens_len,
                           const uint32_t *sets, size_t sets_len,
                           const uint32_t *names, size_t names_len,
                           const uint32_t *packets, size_t packets_len,
                           const uint32_t *values, size_t values_len,
                           star_counts counts,
                           const uint8_t *code, size_t code_len);

/*
 * Finds a save frame of a set: the first set of kind 2 with that parent whose
 * heading's content equals the code. A frame in a global block is found through
 * that set alone.
 *
 * Refusals: 14 if any of the five counts is larger than its table holds, or
 * the set is 0 or above the count of sets; then, set by set, 14 at a frame of
 * that set whose token row or span points outside as in star_find_block; 13
 * if none is equal. A refused lookup answers row 0.
 * Afterwards: all lent memory is as it was.
 */
star_found star_find_frame(const uint8_t *file, size_t file_len,
                           const uint32_t *tokens, size_t tokens_len,
                           const uint32_t *sets, size_t sets_len,
                           const uint32_t *names, size_t names_len,
                           const uint32_t *packets, size_t packets_len,
                           const uint32_t *values, size_t values_len,
                           star_counts counts, uint32_t set,
                           const uint8_t *code, size_t code_len);

/*
 * Finds a name of a set, underscore included: the first name row of that set
 * whose token's content equals the name. Names of a block's save frames are
 * not the block's own. Where none of a data block, a set of kind 1, is equal,
 * the global blocks before it are searched in the same way, the nearest first:
 * the sets of kind 3 among rows set - 1 down to 1. A later global block never
 * counts, and a set of any other kind is searched alone. The first word of the
 * row that is found is the set that has the name.
 *
 * Refusals: 14 if any of the five counts is larger than its table holds, or
 * the set is 0 or above the count of sets; then, name by name, 14 at a name of
 * the set that is searched whose token row or span points outside as in
 * star_find_block, and no further set is searched; 13 if none is equal in any
 * of them. A refused lookup answers row 0.
 * Afterwards: all lent memory is as it was.
 */
star_found star_find_name(const uint8_t *file, size_t file_len,
                          const uint32_t *tokens, size_t tokens_len,
                          const uint32_t *sets, size_t sets_len,
                          const uint32_t *names, size_t names_len,
                          const uint32_t *packets, size_t packets_len,
                          const uint32_t *values, size_t values_len,
                          star_counts counts, uint32_t set,
                          const uint8_t *name, size_t name_len);

/*
 * Compares two contents, names or codes, as the lookups of a block, a frame and
 * a name do, and reading for refusal 9: the lengths first, then the bytes from
 * the front up to the first that differ. They may be any bytes of any length
 * and may overlap.
 *
 * equal is whether they are the same bytes. pairs is how many byte pairs were
 * compared: none where the lengths differ, else all up to and including the
 * first that differs, or all.
 *
 * Refusals: none.
 * Afterwards: all lent memory is as it was.
 */
star_compared star_compare(const uint8_t *a, size_t a_len, const uint8_t *b, size_t b_len);

/*
 * Finds the k-th value of a name row, k from 1: its token's kind and its
 * packet, both as the tables hold them. It is the first value row of the name,
 * and from there k - 1 links on, as above.
 *
 * Refusals: 14 if any of the five counts is larger than its table holds, or
 * the name row is 0 or above the count of names; then 13 if k is 0 or there is
 * no value row of the name; then, at each of the k - 1 links, 13 if it is 0, and
 * 14 if it is not greater than the number of its own row, is above the count of
 * values, or leads to a row of another name; then 14 if the k-th value's token
 * row or span points outside as in star_find_block. The link of the k-th value
 * and the tokens of those before it are not looked at. A refused value answers
 * kind 0 and packet 0.
 * Afterwards: all lent memory is as it was.
 */
star_value star_value_at(const uint8_t *file, size_t file_len,
                         const uint32_t *tokens, size_t tokens_len,
                         const uint32_t *sets, size_t sets_len,
                         const uint32_t *names, size_t names_len,
                         const uint32_t *packets, size_t packets_len,
                         const uint32_t *values, size_t values_len,
                         star_counts counts, uint32_t name_row, uint32_t k);

/*
 * Answers the part of the file that holds the k-th value of a name row. It
 * lies within the file, start not after end. An empty value keeps its own
 * offsets.
 *
 * Refusals: those of star_value_at, which tells them apart; the part is then
 * 0, 0.
 * Afterwards: all lent memory is as it was.
 */
star_part star_value_part(const uint8_t *file, size_t file_len,
                          const uint32_t *tokens, size_t tokens_len,
                          const uint32_t *sets, size_t sets_len,
                          const uint32_t *names, size_t names_len,
                          const uint32_t *packets, size_t packets_len,
                          const uint32_t *values, size_t values_len,
                          star_counts counts, uint32_t name_row, uint32_t k);

/*
 * Answers a content of this kind as a number, by the rules above. The kind may
 * be any number, and the content any bytes of any length: no count of digits
 * and no exponent is too large to be counted.
 *
 * Refusals: none.
 * Afterwards: all lent memory is as it was.
 */
star_number star_number_of(uint32_t kind, const uint8_t *content, size_t content_len);

/*
 * Finds the k-th value of a name row, k from 1, and answers it as a number: as
 * star_number_of does for its kind and its part of the file.
 *
 * Refusals: those of star_value_at. A refused number answers form 0, value
 * +0.0 and uncertainty +0.0.
 * Afterwards: all lent memory is as it was.
 */
star_value_number_t star_value_number(const uint8_t *file, size_t file_len,
                                      const uint32_t *tokens, size_t tokens_len,
                                      const uint32_t *sets, size_t sets_len,
                                      const uint32_t *names, size_t names_len,
                                      const uint32_t *packets, size_t packets_len,
                                      const uint32_t *values, size_t values_len,
                                      star_counts counts, uint32_t name_row, uint32_t k);

/*
 * Reads a file of today's layout and writes its plain form: its tokens in order
 * in their own kinds and delimiters, each followed by one byte 10, without
 * comments. A text field is closed by 10 and ; or, where its content ends in 13,
 * by 13, 10 and ;, since that 13 would else belong to the line end. A word that
 * begins with ; has a blank before it. The plain form of a plain form is itself.
 *
 * Refusals: those of star_read for today's layout; then 1, place 0, if the plain
 * form is over 1,048,576 bytes; then 7, place 6, if the output is too short for it.
 * Afterwards: accepted, the output holds the plain form and 0 in every byte
 * after it, the tables hold the reading as star_read leaves them, and the
 * length and the counts are answered. Refused, every byte of the output and
 * every word of every table is 0, the length is 0 and the counts are 0.
 */
star_written star_write(const uint8_t *file, size_t file_len,
                        uint32_t *tokens, size_t tokens_len,
                        uint32_t *sets, size_t sets_len,
                        uint32_t *names, size_t names_len,
                        uint32_t *packets, size_t packets_len,
                        uint32_t *values, size_t values_len,
                        uint8_t *out, size_t out_len);

/*
 * Reads a file of this layout, 0 for today's or 1 for that of 1991, and writes
 * its plain form in the other: its tokens as star_write writes them, but for
 * those that close a save frame, stop_ for save_ or save_ for stop_. What is
 * written is accepted in the other layout, and converted back from there it gives
 * the plain form of the file itself. A file without frames is written as
 * star_write writes it, from either layout.
 *
 * Refusals: 14, place 0, if the layout is any other number; then those of
 * star_read for this layout; then 1, place 0, if the plain form is over 1,048,576
 * bytes; then 7, place 6, if the output is too short for it.
 * Afterwards: accepted, the output holds the plain form in the other layout and 0
 * in every byte after it, the tables hold the reading of the file as star_read
 * leaves them for this layout, and the length and the counts are answered.
 * Refused, every byte of the output and every word of every table is 0, the
 * length is 0 and the counts are 0.
 */
star_written star_convert(const uint8_t *file, size_t file_len, uint32_t layout,
                          uint32_t *tokens, size_t tokens_len,
                          uint32_t *sets, size_t sets_len,
                          uint32_t *names, size_t names_len,
                          uint32_t *packets, size_t packets_len,
                          uint32_t *values, size_t values_len,
                          uint8_t *out, size_t out_len);

/*
 * Reads an old file, by the rules of today's layout but with header stops, and
 * writes its plain form without them: its other tokens as star_write writes them.
 * What is written is accepted by star_read in today's layout, with the same sets,
 * names, packets and values in the same order, all rows and contents the same but
 * for the numbers of token rows and for offsets; star_write gives the same bytes of
 * it again. Of a file without header stops this call answers and writes what
 * star_write does.
 *
 * Refusals: those of star_read for today's layout, but never 16: a header stop is
 * taken, and what follows it is 8 unless it is a value or, while an inner level
 * is left for it, one more header stop; then 1, place 0, if the plain form without
 * the header stops is over 1,048,576 bytes; then 7, place 6, if the output is too
 * short for that form.
 * Afterwards: accepted, the output holds the plain form without the header stops
 * and 0 in every byte after it, the tables hold the reading of the old file, its
 * header stops among the tokens of table 1, the length is that of what is written,
 * and the counts are those of the old file; so lookups in these tables take the
 * old file. Refused, every byte of the output and every word of every table is 0,
 * the length is 0 and the counts are 0.
 */
star_written star_drop_header_stops(const uint8_t *file, size_t file_len,
                                    uint32_t *tokens, size_t tokens_len,
                                    uint32_t *sets, size_t sets_len,
                                    uint32_t *names, size_t names_len,
                                    uint32_t *packets, size_t packets_len,
                                    uint32_t *values, size_t values_len,
                                    uint8_t *out, size_t out_len);

/*
 * Reads a file of today's layout and answers whether it may go to a reader that
 * takes names and codes of STAR_OLD_NAME_BYTES at most and else has the same
 * rules: yes if every name, its underscore included, and every block and frame
 * code has 32 bytes or fewer. What follows a $ does not count; it has no limit in
 * either reader.
 *
 * After yes, that reader answers what star_read answers, whatever tables it is
 * lent, and leaves the same words in them. After no, it answers refusal 4 at the
 * first token whose name or code is longer. A reader that does not know global
 * blocks refuses every file that has one, whatever is answered here.
 *
 * Refusals: those of star_read for today's layout; yes is then 0.
 * Afterwards: accepted, yes is 1 or 0, the place is 0, the tables hold the
 * reading as star_read leaves them, and the counts are answered. Refused, every
 * word of every table is 0 and the counts are 0.
 */
star_checked star_fits_32(const uint8_t *file, size_t file_len,
                          uint32_t *tokens, size_t tokens_len,
                          uint32_t *sets, size_t sets_len,
                          uint32_t *names, size_t names_len,
                          uint32_t *packets, size_t packets_len,
                          uint32_t *values, size_t values_len);

/*
 * Reads a file of today's layout and builds an index of its names in all slots
 * that are lent: each name row, in order, goes to the first slot that holds 0 from
 * its home on, round the end if needed. star_index_check accepts what is built.
 *
 * Refusals: those of star_read for today's layout; then 7, place 8, if there are
 * not more slots than names.
 * Afterwards: accepted, each name row stands in one slot and the others are 0, the
 * tables hold the reading as star_read leaves them, and the counts are answered.
 * Refused, every slot and every word of every table is 0 and the counts are 0.
 * What the slots held before never matters.
 */
star_reading star_index_build(const uint8_t *file, size_t file_len,
                              uint32_t *tokens, size_t tokens_len,
                              uint32_t *sets, size_t sets_len,
                              uint32_t *names, size_t names_len,
                              uint32_t *packets, size_t packets_len,
                              uint32_t *values, size_t values_len,
                              uint32_t *slots, size_t slots_len);

/*
 * Reads a file of today's layout and checks that the slots are an index of its
 * names, by the four conditions above. Without slots they are not, also where the
 * file has no names.
 *
 * Refusals: those of star_read for today's layout; then 15, place 0, if the slots
 * are no index, whichever of the conditions they fail.
 * Afterwards: accepted, the tables hold the reading as star_read leaves them, and
 * the counts are answered. Refused, every word of every table is 0 and the counts
 * are 0. The slots are as they were.
 */
star_reading star_index_check(const uint8_t *file, size_t file_len,
                              uint32_t *tokens, size_t tokens_len,
                              uint32_t *sets, size_t sets_len,
                              uint32_t *names, size_t names_len,
                              uint32_t *packets, size_t packets_len,
                              uint32_t *values, size_t values_len,
                              const uint32_t *slots, size_t slots_len);

/*
 * Finds a name of a set, underscore included, through the slots: from the home of
 * the name in that set on, round the end if needed and each slot once, the first
 * that holds a name row of that set whose token's content equals the name. Rows
 * of other sets are passed over, and their tokens are not looked at. Where it is
 * not found in a data block, the global blocks before it are searched in the same
 * way, the nearest first, as in star_find_name, each from the home of the name in
 * that global block.
 *
 * Tables, counts and slots may hold anything. With those that star_index_build or
 * star_index_check accepted the answer is that of star_find_name.
 *
 * Refusals: 14 if any of the five counts is larger than its table holds, or the
 * set is 0 or above the count of sets; then, slot by slot of the set that is
 * searched, 13 at a slot that is 0, 14 at one above the count of names, and 14 at
 * a name row of that set whose token row or span points outside as in
 * star_find_block; 13 if no slot is left, and if there are no slots. After 14 no
 * further set is searched; 13 is answered if it came of each of them. A refused
 * lookup answers row 0.
 * Afterwards: all lent memory is as it was.
 */
star_found star_index_find(const uint8_t *file, size_t file_len,
                           const uint32_t *tokens, size_t tokens_len,
                           const uint32_t *sets, size_t sets_len,
                           const uint32_t *names, size_t names_len,
                           const uint32_t *packets, size_t packets_len,
                           const uint32_t *values, size_t values_len,
                           star_counts counts,
                           const uint32_t *slots, size_t slots_len, uint32_t set,
                           const uint8_t *name, size_t name_len);

#ifdef __cplusplus
}
#endif

#endif
