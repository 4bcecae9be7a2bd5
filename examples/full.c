/*
 * Reads the full case, specification 15.1, through star.h and prints what came of it:
 * the counts, the five tables, each value of each name, the columns walked by their links,
 * its names compared, a value and a text as numbers, the plain form, whether its names and
 * codes fit 32 bytes, an index of its names, built, checked and looked up through, a file
 * of the layout of 1991, read and converted to today's and back, and an old file, which has
 * a header stop, refused and then written without it.
 */
#include <stdio.h>
#include <string.h>

#include "star.h"

static const char file[] = "data_a\nloop_\n_x\nloop_\n_y\n1 2 3 stop_ 4 stop_\n";

/* A file of the layout of 1991, in which stop_ closes a save frame. */
static const char old_file[] = "data_a save_f\nloop_ _x 1 2\nstop_\n_x 3\n";

/* An old file: the stop_ after the names is a header stop. */
static const char stop_file[] = "data_a loop_ _x loop_ _y stop_ 1 2 stop_\n";

/* The bytes of the file, without the 0 that ends the string. */
#define BYTES (sizeof(file) - 1)

/* The tables, with room for any file of so many bytes, the plain form and the index. */
static uint32_t tokens[STAR_TOKENS_WORDS(BYTES)];
static uint32_t sets[STAR_SETS_WORDS(BYTES)];
static uint32_t names[STAR_NAMES_WORDS(BYTES)];
static uint32_t packets[STAR_PACKETS_WORDS(BYTES)];
static uint32_t values[STAR_VALUES_WORDS(BYTES)];
static uint8_t plain[STAR_PLAIN_BYTES(BYTES)];
static uint32_t slots[STAR_SLOTS_WORDS(BYTES)];

/* The bytes of the file of 1991, which are fewer, and room for what is made of it. */
#define OLD_BYTES (sizeof(old_file) - 1)
static uint8_t today[STAR_PLAIN_BYTES(OLD_BYTES)];
static uint8_t back[STAR_PLAIN_BYTES(OLD_BYTES)];

/* The same of the file with a header stop. */
#define STOP_BYTES (sizeof(stop_file) - 1)
static uint8_t dropped[STAR_PLAIN_BYTES(STOP_BYTES)];

#define FILE_RANGE (const uint8_t *)file, BYTES
#define TABLES                                                                \
    tokens, STAR_TOKENS_WORDS(BYTES), sets, STAR_SETS_WORDS(BYTES),           \
        names, STAR_NAMES_WORDS(BYTES), packets, STAR_PACKETS_WORDS(BYTES),   \
        values, STAR_VALUES_WORDS(BYTES)
#define SLOTS slots, STAR_SLOTS_WORDS(BYTES)

static void print_table(const char *name, const uint32_t *words, uint32_t rows, uint32_t width)
{
    printf("%s:", name);
    for (uint32_t row = 0; row < rows; row++) {
        printf(" (");
        for (uint32_t word = 0; word < width; word++)
            printf(word == 0 ? "%u" : ",%u", (unsigned)words[row * width + word]);
        printf(")");
    }
    printf("\n");
}

/* Finds a name of the block and prints its values, one after the other; answers its row. */
static uint32_t print_values(star_counts counts, uint32_t block, const char *name)
{
    star_found found = star_find_name(FILE_RANGE, TABLES, counts, block,
                                      (const uint8_t *)name, strlen(name));
    printf("%s is name row %u:", name, (unsigned)found.row);
    for (uint32_t k = 1;; k++) {
        star_value value = star_value_at(FILE_RANGE, TABLES, counts, found.row, k);
        if (value.refusal != STAR_OK) {
            printf(" then refusal %u\n", (unsigned)value.refusal);
            return found.row;
        }
        star_part part = star_value_part(FILE_RANGE, TABLES, counts, found.row, k);
        printf(" %.*s (kind %u, packet %u)", (int)(part.end - part.start), file + part.start,
               (unsigned)value.kind, (unsigned)value.packet);
    }
}

/* Walks down the column of a name row, in the tables as the reading left them. */
static void print_column(star_counts counts, uint32_t name_row)
{
    size_t row = 1;
    while (row <= counts.values && values[(row - 1) * STAR_VALUES_WIDTH] != name_row)
        row++;
    if (row > counts.values)
        row = 0;
    printf("name row %u by links:", (unsigned)name_row);
    while (row != 0) {
        const uint32_t *value = values + (row - 1) * STAR_VALUES_WIDTH;
        const uint32_t *token = tokens + (size_t)(value[2] - 1) * STAR_TOKENS_WIDTH;
        printf(" %.*s (value row %u)", (int)(token[2] - token[1]), file + token[1],
               (unsigned)row);
        row = value[3];
    }
    printf("\n");
}

/* Builds an index of the names, checks it, and finds a name of the block through it. */
static void print_index(uint32_t block, const char *name)
{
    star_reading built = star_index_build(FILE_RANGE, TABLES, SLOTS);
    printf("index in %u slots: refusal %u, place %u", (unsigned)STAR_SLOTS_WORDS(BYTES),
           (unsigned)built.refusal, (unsigned)built.place);
    for (size_t slot = 0; slot < STAR_SLOTS_WORDS(BYTES); slot++)
        if (slots[slot] != 0)
            printf("; name row %u in slot %u", (unsigned)slots[slot], (unsigned)slot);
    printf("\n");

    star_reading checked = star_index_check(FILE_RANGE, TABLES, SLOTS);
    printf("index checked: refusal %u, place %u\n", (unsigned)checked.refusal,
           (unsigned)checked.place);
    star_found found = star_index_find(FILE_RANGE, TABLES, star_counts_of(checked), SLOTS, block,
                                       (const uint8_t *)name, strlen(name));
    printf("%s by the index is name row %u\n", name, (unsigned)found.row);
}

/* Prints what came of a call that writes, and the plain form, each byte 10 as /. */
static void print_form(const char *call, star_written written, const uint8_t *form)
{
    printf("%s: refusal %u, place %u, %u bytes: ", call, (unsigned)written.refusal,
           (unsigned)written.place, (unsigned)written.length);
    for (uint32_t at = 0; at < written.length; at++)
        putchar(form[at] == 10 ? '/' : form[at]);
    printf("\n");
}

/* Reads the file of 1991 in both layouts, and converts it to today's and back. */
static void print_layouts(void)
{
    const uint8_t *old = (const uint8_t *)old_file;
    for (uint32_t layout = STAR_LAYOUT_TODAY; layout <= STAR_LAYOUT_1991 + 1; layout++) {
        star_reading reading = star_read(old, OLD_BYTES, layout, TABLES);
        printf("file of 1991 in layout %u: refusal %u, place %u, sets %u, names %u\n", (unsigned)layout,
               (unsigned)reading.refusal, (unsigned)reading.place, (unsigned)reading.sets,
               (unsigned)reading.names);
    }
    star_written over = star_convert(old, OLD_BYTES, STAR_LAYOUT_1991, TABLES,
                                     today, sizeof(today));
    print_form("converted to today's layout", over, today);
    star_written again = star_convert(today, over.length, STAR_LAYOUT_TODAY, TABLES,
                                      back, sizeof(back));
    print_form("converted to the layout of 1991", again, back);
}

/* Reads the file with a header stop, drops the header stop, and reads what was written. */
static void print_dropped(void)
{
    const uint8_t *old = (const uint8_t *)stop_file;
    star_reading refused = star_read(old, STOP_BYTES, STAR_LAYOUT_TODAY, TABLES);
    printf("file with a header stop: refusal %u, place %u\n", (unsigned)refused.refusal,
           (unsigned)refused.place);
    star_written written = star_drop_header_stops(old, STOP_BYTES, TABLES,
                                                  dropped, sizeof(dropped));
    print_form("header stop dropped", written, dropped);
    print_table("its tokens", tokens, written.tokens, STAR_TOKENS_WIDTH);
    star_reading reading = star_read(dropped, written.length, STAR_LAYOUT_TODAY, TABLES);
    printf("without it: refusal %u, place %u, tokens %u of %u\n", (unsigned)reading.refusal,
           (unsigned)reading.place, (unsigned)reading.tokens, (unsigned)written.tokens);
}

int main(void)
{
    star_reading reading = star_read(FILE_RANGE, STAR_LAYOUT_TODAY, TABLES);
    printf("refusal %u, place %u\n", (unsigned)reading.refusal, (unsigned)reading.place);
    if (reading.refusal != STAR_OK)
        return 1;
    printf("counts: %u %u %u %u %u\n", (unsigned)reading.tokens, (unsigned)reading.sets,
           (unsigned)reading.names, (unsigned)reading.packets, (unsigned)reading.values);
    print_table("tokens", tokens, reading.tokens, STAR_TOKENS_WIDTH);
    print_table("sets", sets, reading.sets, STAR_SETS_WIDTH);
    print_table("names", names, reading.names, STAR_NAMES_WIDTH);
    print_table("packets", packets, reading.packets, STAR_PACKETS_WIDTH);
    print_table("values", values, reading.values, STAR_VALUES_WIDTH);

    star_counts counts = star_counts_of(reading);
    star_found block = star_find_block(FILE_RANGE, TABLES, counts, (const uint8_t *)"a", 1);
    printf("block a is set %u\n", (unsigned)block.row);
    star_found frame = star_find_frame(FILE_RANGE, TABLES, counts, block.row,
                                       (const uint8_t *)"f", 1);
    printf("frame f: refusal %u, row %u\n", (unsigned)frame.refusal, (unsigned)frame.row);
    uint32_t x = print_values(counts, block.row, "_x");
    uint32_t y = print_values(counts, block.row, "_y");
    print_column(counts, x);
    print_column(counts, y);

    star_compared compared = star_compare((const uint8_t *)"_x", 2, (const uint8_t *)"_y", 2);
    printf("_x and _y: %s, pairs %u\n", compared.equal ? "equal" : "not equal",
           (unsigned)compared.pairs);

    /* the second value of _y, and a text with an uncertainty */
    star_value_number_t second = star_value_number(FILE_RANGE, TABLES, counts, y, 2);
    printf("_y 2 as a number: refusal %u, form %u, value %g\n", (unsigned)second.refusal,
           (unsigned)second.form, second.value);
    star_number number = star_number_of(STAR_TOKEN_WORD, (const uint8_t *)"8.53(1)", 7);
    printf("8.53(1) as a number: form %u, value %g, uncertainty %g\n", (unsigned)number.form,
           number.value, number.uncertainty);

    star_written written = star_write(FILE_RANGE, TABLES, plain, sizeof(plain));
    printf("plain form, %u bytes:\n", (unsigned)written.length);
    fwrite(plain, 1, written.length, stdout);

    star_checked checked = star_fits_32(FILE_RANGE, TABLES);
    printf("names and codes fit 32 bytes: %s, place %u\n", checked.yes ? "yes" : "no",
           (unsigned)checked.place);

    print_index(block.row, "_y");
    print_layouts();
    print_dropped();
    return 0;
}
