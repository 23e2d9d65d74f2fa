/* Lends NULL for every buffer that has no elements. Standard input is a payload with a section of every tag, each with
 * an entry where it may have one, in which all texts and bytes are empty. */
#undef NDEBUG
#include <assert.h>
#include <stdio.h>
#include <string.h>

#include "srci.h"

enum { ROWS = 8, NUMBERS = ROWS * SRCI_ROW_WIDTH };

static uint8_t payload[1024], output[1024];
static uint32_t rows[NUMBERS];
static uint32_t second;

static uint32_t write_rows(size_t numbers, size_t output_length)
{
    return srci_write(NULL, 0, NULL, 0, numbers ? rows : NULL, numbers, output_length ? output : NULL, output_length,
                      &second);
}

/* Which numbers of a row tell where a text is, or bytes. */
static const struct { uint32_t tag; size_t start, length; } spans[] = {
    {SRCI_TAG_PACKED_CONTENTS, SRCI_PACKED_START, SRCI_PACKED_LENGTH},
    {SRCI_TAG_UNKNOWN, SRCI_UNKNOWN_START, SRCI_UNKNOWN_LENGTH},
    {SRCI_TAG_CONTENT, SRCI_CONTENT_START, SRCI_CONTENT_LENGTH},
    {SRCI_TAG_NAME, SRCI_NAME_START, SRCI_NAME_LENGTH},
    {SRCI_TAG_PAIR, SRCI_PAIR_NAME_START, SRCI_PAIR_NAME_LENGTH},
    {SRCI_TAG_PAIR, SRCI_PAIR_VALUE_START, SRCI_PAIR_VALUE_LENGTH},
};
enum { SPANS = sizeof spans / sizeof *spans };

static uint32_t *row_of(uint32_t tag)
{
    uint32_t *row = rows;
    while (row[SRCI_TAG] != tag) {
        row += SRCI_ROW_WIDTH;
        assert(row < rows + NUMBERS);
    }
    return row;
}

/* A number of 4 makes a row reach past the end of an empty side. */
static void expect_inside(uint32_t *number)
{
    assert(*number == 0);
    *number = 4;
    assert(write_rows(NUMBERS, sizeof output) == SRCI_BAD_ROW && second == 0);
    *number = 0;
}

/* The lines of the payload, whose texts and bytes have nothing in them, and back. */
static void expect_sheet(size_t length)
{
    static uint8_t back[sizeof payload];
    static const char sheet[] = "contents\t0\ncontent\t\npacked\t0\t2\t900\t\nnames\nname\t5\t\narguments\npair\t\t\n"
                                "unknown\t7\t\n";
    size_t needed = sizeof sheet - 1;
    assert(srci_to_sheet(payload, length, NULL, 0, &second) == SRCI_NO_ROOM && second == needed);
    memset(output, 0xA5, sizeof output);
    assert(srci_to_sheet(payload, length, output, needed - 1, &second) == SRCI_NO_ROOM && second == needed);
    assert(output[0] == 0xA5);
    assert(srci_to_sheet(payload, length, output, needed, &second) == 0 && second == needed);
    assert(memcmp(output, sheet, needed) == 0 && output[needed] == 0xA5);
    assert(srci_from_sheet(output, needed, NULL, 0, &second) == SRCI_NO_ROOM && second == length);
    memset(back, 0xA5, sizeof back);
    assert(srci_from_sheet(output, needed, back, length - 1, &second) == SRCI_NO_ROOM && second == length);
    assert(back[0] == 0xA5);
    assert(srci_from_sheet(output, needed, back, length, &second) == 0 && second == length);
    assert(memcmp(back, payload, length) == 0 && back[length] == 0xA5);
    /* without the newline at its end the last of the eight lines is not closed */
    assert(srci_from_sheet(output, needed - 1, NULL, 0, &second) == SRCI_BAD_LINE && second == 8);
}

static void write_from(uint32_t side, size_t length)
{
    for (size_t i = 0; i < SPANS; i++) {
        uint32_t *row = row_of(spans[i].tag);
        row[SRCI_SIDE] = side;
        row[spans[i].start] = 0;
    }
    for (size_t i = 0; i < SPANS; i++) {
        expect_inside(row_of(spans[i].tag) + spans[i].start);
        expect_inside(row_of(spans[i].tag) + spans[i].length);
    }
    assert(write_rows(NUMBERS, 0) == SRCI_NO_ROOM && second == length);
    memset(output, 0xA5, sizeof output);
    assert(write_rows(NUMBERS, sizeof output) == 0 && second == length);
    assert(memcmp(output, payload, length) == 0 && output[length] == 0xA5);
}

int main(void)
{
    assert(srci_read(NULL, 0, NULL, 0, &second) == SRCI_RAGGED && second == 0);
    assert(srci_read(NULL, 0, rows, NUMBERS, &second) == SRCI_RAGGED && second == 0);
    assert(srci_list(NULL, 0, NULL, 0, &second) == SRCI_RAGGED && second == 0);
    assert(srci_list(NULL, 0, output, sizeof output, &second) == SRCI_RAGGED && second == 0);
    assert(srci_public_copy(NULL, 0, NULL, 0, &second) == SRCI_RAGGED && second == 0);
    assert(srci_public_copy(NULL, 0, output, sizeof output, &second) == SRCI_RAGGED && second == 0);
    assert(srci_card(NULL, 0, NULL, 0, &second) == SRCI_RAGGED && second == 0);
    assert(srci_card(NULL, 0, output, sizeof output, &second) == SRCI_RAGGED && second == 0);
    assert(srci_to_sheet(NULL, 0, NULL, 0, &second) == SRCI_RAGGED && second == 0);
    assert(srci_to_sheet(NULL, 0, output, sizeof output, &second) == SRCI_RAGGED && second == 0);
    assert(write_rows(0, 0) == SRCI_NO_ROOM && second == 8);
    assert(write_rows(0, 8) == 0 && second == 8 && memcmp(output, "\10\0\0\0\0\0\0\0", 8) == 0);
    /* without sections there are no lines */
    second = 1;
    assert(srci_to_sheet(output, 8, NULL, 0, &second) == 0 && second == 0);
    assert(srci_from_sheet(NULL, 0, NULL, 0, &second) == SRCI_NO_ROOM && second == 8);
    memset(output, 0xA5, sizeof output);
    assert(srci_from_sheet(NULL, 0, output, 8, &second) == 0 && second == 8);
    assert(memcmp(output, "\10\0\0\0\0\0\0\0\245", 9) == 0);

    size_t length = fread(payload, 1, sizeof payload, stdin);
    assert(srci_read(payload, length, NULL, 0, &second) == SRCI_NO_ROWS && second == ROWS);
    assert(srci_read(payload, length, rows, NUMBERS, &second) == 0 && second == ROWS);
    write_from(SRCI_SIDE_PAYLOAD, length);
    write_from(SRCI_SIDE_EDIT, length);
    expect_sheet(length);
    return 0;
}
