/* Reads the payload of crates/show_card, on standard input, and looks at each of its rows by the names of srci.h; what
 * is in it is known from tests/programs/cases.py. */
#undef NDEBUG
#include <assert.h>
#include <stdio.h>
#include <string.h>

#include "srci.h"

static uint8_t payload[1024];
static uint32_t rows[16 * SRCI_ROW_WIDTH];

static int has_text(uint32_t start, uint32_t length, const char *text)
{
    return length == strlen(text) && memcmp(payload + start, text, length) == 0;
}

int main(void)
{
    size_t length = fread(payload, 1, sizeof payload, stdin);
    uint32_t stored = 0;
    assert(srci_read(payload, length, NULL, 0, &stored) == SRCI_NO_ROWS && stored == 8);
    assert(srci_read(payload, length, rows, sizeof rows / sizeof *rows, &stored) == 0 && stored == 8);

    const uint32_t *row = rows;
    assert(row[SRCI_TAG] == SRCI_TAG_PACKED_CONTENTS && row[SRCI_SIDE] == SRCI_SIDE_PAYLOAD);
    assert(row[SRCI_PACKED_HEADER_FIELD] == 0 && row[SRCI_PACKED_START] == 36 && row[SRCI_PACKED_LENGTH] == 75);
    assert(row[SRCI_PACKED_COUNT] == 2 && row[SRCI_PACKED_UNCOMPRESSED] == 104);
    row += SRCI_ROW_WIDTH;
    assert(row[SRCI_TAG] == SRCI_TAG_UNKNOWN && row[SRCI_UNKNOWN_KIND] == 7);
    assert(has_text(row[SRCI_UNKNOWN_START], row[SRCI_UNKNOWN_LENGTH], "made by Mira"));
    row += SRCI_ROW_WIDTH;
    assert(row[SRCI_TAG] == SRCI_TAG_NAMES);
    row += SRCI_ROW_WIDTH;
    assert(row[SRCI_TAG] == SRCI_TAG_NAME && row[SRCI_NAME_CONTENT_SIZE] == 45);
    assert(has_text(row[SRCI_NAME_START], row[SRCI_NAME_LENGTH], "sky.hlsl"));
    row += 2 * SRCI_ROW_WIDTH;
    assert(row[SRCI_TAG] == SRCI_TAG_ARGUMENTS);
    row += SRCI_ROW_WIDTH;
    assert(row[SRCI_TAG] == SRCI_TAG_PAIR);
    assert(has_text(row[SRCI_PAIR_NAME_START], row[SRCI_PAIR_NAME_LENGTH], "E"));
    assert(has_text(row[SRCI_PAIR_VALUE_START], row[SRCI_PAIR_VALUE_LENGTH], "main"));

    /* plain contents, written with a header field and a text of the edit side */
    uint32_t plain[2 * SRCI_ROW_WIDTH] = {0};
    uint8_t edit[] = "float4 main();", output[128];
    plain[SRCI_TAG] = SRCI_TAG_PLAIN_CONTENTS;
    plain[SRCI_PLAIN_HEADER_FIELD] = 9;
    plain[SRCI_ROW_WIDTH + SRCI_TAG] = SRCI_TAG_CONTENT;
    plain[SRCI_ROW_WIDTH + SRCI_SIDE] = SRCI_SIDE_EDIT;
    plain[SRCI_ROW_WIDTH + SRCI_CONTENT_START] = 7;
    plain[SRCI_ROW_WIDTH + SRCI_CONTENT_LENGTH] = 4;
    assert(srci_write(payload, length, edit, sizeof edit, plain, 14, output, sizeof output, &stored) == 0);
    assert(stored == 56 && output[16] == 9 && memcmp(output + 48, "main\0\0\0\0", 8) == 0);
    return 0;
}
