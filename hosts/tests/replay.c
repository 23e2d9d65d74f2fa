/* Replays the stored calls of crates/replay through srci.h. Standard input is its data/calls.txt, and what is printed
 * must be its stdout; crates/replay/src/main.rt says what a line of each is.
 *
 *   replay lent    lends every buffer where it stands
 *   replay null    lends NULL for a buffer of length 0
 */
#define _DEFAULT_SOURCE
#include <stdio.h>
#include <stdlib.h>
#include <string.h>

#include "srci.h"

enum { NUMBERS = 128, BYTES = 512, LONGEST = 4096 };

static const uint32_t UNTOUCHED = 0xA5A5A5A5;
static const uint8_t UNTOUCHED_BYTE = 0xA5;

static int lends_null;

static void *lend(void *buffer, size_t length)
{
    return lends_null && length == 0 ? NULL : buffer;
}

/* Bytes that hexadecimal digits spell. */
static size_t decode(const char *digits, uint8_t *bytes)
{
    size_t count = 0;
    unsigned byte;
    while (count < LONGEST && sscanf(digits + 2 * count, "%2x", &byte) == 1) {
        bytes[count++] = (uint8_t)byte;
    }
    return count;
}

/* Numbers between commas. */
static size_t decode_numbers(const char *words, uint32_t *numbers)
{
    size_t count = 0;
    while (count < NUMBERS && *words >= '0') {
        char *end;
        numbers[count++] = (uint32_t)strtoul(words, &end, 10);
        words = *end == ',' ? end + 1 : end;
    }
    return count;
}

static void print_table(uint32_t number, uint32_t second, const uint32_t *table)
{
    size_t stored = number == 0 ? (size_t)second * SRCI_ROW_WIDTH : 0;
    size_t untouched = 0;
    for (size_t i = stored; i < NUMBERS; i++) {
        untouched += table[i] == UNTOUCHED;
    }
    printf("%u %u %zu", (unsigned)number, (unsigned)second, untouched);
    for (size_t i = 0; i < stored; i++) {
        printf(" %u", (unsigned)table[i]);
    }
    printf("\n");
}

static void print_output(uint32_t number, uint32_t second, const uint8_t *output)
{
    size_t stored = number == 0 ? second : 0;
    size_t untouched = 0;
    for (size_t i = stored; i < BYTES; i++) {
        untouched += output[i] == UNTOUCHED_BYTE;
    }
    printf("%u %u %zu ", (unsigned)number, (unsigned)second, untouched);
    for (size_t i = 0; i < stored; i++) {
        printf("%02x", output[i]);
    }
    printf("\n");
}

/* The next word of a line, empty where there is none. */
static const char *word(char **line)
{
    char *next = strsep(line, " ");
    return next == NULL ? "" : next;
}

static void replay(char *line)
{
    static uint8_t payload[LONGEST], edit[LONGEST], output[BYTES];
    static uint32_t rows[NUMBERS];
    const char *job = word(&line);
    size_t lent = strtoul(word(&line), NULL, 10);
    size_t length = decode(word(&line), payload);
    const uint8_t *from = lend(payload, length);
    uint8_t *to = lend(output, lent);
    uint32_t second = UNTOUCHED;
    memset(output, UNTOUCHED_BYTE, sizeof output);
    if (strcmp(job, "read") == 0) {
        memset(rows, UNTOUCHED_BYTE, sizeof rows);
        uint32_t number = srci_read(from, length, lend(rows, lent), lent, &second);
        print_table(number, second, rows);
    } else if (strcmp(job, "write") == 0) {
        size_t edit_length = decode(word(&line), edit);
        size_t numbers = decode_numbers(word(&line), rows);
        uint32_t number = srci_write(from, length, lend(edit, edit_length), edit_length, lend(rows, numbers), numbers,
                                     to, lent, &second);
        print_output(number, second, output);
    } else if (strcmp(job, "list") == 0) {
        uint32_t number = srci_list(from, length, to, lent, &second);
        print_output(number, second, output);
    } else if (strcmp(job, "public_copy") == 0) {
        uint32_t number = srci_public_copy(from, length, to, lent, &second);
        print_output(number, second, output);
    } else if (strcmp(job, "card") == 0) {
        uint32_t number = srci_card(from, length, to, lent, &second);
        print_output(number, second, output);
    } else if (strcmp(job, "to_sheet") == 0) {
        uint32_t number = srci_to_sheet(from, length, to, lent, &second);
        print_output(number, second, output);
    } else if (strcmp(job, "from_sheet") == 0) {
        uint32_t number = srci_from_sheet(from, length, to, lent, &second);
        print_output(number, second, output);
    }
}

int main(int count, char **words)
{
    if (count != 2) {
        return 2;
    }
    lends_null = strcmp(words[1], "null") == 0;
    char *line = NULL;
    size_t size = 0;
    ssize_t length;
    while ((length = getline(&line, &size, stdin)) > 0) {
        line[length - 1] = '\0';
        replay(line);
    }
    free(line);
    return 0;
}
