/* Prints the card of the payload in a file, or why it is refused.
 *
 *   cc -Ibuild/include hosts/c/show_card.c build/lib/libsrci.a -o show_card && ./show_card FILE
 */
#include <stdio.h>
#include <stdlib.h>

#include "srci.h"

/* The longest payload, and a byte by which a longer one is told. */
static uint8_t payload[SRCI_LIMIT + 1];

int main(int count, char **words)
{
    FILE *file = count == 2 ? fopen(words[1], "rb") : NULL;
    if (file == NULL) {
        fprintf(stderr, "usage: show_card FILE, and FILE must be readable\n");
        return 2;
    }
    size_t length = fread(payload, 1, sizeof payload, file);
    if (ferror(file)) {
        perror(words[1]);
        return 3;
    }
    fclose(file);

    /* No bytes are too few for every card, and the refusal tells how long the card is. */
    uint32_t needed = 0;
    uint32_t number = srci_card(payload, length, NULL, 0, &needed);
    if (number != SRCI_NO_ROOM) {
        fprintf(stderr, "refused %lu, %s: %s\n", (unsigned long)number, srci_refusal_name(number),
                srci_refusal_meaning(number));
        return 1;
    }
    uint8_t *card = malloc(needed);
    if (card == NULL) {
        perror("show_card");
        return 3;
    }
    uint32_t stored = 0;
    srci_card(payload, length, card, needed, &stored);
    if (fwrite(card, 1, stored, stdout) != stored || fflush(stdout) != 0) {
        perror("standard output");
        return 3;
    }
    free(card);
    return 0;
}
