/* Prints the version and the refusals by srci.h, which must be what hosts/tables has: the version as a text and by its
 * numbers, then for each number that has a text its name and meaning, with tabs between. */
#include <stdio.h>

#include "srci.h"

static void print_refusal(uint32_t number)
{
    const char *name = srci_refusal_name(number), *meaning = srci_refusal_meaning(number);
    if (name != NULL || meaning != NULL) {
        printf("%lu\t%s\t%s\n", (unsigned long)number, name ? name : "NULL", meaning ? meaning : "NULL");
    }
}

int main(void)
{
    printf("%s\n%d.%d.%d\n", SRCI_VERSION, SRCI_VERSION_MAJOR, SRCI_VERSION_MINOR, SRCI_VERSION_PATCH);
    for (uint32_t number = 0; number < 1000; number++) {
        print_refusal(number);
    }
    print_refusal(UINT32_MAX / 2 + 1);
    print_refusal(UINT32_MAX);
    return 0;
}
