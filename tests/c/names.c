/* names: every number up to 99 that has a name, a line each, with its name and its sentence, and all of them again as they are returned
 * with a place; then what is said of a number that has no name. */
#include <stdio.h>
#include <string.h>

#include "oarcradler.h"

/* The numbers that have a name, each with a place. */
static void print_names(uint32_t place)
{
    for (uint32_t number = 0; number < 100; number++) {
        uint32_t returned = number + 256 * place;
        if (strcmp(oarcradler_name(returned), "UNKNOWN") != 0)
            printf("%u %s %s\n", (unsigned)number, oarcradler_name(returned), oarcradler_sentence(returned));
    }
}

int main(void)
{
    print_names(0);
    print_names(OARCRADLER_MOST_PLACE);
    printf("%s %s\n", oarcradler_name(UINT32_MAX), oarcradler_sentence(UINT32_MAX));
    return 0;
}
