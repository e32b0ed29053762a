/* wrapped: a tag image on standard input, each of its channel payloads wrapped as an ADTS frame by the functions for C, as the second program's
 * wrapped does. */
#include <stdio.h>

#include "printed.h"

static struct image image;

/* A channel payload, wrapped or refused; the room is just what is promised to be enough. */
static void print_wrapped(uint32_t k, uint32_t start, uint32_t end)
{
    static uint8_t frame[OARCRADLER_MOST_WRAPPED];
    uint8_t answer[OARCRADLER_SIZE_WRAPPED];
    uint32_t returned = oarcradler_wrap_stream(image.bytes, image.size, start, end, image.index, frame, sizeof frame, answer,
        sizeof answer);
    printf("%u ", (unsigned)k);
    if (returned != 0) {
        print_refused(returned);
        return;
    }
    for (uint32_t byte = 0; byte < oarcradler_word(answer + OARCRADLER_AT_WRAPPED_LENGTH); byte++)
        printf("%02x", (unsigned)frame[byte]);
    printf("\n");
}

/* An image, channel payload by channel payload. */
int main(void)
{
    uint8_t part[OARCRADLER_SIZE_PART];
    if (!read_image(&image))
        return 0;
    for (uint32_t k = 0; k < image.count; k += 2) {
        if (oarcradler_find_part(image.bytes, image.size, k, part, sizeof part) != 0)
            return 1;
        print_wrapped(k, oarcradler_word(part + OARCRADLER_AT_PART_START), oarcradler_word(part + OARCRADLER_AT_PART_END));
    }
    return 0;
}
