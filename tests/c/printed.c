/* What the programs of this test print alike, and the image that they read alike. */
#include <stdio.h>

#include "places.h"
#include "printed.h"

void print_refused(uint32_t returned)
{
    uint32_t number = oarcradler_number(returned);
    printf("refused %u", (unsigned)number);
    if (has_place(number))
        printf(" at %u", (unsigned)oarcradler_place(returned));
    printf("\n");
}

int read_image(struct image *image)
{
    uint8_t header[OARCRADLER_SIZE_HEADER];
    image->size = fread(image->bytes, 1, sizeof image->bytes, stdin);
    uint32_t returned = oarcradler_read_header(image->bytes, image->size, header, sizeof header);
    if (returned != 0) {
        printf("image ");
        print_refused(returned);
        return 0;
    }
    image->count = oarcradler_word(header + OARCRADLER_AT_HEADER_COUNT);
    image->index = oarcradler_word(header + OARCRADLER_AT_HEADER_INDEX);
    return 1;
}

void print_bytes(const char *words, const uint8_t *bytes, size_t count)
{
    printf("%s", words);
    for (size_t k = 0; k < count; k++)
        printf(" %u", (unsigned)bytes[k]);
    printf("\n");
}

unsigned count_sounding(const int16_t *lines)
{
    unsigned set = 0;
    for (int line = 0; line < OARCRADLER_SIZE_LINES; line++)
        set += lines[line] != 0;
    return set;
}

void print_rows(const int16_t *lines, const struct oarcradler_factors *factors, const struct oarcradler_books *books, const uint8_t *answer)
{
    size_t groups = answer[OARCRADLER_AT_CHANNEL_GROUP_COUNT], used = groups * answer[OARCRADLER_AT_CHANNEL_MAX_SFB];
    printf("  window %u shape %u max_sfb %u", (unsigned)answer[OARCRADLER_AT_CHANNEL_SEQUENCE], (unsigned)answer[OARCRADLER_AT_CHANNEL_SHAPE],
        (unsigned)answer[OARCRADLER_AT_CHANNEL_MAX_SFB]);
    print_bytes(" groups", answer + OARCRADLER_AT_CHANNEL_GROUPS, groups);
    print_bytes("  books", books->of, used);
    print_bytes("  factors", factors->of, used);
    printf("  values");
    for (int line = 0; line < OARCRADLER_SIZE_LINES; line++)
        if (lines[line] != 0)
            printf(" %d:%d", line, lines[line]);
    printf("\n");
}
