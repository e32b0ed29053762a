/* frames: an ADTS file on standard input, read, cut and wrapped again by the functions for C, and printed in full, as the second program's cut
 * does. */
#include <stdio.h>

#include "printed.h"

enum { MOST_FILE = 1 << 22 };

static uint8_t file[MOST_FILE];

/* A word and some bytes as hexadecimal digits. */
static void print_hex(const char *word, const uint8_t *bytes, size_t count)
{
    printf("%s ", word);
    for (size_t k = 0; k < count; k++)
        printf("%02x", (unsigned)bytes[k]);
    printf("\n");
}

/* The line of a frame that was read. */
static void print_line(unsigned k, size_t start, const int16_t *lines, const uint8_t *answer)
{
    printf("%u frame at %lu length %u index %u ", k, (unsigned long)start, (unsigned)oarcradler_word(answer + OARCRADLER_AT_FRAME_LENGTH),
        (unsigned)answer[OARCRADLER_AT_FRAME_INDEX]);
    printf("channel gain %u lines %u bits %u\n", (unsigned)answer[OARCRADLER_AT_CHANNEL_GAIN], count_sounding(lines),
        (unsigned)oarcradler_word(answer + OARCRADLER_AT_CHANNEL_BITS));
}

/* The stream of a frame that was read, and the frame that wraps it; the room for either is just what is promised to be enough. */
static void print_stream(size_t size, size_t start)
{
    static uint8_t stream[OARCRADLER_MOST_STREAM], frame[OARCRADLER_MOST_WRAPPED];
    uint8_t answer[OARCRADLER_SIZE_FRAME], wrapped[OARCRADLER_SIZE_WRAPPED];
    uint32_t returned = oarcradler_unwrap_frame(file, size, start, stream, sizeof stream, answer, sizeof answer);
    if (returned != 0) {
        printf("  stream ");
        print_refused(returned);
        return;
    }
    uint32_t bytes = (oarcradler_word(answer + OARCRADLER_AT_CHANNEL_BITS) + 7) / 8;
    print_hex("  stream", stream, bytes);
    returned = oarcradler_wrap_stream(stream, sizeof stream, 0, bytes, answer[OARCRADLER_AT_FRAME_INDEX], frame, sizeof frame, wrapped,
        sizeof wrapped);
    if (returned != 0) {
        printf("  frame ");
        print_refused(returned);
    } else {
        print_hex("  frame", frame, oarcradler_word(wrapped + OARCRADLER_AT_WRAPPED_LENGTH));
    }
}

/* The length field of a frame whose header was accepted: 13 bits from bit 30. */
static uint32_t length_field(const uint8_t *frame)
{
    return (uint32_t)(frame[3] & 3) << 11 | (uint32_t)frame[4] << 3 | (uint32_t)frame[5] >> 5;
}

/* A frame, read or refused. Its length, or 0 where no next frame is known. */
static uint32_t print_frame(unsigned k, size_t size, size_t start)
{
    static int16_t lines[OARCRADLER_SIZE_LINES];
    static struct oarcradler_factors factors;
    static struct oarcradler_books books;
    static uint8_t answer[OARCRADLER_SIZE_FRAME];
    uint32_t returned = oarcradler_read_frame(file, size, start, lines, OARCRADLER_SIZE_LINES, &factors, sizeof factors, &books,
        sizeof books, answer, sizeof answer);
    if (returned == 0) {
        print_line(k, start, lines, answer);
        print_rows(lines, &factors, &books, answer);
        print_stream(size, start);
        return oarcradler_word(answer + OARCRADLER_AT_FRAME_LENGTH);
    }
    printf("%u frame at %lu ", k, (unsigned long)start);
    print_refused(returned);
    switch (oarcradler_number(returned)) {
    case OARCRADLER_REFUSED_NO_BITS:
    case OARCRADLER_REFUSED_NO_SYNC:
    case OARCRADLER_REFUSED_OTHER_FRAME:
    case OARCRADLER_REFUSED_FRAME_SIZE: return 0;
    default: return length_field(file + start);
    }
}

/* A file, frame by frame. */
int main(void)
{
    size_t size = fread(file, 1, sizeof file, stdin), start = 0;
    if (ferror(stdin) || size == sizeof file)
        return 2;
    for (unsigned k = 0; start < size; k++) {
        uint32_t length = print_frame(k, size, start);
        if (length == 0)
            return 0;
        start += length;
    }
    return 0;
}
