/* cut: reads an ADTS file of any length from standard input and prints the channel stream of each frame, a line a frame, in hexadecimal. */
#include <stdio.h>
#include <string.h>

#include "oarcradler.h"

/* The part of the file that is looked at: as much as a frame can have. */
static uint8_t window[OARCRADLER_MOST_FRAME];

/* The first bytes of the window make room for the next ones of the file. How many bytes there are now. */
static size_t move_on(size_t first, size_t size)
{
    size_t left = size - first;
    memmove(window, window + first, left);
    return left + fread(window + left, 1, sizeof window - left, stdin);
}

/* A stream's line. Whether it was printed. */
static int print_stream(const uint8_t *stream, size_t size)
{
    static const char digits[] = "0123456789abcdef";
    static char line[2 * OARCRADLER_MOST_STREAM + 2];
    for (size_t k = 0; k < size; k++) {
        line[2 * k] = digits[stream[k] >> 4];
        line[2 * k + 1] = digits[stream[k] & 15];
    }
    line[2 * size] = '\n';
    line[2 * size + 1] = '\0';
    return fputs(line, stdout) >= 0;
}

/* Every frame of the file, up to one that is refused or whose line is not printed. Whether none was; if one was, it is told. */
static int cut_file(void)
{
    static uint8_t stream[OARCRADLER_MOST_STREAM];
    uint8_t answer[OARCRADLER_SIZE_FRAME];
    unsigned long at = 0;
    for (size_t size = move_on(0, 0); size > 0 && !ferror(stdin);) {
        uint32_t returned = oarcradler_unwrap_frame(window, size, 0, stream, sizeof stream, answer, sizeof answer);
        if (returned != OARCRADLER_DONE) {
            fprintf(stderr, "cut: frame at %lu refused %u at bit %u\n", at, (unsigned)oarcradler_number(returned),
                (unsigned)oarcradler_place(returned));
            return 0;
        }
        uint32_t length = oarcradler_word(answer + OARCRADLER_AT_FRAME_LENGTH);
        if (!print_stream(stream, (oarcradler_word(answer + OARCRADLER_AT_CHANNEL_BITS) + 7) / 8))
            break;
        at += length;
        size = move_on(length, size);
    }
    return 1;
}

/* Input that cannot be read, and lines that are lost, are told as a refused frame is: with a sentence on standard error and status 1. */
int main(void)
{
    if (!cut_file())
        return 1;
    if (ferror(stdin)) {
        fputs("cut: standard input cannot be read\n", stderr);
        return 1;
    }
    int lost = ferror(stdout);
    if (fclose(stdout) != 0 || lost) {
        fputs("cut: standard output cannot be written: lines are missing\n", stderr);
        return 1;
    }
    return 0;
}
