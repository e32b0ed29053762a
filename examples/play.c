/* play: reads a tag image from standard input, plays through it payload by payload and prints a line of each, as the program list does. */
#include <stdio.h>

#include "oarcradler.h"

/* One byte more than an image may have, so that a longer input is seen. */
static uint8_t image[OARCRADLER_MOST_IMAGE + 1];

/* How many lines are not 0. */
static unsigned count_set(const int16_t *lines)
{
    unsigned set = 0;
    for (int k = 0; k < OARCRADLER_SIZE_LINES; k++)
        set += lines[k] != 0;
    return set;
}

/* An even payload is a channel stream. A handset hands its numbers to the sound chip here. Whether its line was printed. */
static int play_channel(uint32_t k, size_t size, uint32_t start, uint32_t end, uint32_t index)
{
    static int16_t lines[OARCRADLER_SIZE_LINES];
    static struct oarcradler_factors factors;
    static struct oarcradler_books books;
    uint8_t answer[OARCRADLER_SIZE_CHANNEL];
    uint32_t number = oarcradler_number(oarcradler_read_channel(image, size, start, end, index, lines, OARCRADLER_SIZE_LINES, &factors,
        sizeof factors, &books, sizeof books, answer, sizeof answer));
    if (number != OARCRADLER_DONE)
        return printf("%u channel refused %u\n", (unsigned)k, (unsigned)number) >= 0;
    return printf("%u channel gain %u lines %u bits %u\n", (unsigned)k, (unsigned)answer[OARCRADLER_AT_CHANNEL_GAIN], count_set(lines),
        (unsigned)oarcradler_word(answer + OARCRADLER_AT_CHANNEL_BITS)) >= 0;
}

/* An odd payload is stereo. A refused one leaves the state out of step, so it is not reported missing. Whether its line was printed. */
static int play_stereo(uint32_t k, size_t size, uint32_t start, uint32_t end, uint8_t *state)
{
    uint8_t answer[OARCRADLER_SIZE_STEREO];
    uint32_t number = oarcradler_number(
        oarcradler_read_stereo(state, OARCRADLER_SIZE_STATE, image, size, start, end, answer, sizeof answer));
    if (number != OARCRADLER_DONE)
        return printf("%u stereo refused %u\n", (unsigned)k, (unsigned)number) >= 0;
    return printf("%u stereo envelopes %u bits %u\n", (unsigned)k, (unsigned)answer[OARCRADLER_AT_STEREO_ENVELOPES],
        (unsigned)oarcradler_word(answer + OARCRADLER_AT_STEREO_BITS)) >= 0;
}

/* Every payload of an image whose header is sound, up to a line that is not printed. Whether all were. */
static int play_payloads(size_t size, uint32_t count, uint32_t index)
{
    static uint8_t parts[OARCRADLER_MOST_PARTS];
    uint8_t state[OARCRADLER_SIZE_STATE];
    if (oarcradler_fresh_state(state, sizeof state) != OARCRADLER_DONE)
        return 0;
    if (oarcradler_find_parts(image, size, parts, sizeof parts) != OARCRADLER_DONE)
        return 0;
    for (uint32_t k = 0; k < count; k++) {
        const uint8_t *part = parts + OARCRADLER_SIZE_PART * k;
        uint32_t start = oarcradler_word(part + OARCRADLER_AT_PART_START), end = oarcradler_word(part + OARCRADLER_AT_PART_END);
        if (!(k % 2 == 0 ? play_channel(k, size, start, end, index) : play_stereo(k, size, start, end, state)))
            return 0;
    }
    return 1;
}

/* An image; one whose header is unsound is refused as a whole. Whether every line was printed. */
static int play_image(size_t size)
{
    uint8_t header[OARCRADLER_SIZE_HEADER];
    uint32_t number = oarcradler_number(oarcradler_read_header(image, size, header, sizeof header));
    if (number != OARCRADLER_DONE)
        return printf("image refused %u\n", (unsigned)number) >= 0;
    uint32_t count = oarcradler_word(header + OARCRADLER_AT_HEADER_COUNT);
    if (printf("payloads %u\n", (unsigned)count) < 0)
        return 0;
    return play_payloads(size, count, oarcradler_word(header + OARCRADLER_AT_HEADER_INDEX));
}

/* Input that cannot be read is no image, and lines that are lost are told: each with a sentence on standard error and status 1. */
int main(void)
{
    size_t size = fread(image, 1, sizeof image, stdin);
    if (ferror(stdin)) {
        fputs("play: standard input cannot be read\n", stderr);
        return 1;
    }
    int played = play_image(size);
    if (fclose(stdout) != 0 || !played) {
        fputs("play: standard output cannot be written: lines are missing\n", stderr);
        return 1;
    }
    return 0;
}
