/* wake: the chip wakes at a new post. Standard input has the stereo state as it was kept while the chip slept, then the new post's image; a
 * line is printed for each stereo payload, then the state to keep, in hexadecimal. Nothing of the last post is played. */
#include <stdio.h>

#include "oarcradler.h"

/* One byte more than an image may have, so that a longer input is seen. */
static uint8_t image[OARCRADLER_MOST_IMAGE + 1];

/* A kept state at a new post: a payload is reported missing, so that nothing is answered before a restart. Kept bytes that are no state,
 * because the memory lost them, are refused with 4, and the fresh state takes their place. */
static uint32_t begin_post(uint8_t *state)
{
    uint32_t number = oarcradler_number(oarcradler_report_missing(state, OARCRADLER_SIZE_STATE));
    if (number != OARCRADLER_REFUSED_UNSOUND_STATE)
        return number;
    return oarcradler_fresh_state(state, OARCRADLER_SIZE_STATE);
}

/* A stereo payload: a handset hands its numbers to the sound chip here, or mutes and logs why, and at which bit. */
static void play_stereo(uint32_t k, size_t size, const uint8_t *part, uint8_t *state)
{
    static uint8_t answer[OARCRADLER_SIZE_STEREO];
    uint32_t returned = oarcradler_read_stereo(state, OARCRADLER_SIZE_STATE, image, size,
        oarcradler_word(part + OARCRADLER_AT_PART_START), oarcradler_word(part + OARCRADLER_AT_PART_END), answer, sizeof answer);
    if (returned == OARCRADLER_DONE)
        printf("%u stereo envelopes %u\n", (unsigned)k, (unsigned)answer[OARCRADLER_AT_STEREO_ENVELOPES]);
    else
        printf("%u stereo refused %u at bit %u, %s: %s\n", (unsigned)k, (unsigned)oarcradler_number(returned),
            (unsigned)oarcradler_place(returned), oarcradler_name(returned), oarcradler_sentence(returned));
}

/* Every stereo payload of an image, or why there is none. */
static void play_post(size_t size, uint8_t *state)
{
    static uint8_t parts[OARCRADLER_MOST_PARTS];
    uint8_t header[OARCRADLER_SIZE_HEADER];
    uint32_t number = oarcradler_number(oarcradler_read_header(image, size, header, sizeof header));
    if (number == OARCRADLER_DONE)
        number = oarcradler_number(oarcradler_find_parts(image, size, parts, sizeof parts));
    uint32_t count = number == OARCRADLER_DONE ? oarcradler_word(header + OARCRADLER_AT_HEADER_COUNT) : 0;
    if (number != OARCRADLER_DONE)
        printf("image refused %u, %s: %s\n", (unsigned)number, oarcradler_name(number), oarcradler_sentence(number));
    for (uint32_t k = 1; k < count; k += 2)
        play_stereo(k, size, parts + OARCRADLER_SIZE_PART * k, state);
}

int main(void)
{
    uint8_t state[OARCRADLER_SIZE_STATE];
    size_t kept = fread(state, 1, sizeof state, stdin), size = fread(image, 1, sizeof image, stdin);
    if (kept != sizeof state || ferror(stdin) || begin_post(state) != OARCRADLER_DONE) {
        fputs("wake: standard input has no state and no image\n", stderr);
        return 1;
    }
    play_post(size, state);
    printf("state ");
    for (size_t k = 0; k < sizeof state; k++)
        printf("%02x", (unsigned)state[k]);
    if (puts("") < 0 || fclose(stdout) != 0) {
        fputs("wake: standard output cannot be written: lines are missing\n", stderr);
        return 1;
    }
    return 0;
}
