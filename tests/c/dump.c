/* dump: a tag image on standard input, read by the functions for C and printed in full, as the program dump does. */
#include <stdio.h>

#include "printed.h"

static const char *const kinds[4] = { "iid", "icc", "ipd", "opd" };
static struct image image;

/* 34 indices. */
static void print_indices(const uint8_t *indices)
{
    for (int k = 0; k < OARCRADLER_SIZE_INDICES; k++)
        printf(" %d", indices[k] < 128 ? indices[k] : indices[k] - 256);
    printf("\n");
}

/* A channel stream that was read. */
static void print_channel(uint32_t k, const int16_t *lines, const struct oarcradler_factors *factors, const struct oarcradler_books *books,
    const uint8_t *answer)
{
    printf("%u channel gain %u lines %u bits %u\n", (unsigned)k, (unsigned)answer[OARCRADLER_AT_CHANNEL_GAIN], count_sounding(lines),
        (unsigned)oarcradler_word(answer + OARCRADLER_AT_CHANNEL_BITS));
    print_rows(lines, factors, books, answer);
}

/* A channel stream, read or refused. */
static void dump_channel(uint32_t k, uint32_t start, uint32_t end)
{
    static int16_t lines[OARCRADLER_SIZE_LINES];
    static struct oarcradler_factors factors;
    static struct oarcradler_books books;
    static uint8_t answer[OARCRADLER_SIZE_CHANNEL];
    uint32_t returned = oarcradler_read_channel(image.bytes, image.size, start, end, image.index, lines, OARCRADLER_SIZE_LINES, &factors,
        sizeof factors, &books, sizeof books, answer, sizeof answer);
    if (returned != 0) {
        printf("%u channel ", (unsigned)k);
        print_refused(returned);
    } else {
        print_channel(k, lines, &factors, &books, answer);
    }
}

/* A mode, or a dash where there is none. */
static void print_mode(const char *word, int there, uint8_t mode)
{
    if (there)
        printf(" %s %u", word, (unsigned)mode);
    else
        printf(" %s -", word);
}

/* A stereo payload's header. */
static void print_header(const uint8_t *answer)
{
    if (!answer[OARCRADLER_AT_STEREO_HEADER]) {
        printf("  header -\n");
        return;
    }
    printf("  header");
    print_mode("iid", answer[OARCRADLER_AT_STEREO_IID_ON], answer[OARCRADLER_AT_STEREO_IID_MODE]);
    print_mode("icc", answer[OARCRADLER_AT_STEREO_ICC_ON], answer[OARCRADLER_AT_STEREO_ICC_MODE]);
    printf(" ext %u\n", (unsigned)answer[OARCRADLER_AT_STEREO_EXTENSION_ON]);
}

/* An envelope: how each kind that was sent is coded, and the indices. */
static void print_envelope(unsigned e, const uint8_t *state, const uint8_t *answer)
{
    const uint8_t *rows = answer + OARCRADLER_AT_STEREO_FIRST + OARCRADLER_SIZE_ENVELOPE * e;
    uint8_t phase = answer[OARCRADLER_AT_STEREO_PHASE];
    const uint8_t sent[4] = { state[OARCRADLER_AT_STATE_IID_ON], state[OARCRADLER_AT_STATE_ICC_ON], phase, phase };
    printf("  envelope %u", e);
    for (int kind = 0; kind < 4; kind++)
        printf(" %s %s", kinds[kind], !sent[kind] ? "-" : rows[OARCRADLER_SIZE_ROW * kind] ? "t" : "f");
    printf("\n");
    for (int kind = 0; kind < 4; kind++) {
        printf("  %s", kinds[kind]);
        print_indices(rows + OARCRADLER_SIZE_ROW * kind + 1);
    }
}

/* A stereo payload's extension. */
static void print_extension(const uint8_t *answer)
{
    unsigned size = answer[OARCRADLER_AT_STEREO_SIZE] + answer[OARCRADLER_AT_STEREO_ESC], count = answer[OARCRADLER_AT_STEREO_FILL_COUNT];
    if (!answer[OARCRADLER_AT_STEREO_EXTENSION]) {
        printf("  extension -\n");
        return;
    }
    printf("  extension size %u", size);
    if (size != 0) {
        printf(" phase %u fill %s", (unsigned)answer[OARCRADLER_AT_STEREO_PHASE], count ? "" : "-");
        for (unsigned bit = count; bit > 0; bit--)
            printf("%d", answer[OARCRADLER_AT_STEREO_FILL] >> (bit - 1) & 1);
    }
    printf("\n");
}

/* The stereo state. */
static void print_state(const uint8_t *state)
{
    static const size_t records[4] = { OARCRADLER_AT_STATE_IID, OARCRADLER_AT_STATE_ICC, OARCRADLER_AT_STATE_IPD, OARCRADLER_AT_STATE_OPD };
    uint8_t iid = state[OARCRADLER_AT_STATE_IID_MODE], icc = state[OARCRADLER_AT_STATE_ICC_MODE];
    printf("  state");
    print_mode("iid", iid != OARCRADLER_MODE_NONE, iid);
    print_mode("icc", icc != OARCRADLER_MODE_NONE, icc);
    printf(" enabled %u %u %u step %u\n", (unsigned)state[OARCRADLER_AT_STATE_IID_ON], (unsigned)state[OARCRADLER_AT_STATE_ICC_ON],
        (unsigned)state[OARCRADLER_AT_STATE_EXTENSION_ON], (unsigned)state[OARCRADLER_AT_STATE_IN_STEP]);
    for (int kind = 0; kind < 4; kind++) {
        const uint8_t *held = state + records[kind];
        printf("  record");
        print_mode(kinds[kind], held[0] != OARCRADLER_MODE_NONE, held[0]);
        if (held[0] != OARCRADLER_MODE_NONE)
            print_indices(held + 1);
        else
            printf("\n");
    }
}

/* A stereo payload, read or refused, and the state after it. */
static void dump_stereo(uint32_t k, uint32_t start, uint32_t end, uint8_t *state)
{
    static uint8_t answer[OARCRADLER_SIZE_STEREO];
    uint32_t returned = oarcradler_read_stereo(state, OARCRADLER_SIZE_STATE, image.bytes, image.size, start, end, answer, sizeof answer);
    if (returned != 0) {
        printf("%u stereo ", (unsigned)k);
        print_refused(returned);
    } else {
        unsigned count = answer[OARCRADLER_AT_STEREO_ENVELOPES], class = answer[OARCRADLER_AT_STEREO_CLASS];
        printf("%u stereo envelopes %u bits %u\n", (unsigned)k, count, (unsigned)oarcradler_word(answer));
        print_header(answer);
        printf("  class %u", class);
        print_bytes(" borders", answer + OARCRADLER_AT_STEREO_BORDERS, class ? count : 0);
        for (unsigned e = 0; e < count; e++)
            print_envelope(e, state, answer);
        print_extension(answer);
    }
    print_state(state);
}

/* An image, payload by payload. */
int main(void)
{
    uint8_t part[OARCRADLER_SIZE_PART], state[OARCRADLER_SIZE_STATE];
    if (!read_image(&image))
        return 0;
    printf("payloads %u\n", (unsigned)image.count);
    if (oarcradler_fresh_state(state, sizeof state) != 0)
        return 1;
    for (uint32_t k = 0; k < image.count; k++) {
        if (oarcradler_find_part(image.bytes, image.size, k, part, sizeof part) != 0)
            return 1;
        uint32_t start = oarcradler_word(part + OARCRADLER_AT_PART_START), end = oarcradler_word(part + OARCRADLER_AT_PART_END);
        if (k % 2 == 0)
            dump_channel(k, start, end);
        else
            dump_stereo(k, start, end, state);
    }
    return 0;
}
