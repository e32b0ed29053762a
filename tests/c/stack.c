/* stack: how deep the stack of each function goes, over the images on standard input (as harness reads them): what is free below the stack is
 * painted before each call and looked at after it. Counted from the frame of the calling function, so that what it hands over is in it. */
#include <stdio.h>
#include <string.h>

#include "oarcradler.h"

enum { STACK = 20480, LIMIT = 12288, ENTRIES = 12, LEAST_CALLS = 40000, OWN = 256 };

static const uint64_t paint = 0xa5a5a5a5a5a5a5a5u;

static const struct {
    const char *name;
    size_t enough;
} entries[ENTRIES] = { { "oarcradler_fresh_state", OARCRADLER_STACK_FRESH_STATE },
    { "oarcradler_report_missing", OARCRADLER_STACK_REPORT_MISSING }, { "oarcradler_read_stereo", OARCRADLER_STACK_READ_STEREO },
    { "oarcradler_write_stereo", OARCRADLER_STACK_WRITE_STEREO }, { "oarcradler_read_channel", OARCRADLER_STACK_READ_CHANNEL },
    { "oarcradler_read_header", OARCRADLER_STACK_READ_HEADER }, { "oarcradler_find_part", OARCRADLER_STACK_FIND_PART },
    { "oarcradler_read_frame", OARCRADLER_STACK_READ_FRAME }, { "oarcradler_unwrap_frame", OARCRADLER_STACK_UNWRAP_FRAME },
    { "oarcradler_wrap_stream", OARCRADLER_STACK_WRAP_STREAM }, { "oarcradler_find_parts", OARCRADLER_STACK_FIND_PARTS },
    { "oarcradler_version", OARCRADLER_STACK_VERSION } };
static uint8_t *frame;
static size_t deepest[ENTRIES];
static unsigned long called[ENTRIES], measured;

/* The buffers of the call that is measured, and what it returned. */
static uint8_t image[70000], state[OARCRADLER_SIZE_STATE], answer[OARCRADLER_SIZE_STEREO], out[OARCRADLER_MOST_WRITTEN], words[OARCRADLER_SIZE_HEADER];
static struct oarcradler_factors factors;
static struct oarcradler_books books;
static uint8_t parts[OARCRADLER_MOST_PARTS];
static uint8_t adts_frame[OARCRADLER_MOST_WRAPPED], stream[OARCRADLER_MOST_STREAM], length[OARCRADLER_SIZE_WRAPPED];
static int16_t lines[OARCRADLER_SIZE_LINES];
static const uint8_t *file;
static size_t size, file_size, first;
static uint64_t start, end;
static uint32_t index, returned;
static int entry;

/* The call, made over the painted stack. */
static __attribute__((noinline)) void call_entry(void)
{
    frame = __builtin_frame_address(0);
    switch (entry) {
    case 0: returned = oarcradler_fresh_state(state, sizeof state); break;
    case 1: returned = oarcradler_report_missing(state, sizeof state); break;
    case 2: returned = oarcradler_read_stereo(state, sizeof state, image, size, start, end, answer, sizeof answer); break;
    case 3: returned = oarcradler_write_stereo(state, sizeof state, answer, sizeof answer, out, sizeof out, words, sizeof words); break;
    case 4:
        returned = oarcradler_read_channel(image, size, start, end, index, lines, OARCRADLER_SIZE_LINES, &factors, sizeof factors, &books,
            sizeof books, answer, sizeof answer);
        break;
    case 5: returned = oarcradler_read_header(image, size, words, sizeof words); break;
    case 6: returned = oarcradler_find_part(image, size, (uint32_t)start, words, sizeof words); break;
    case 7:
        returned = oarcradler_read_frame(file, file_size, first, lines, OARCRADLER_SIZE_LINES, &factors, sizeof factors, &books,
            sizeof books, answer, sizeof answer);
        break;
    case 8: returned = oarcradler_unwrap_frame(file, file_size, first, stream, sizeof stream, answer, sizeof answer); break;
    case 9:
        returned = oarcradler_wrap_stream(image, size, start, end, index, adts_frame, sizeof adts_frame, length, sizeof length);
        break;
    case 10: returned = oarcradler_find_parts(image, size, parts, sizeof parts); break;
    default: returned = oarcradler_version();
    }
}

/* So much stack is there: it is touched once, so that the system has given it. */
static __attribute__((noinline)) void reserve(void)
{
    volatile uint8_t room[STACK + STACK / 8];
    for (size_t k = 0; k < sizeof room; k += 64)
        room[k] = 0;
}

/* The call, made from below what a measuring function itself uses. */
static __attribute__((noinline)) void call_lower(void)
{
    volatile uint8_t own[OWN];
    own[0] = 0;
    call_entry();
    own[OWN - 1] = own[0];
}

/* One call of an entry, and how far below the calling frame the paint is gone. All is painted for an image's first call, then what was
 * touched. */
static __attribute__((noinline)) uint32_t measure(int which)
{
    static volatile uint64_t *lowest, *touched;
    uintptr_t here = (uintptr_t)__builtin_frame_address(0) & ~(uintptr_t)7;
    volatile uint64_t *top = (volatile uint64_t *)(here - OWN);
    if (lowest == 0)
        lowest = (volatile uint64_t *)(here - STACK);
    for (volatile uint64_t *word = which == 0 ? lowest : touched; word < top; word++)
        *word = paint;
    entry = which;
    call_lower();
    for (touched = lowest; touched < top && *touched == paint;)
        touched++;
    size_t depth = (uintptr_t)touched < (uintptr_t)frame ? (uintptr_t)frame - (uintptr_t)touched : 0;
    if (depth > deepest[which])
        deepest[which] = depth;
    called[which]++;
    measured++;
    return returned;
}

/* A stereo payload; what was read, and the same altered, written from the state before; the payload read out of step. The state moves on. */
static void measure_stereo(void)
{
    uint8_t before[OARCRADLER_SIZE_STATE], after[OARCRADLER_SIZE_STATE];
    memcpy(before, state, sizeof before);
    uint32_t read = measure(2);
    memcpy(after, state, sizeof after);
    if (read == 0) {
        memcpy(state, before, sizeof state);
        measure(3);
        memcpy(state, before, sizeof state);
        answer[OARCRADLER_AT_STEREO_FIRST] ^= 3;
        measure(3);
    }
    memcpy(state, before, sizeof state);
    measure(1);
    measure(2);
    memcpy(state, after, sizeof state);
}

/* A channel stream, read and wrapped; the frame that wraps it, whole and cut by a byte, and the image itself as a file, read and cut. */
static void measure_channel(void)
{
    measure(4);
    if (measure(9) == 0) {
        file = adts_frame, first = 0, file_size = oarcradler_word(length + OARCRADLER_AT_WRAPPED_LENGTH);
        measure(7);
        measure(8);
        file_size--;
        measure(7);
        measure(8);
    }
    file = image, first = start, file_size = size;
    measure(7);
    measure(8);
}

/* Each function over each payload of an image. */
static void measure_image(void)
{
    measure(0);
    measure(10);
    measure(11);
    if (measure(5) != 0)
        return;
    uint32_t count = oarcradler_word(words);
    index = oarcradler_word(words + OARCRADLER_AT_HEADER_INDEX);
    for (uint32_t k = 0; k < count; k++) {
        start = k;
        if (measure(6) != 0)
            return;
        start = oarcradler_word(words + OARCRADLER_AT_PART_START);
        end = oarcradler_word(words + OARCRADLER_AT_PART_END);
        if (k % 2 == 0)
            measure_channel();
        else
            measure_stereo();
    }
}

/* The next word of standard input. Whether there is one. */
static int next_word(uint32_t *value)
{
    uint8_t word[4];
    if (fread(word, 1, sizeof word, stdin) != sizeof word)
        return 0;
    *value = oarcradler_word(word);
    return 1;
}

/* Every image of standard input. Whether they were all there. */
static int measure_images(void)
{
    uint32_t images, length_of_one;
    if (!next_word(&images))
        return 0;
    while (images-- > 0) {
        if (!next_word(&length_of_one) || length_of_one > sizeof image || fread(image, 1, length_of_one, stdin) != length_of_one)
            return 0;
        size = length_of_one;
        measure_image();
    }
    return 1;
}

/* Every image, then what each function took. */
int main(void)
{
    int over = 0;
    reserve();
    if (!measure_images())
        return 2;
    for (int k = 0; k < ENTRIES; k++) {
        int deep = deepest[k] > entries[k].enough || deepest[k] > LIMIT;
        printf("%s: %lu bytes of stack%s\n", entries[k].name, (unsigned long)deepest[k], deep ? ", MORE THAN THE HEADER SAYS" : "");
        over |= deep || called[k] == 0;
    }
    printf("%lu calls measured\n", measured);
    return over || measured < LEAST_CALLS;
}
