/* Channel streams: known ones, and those of an image, read and refused. */
#include <string.h>

#include "calls.h"
#include "cases.h"
#include "oarcradler.h"
#include "places.h"

/* What a call of read_channel left. */
struct reading {
    uint32_t returned;
    int16_t lines[OARCRADLER_SIZE_LINES];
    uint8_t factors[OARCRADLER_SIZE_FACTORS], books[OARCRADLER_SIZE_BOOKS], answer[OARCRADLER_SIZE_CHANNEL];
};

static struct channel_call read;

/* Buffers for a stream: so many other bytes on either side of it, and outputs so much longer than needed. */
static void lend_read(const uint8_t *payload, size_t size, size_t around, size_t longer, unsigned seed)
{
    lend(&read.buffer, around + size + around, seed);
    memcpy(bytes_of(&read.buffer) + around, payload, size);
    lend(&read.lines, (OARCRADLER_SIZE_LINES + longer) * sizeof(int16_t), seed + 1);
    lend(&read.factors, OARCRADLER_SIZE_FACTORS + longer, seed + 2);
    lend(&read.books, OARCRADLER_SIZE_BOOKS + longer, seed + 3);
    lend(&read.answer, OARCRADLER_SIZE_CHANNEL + longer, seed + 4);
}

/* One reading in such buffers. */
static struct reading read_in(const uint8_t *payload, size_t size, uint32_t index, size_t around, size_t longer, unsigned seed)
{
    struct reading r;
    lend_read(payload, size, around, longer, seed);
    r.returned = call_read_channel(&read, (uint32_t)around, (uint32_t)(around + size), index);
    memcpy(r.lines, bytes_of(&read.lines), sizeof r.lines);
    memcpy(r.factors, bytes_of(&read.factors), sizeof r.factors);
    memcpy(r.books, bytes_of(&read.books), sizeof r.books);
    memcpy(r.answer, bytes_of(&read.answer), sizeof r.answer);
    return r;
}

/* The same whatever stood around the stream and in the outputs before, and in longer buffers. */
static struct reading read_twice(const uint8_t *payload, size_t size, uint32_t index)
{
    struct reading one = read_in(payload, size, index, 5, 0, 1), two = read_in(payload, size, index, 0, 9, 2);
    expect_number(two.returned, one.returned, "read_channel: number or place depend on bytes outside the stream");
    if (one.returned == 0) {
        expect(memcmp(one.lines, two.lines, sizeof one.lines) == 0, "read_channel: a line was not written");
        expect(memcmp(one.factors, two.factors, sizeof one.factors) == 0, "read_channel: a scale factor was not written");
        expect(memcmp(one.books, two.books, sizeof one.books) == 0, "read_channel: a book was not written");
        expect(memcmp(one.answer, two.answer, sizeof one.answer) == 0, "read_channel: a byte of the answer was not written");
    }
    return one;
}

/* Scale factors and books are 0 past group times max_sfb; the groups' windows are one or eight, and 0 past the last. */
static void test_unused(const struct reading *r)
{
    unsigned groups = r->answer[OARCRADLER_AT_CHANNEL_GROUP_COUNT], windows = 0;
    size_t used = groups * r->answer[OARCRADLER_AT_CHANNEL_MAX_SFB];
    for (size_t k = used; k < OARCRADLER_SIZE_BOOKS; k++)
        expect(r->factors[k] == 0 && r->books[k] == 0, "read_channel: a scale factor or a book past the last");
    for (unsigned k = 0; k < 8; k++) {
        windows += r->answer[OARCRADLER_AT_CHANNEL_GROUPS + k];
        expect((r->answer[OARCRADLER_AT_CHANNEL_GROUPS + k] != 0) == (k < groups), "read_channel: windows of a group that is not there");
    }
    expect_number(windows, r->answer[OARCRADLER_AT_CHANNEL_SEQUENCE] == 2 ? 8 : 1, "read_channel: windows in all");
}

/* Where a stream is refused: without the bytes after its first unused bit, it is accepted; without those from the field at fault on, bits
 * run out there. */
static void test_place(const uint8_t *payload, uint32_t returned, uint32_t index)
{
    uint32_t number = oarcradler_number(returned), place = oarcradler_place(returned);
    if (number == OARCRADLER_REFUSED_BITS_LEFT) {
        struct reading cut = read_in(payload, (place + 7) / 8, index, 0, 0, 10);
        expect_number(cut.returned, 0, "read_channel of a stream without its unused bytes");
        expect_number(oarcradler_word(cut.answer + OARCRADLER_AT_CHANNEL_BITS), place, "read_channel: not the first bit unused");
    } else if (has_place(number) && place % 8 == 0) {
        uint32_t cut = read_in(payload, place / 8, index, 0, 0, 11).returned;
        expect_returned(cut, 10, place, "read_channel of a stream that is cut where it is refused");
    }
}

/* Ranges outside the buffer. */
static void test_bad_ranges(const uint8_t *payload, size_t size, uint32_t index)
{
    uint32_t last = (uint32_t)size;
    lend_read(payload, size, 0, 0, 3);
    expect_number(call_read_channel(&read, 0, last + 1, index), 1, "read_channel: end past the buffer");
    expect_number(call_read_channel(&read, last + 1, last + 1, index), 1, "read_channel: start past the buffer");
    expect_number(call_read_channel(&read, 1, 0, index), 1, "read_channel: start after end");
    expect_number(call_read_channel(&read, 0, UINT32_MAX, index), 1, "read_channel: end at 2^32 - 1");
    expect_number(call_read_channel(&read, UINT32_MAX, UINT32_MAX, index), 1, "read_channel: start at 2^32 - 1");
    expect_number(call_read_channel(&read, UINT32_MAX, 0, 259), 1, "read_channel: start at 2^32 - 1, end at 0, and no index");
    expect_number(call_read_channel(&read, PAST_32_BITS, PAST_32_BITS + last, index), 1, "read_channel: 2^32 further on");
    expect_number(call_read_channel(&read, 0, PAST_32_BITS + last, index), 1, "read_channel: an end 2^32 further on");
}

/* Indices that are unknown, one and then with an output that is too short. */
static void test_bad_indices(const uint8_t *payload, size_t size)
{
    static const uint32_t unknown[] = { 0, 1, 2, 5, 8, 255, 256, 259, 260, 262, 65539, 16777219, 2147483651u, UINT32_MAX };
    lend_read(payload, size, 0, 0, 4);
    for (size_t k = 0; k < sizeof unknown / sizeof *unknown; k++)
        expect_number(call_read_channel(&read, 0, (uint32_t)size, unknown[k]), 3, "read_channel: an unknown index");
}

/* Each output one too short, with an index that is known and one that is not, and with a bad range. */
static void test_short_outputs(const uint8_t *payload, size_t size, uint32_t index)
{
    for (int which = 0; which < 4; which++) {
        lend_read(payload, size, 0, 0, 5);
        if (which == 0)
            lend(&read.lines, (OARCRADLER_SIZE_LINES - 1) * sizeof(int16_t), 6);
        else if (which == 1)
            lend(&read.factors, OARCRADLER_SIZE_FACTORS - 1, 7);
        else if (which == 2)
            lend(&read.books, OARCRADLER_SIZE_BOOKS - 1, 8);
        else
            lend(&read.answer, OARCRADLER_SIZE_CHANNEL - 1, 9);
        expect_number(call_read_channel(&read, 0, (uint32_t)size, index), 2, "read_channel: an output one too short");
        expect_number(call_read_channel(&read, 0, (uint32_t)size, 259), 2, "read_channel: an output one too short, and no index");
        expect_number(call_read_channel(&read, 1, 0, index), 1, "read_channel: an output one too short, and start after end");
    }
}

void test_channel_payload(const uint8_t *payload, size_t size, uint32_t index)
{
    struct reading r = read_twice(payload, size, index);
    if (r.returned == 0)
        test_unused(&r);
    test_place(payload, r.returned, index);
    test_bad_ranges(payload, size, index);
    test_bad_indices(payload, size);
    test_short_outputs(payload, size, index);
}

/* Streams whose numbers and places the rules give. The last are a line of 8191 to which a pulse adds, the second of two or the only one,
 * and an escape that is too long, or cut. */
static const struct {
    uint32_t index;
    uint8_t bytes[12];
    size_t size;
    uint32_t number, place;
} bench[] = { { 3, { 255, 0, 66, 26 }, 4, 24, 28 }, { 3, { 0, 0, 66, 24 }, 4, 24, 28 }, { 3, { 100, 0, 66, 31 }, 4, 10, 28 },
    { 6, { 0 }, 0, 10, 0 }, { 6, { 100 }, 1, 10, 8 }, { 4, { 100, 0, 0, 0 }, 4, 12, 22 }, { 7, { 100, 128, 0 }, 3, 13, 8 },
    { 3, { 100, 12, 128 }, 3, 21, 12 }, { 6, { 100, 12, 0 }, 3, 21, 12 }, { 3, { 100, 0, 32 }, 3, 20, 18 }, { 4, { 100, 0, 8 }, 3, 20, 20 },
    { 4, { 100, 0, 4 }, 3, 20, 21 }, { 3, { 100, 0, 88 }, 3, 23, 19 }, { 3, { 100, 0, 66, 0 }, 4, 22, 23 },
    { 3, { 100, 7, 195, 240, 128 }, 5, 22, 28 }, { 7, { 100, 64, 1 }, 3, 25, 23 }, { 3, { 100, 0, 19, 16 }, 4, 25, 22 },
    { 3, { 100, 0, 31, 15, 135, 195, 225, 240 }, 8, 25, 55 }, { 6, { 100, 0, 26, 239, 135, 195, 224 }, 7, 25, 46 },
    { 3, { 100, 0, 86, 21, 0, 0, 1, 56, 79, 247, 255, 128 }, 12, 26, 47 },
    { 3, { 100, 0, 86, 20, 0, 2, 112, 159, 239, 255, 0 }, 11, 26, 38 }, { 3, { 100, 0, 86, 16, 225, 63, 224 }, 7, 26, 42 },
    { 3, { 100, 0, 86, 16, 225, 63 }, 6, 10, 42 } };

static void test_bench(void)
{
    for (size_t k = 0; k < sizeof bench / sizeof *bench; k++) {
        struct reading r = read_twice(bench[k].bytes, bench[k].size, bench[k].index);
        expect_returned(r.returned, bench[k].number, bench[k].place, "read_channel of a bench example");
        test_channel_payload(bench[k].bytes, bench[k].size, bench[k].index);
        test_wrapped_payload(bench[k].bytes, bench[k].size, bench[k].index);
    }
}

/* Silence at every known index. */
static void test_silence(void)
{
    static const uint32_t known[] = { 3, 4, 6, 7 };
    static const uint8_t payload[] = { 100, 0, 0 }, wanted[OARCRADLER_SIZE_CHANNEL] = { 0, 0, 0, 22, 100, 0, 0, 0, 1, 1 };
    for (size_t k = 0; k < sizeof known / sizeof *known; k++) {
        struct reading r = read_twice(payload, sizeof payload, known[k]);
        expect_number(r.returned, 0, "read_channel of silence");
        expect(memcmp(r.answer, wanted, sizeof wanted) == 0, "read_channel: the answer of silence");
        for (size_t line = 0; line < OARCRADLER_SIZE_LINES; line++)
            expect(r.lines[line] == 0, "read_channel: a line of silence");
        test_channel_payload(payload, sizeof payload, known[k]);
    }
}

void test_known_channel(void)
{
    test_bench();
    test_silence();
}
