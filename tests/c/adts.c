/* ADTS frames: known ones, and those that wrap the channel streams of an image; read, cut, wrapped and refused. */
#include <string.h>

#include "calls.h"
#include "cases.h"
#include "oarcradler.h"
#include "places.h"

enum { HEADER_BYTES = 7, FIRST_BIT = 63 };

/* What read_channel, or read_frame and unwrap_frame, left of a stream. */
struct found {
    uint32_t returned;
    int16_t lines[OARCRADLER_SIZE_LINES];
    struct oarcradler_factors factors;
    struct oarcradler_books books;
    uint8_t answer[OARCRADLER_SIZE_FRAME], stream[OARCRADLER_MOST_STREAM];
};

static struct frame_call frame;
static struct unwrap_call unwrap;
static struct wrap_call wrap;

/* How many bytes the bits of an answer take. */
static size_t stream_size(const uint8_t *answer)
{
    return (oarcradler_word(answer + OARCRADLER_AT_CHANNEL_BITS) + 7) / 8;
}

/* A bit of some bytes. */
static unsigned bit_of(const uint8_t *bytes, size_t place)
{
    return bytes[place / 8] >> (7 - place % 8) & 1u;
}

/* Bits are copied into bytes that are 0 there. */
static void copy_bits(uint8_t *to, size_t to_place, const uint8_t *from, size_t from_place, size_t count)
{
    for (size_t k = 0; k < count; k++)
        to[(to_place + k) / 8] |= (uint8_t)(bit_of(from, from_place + k) << (7 - (to_place + k) % 8));
}

/* The frame that the rules give for a stream of so many bits. Its length. */
static size_t ruled_frame(uint8_t *out, const uint8_t *stream, size_t bits, uint32_t index)
{
    static const uint8_t end[] = { 0xe0 };
    size_t length = (FIRST_BIT + bits + 3 + 7) / 8;
    const uint8_t header[HEADER_BYTES] = { 0xff, 0xf1, (uint8_t)(0x40 | index << 2), (uint8_t)(0x40 | length >> 11), (uint8_t)(length >> 3),
        (uint8_t)(length << 5 | 0x1f), 0xfc };
    memset(out, 0, length);
    memcpy(out, header, sizeof header);
    copy_bits(out, FIRST_BIT, stream, 0, bits);
    copy_bits(out, FIRST_BIT + bits, end, 0, 3);
    return length;
}

/* Bytes lent as a file, so many others before and after them, to both functions that read one. */
static void lend_file(const uint8_t *bytes, size_t size, size_t before, size_t after, unsigned seed)
{
    lend(&frame.file, before + size + after, seed);
    lend(&unwrap.file, before + size + after, seed);
    memcpy(bytes_of(&frame.file) + before, bytes, size);
    memcpy(bytes_of(&unwrap.file) + before, bytes, size);
}

/* Outputs so much longer than needed, but for the stream, which has this room. */
static void lend_outputs(size_t longer, size_t room, unsigned seed)
{
    lend(&frame.lines, (OARCRADLER_SIZE_LINES + longer) * sizeof(int16_t), seed + 1);
    lend(&frame.factors, OARCRADLER_SIZE_FACTORS + longer, seed + 2);
    lend(&frame.books, OARCRADLER_SIZE_BOOKS + longer, seed + 3);
    lend(&frame.answer, OARCRADLER_SIZE_FRAME + longer, seed + 4);
    lend(&unwrap.answer, OARCRADLER_SIZE_FRAME + longer, seed + 5);
    lend(&unwrap.out, room, seed + 6);
}

/* The frame at a start of the lent file, read and cut: both say the same. */
static uint32_t read_and_cut(size_t start)
{
    uint32_t returned = call_read_frame(&frame, start);
    expect_number(call_unwrap_frame(&unwrap, start), returned, "unwrap_frame: not the number and the place of read_frame");
    if (returned == 0)
        expect(memcmp(bytes_of(&frame.answer), bytes_of(&unwrap.answer), OARCRADLER_SIZE_FRAME) == 0,
            "unwrap_frame: not the answer of read_frame");
    return returned;
}

/* What is left of a frame that was read and cut. */
static struct found found_frame(uint32_t returned)
{
    struct found found = { .returned = returned };
    if (returned != 0)
        return found;
    memcpy(found.lines, bytes_of(&frame.lines), sizeof found.lines);
    memcpy(&found.factors, bytes_of(&frame.factors), sizeof found.factors);
    memcpy(&found.books, bytes_of(&frame.books), sizeof found.books);
    memcpy(found.answer, bytes_of(&frame.answer), sizeof found.answer);
    memcpy(found.stream, bytes_of(&unwrap.out), stream_size(found.answer));
    return found;
}

/* One frame in bytes that are all its own, read in two surroundings: nothing outside it counts. */
static struct found read_twice(const uint8_t *bytes, size_t size, unsigned seed)
{
    lend_file(bytes, size, 5, 3, seed);
    lend_outputs(0, OARCRADLER_MOST_STREAM, seed);
    struct found one = found_frame(read_and_cut(5));
    lend_file(bytes, size, 0, 0, seed + 10);
    lend_outputs(9, OARCRADLER_MOST_STREAM, seed + 10);
    struct found two = found_frame(read_and_cut(0));
    expect(memcmp(&one, &two, sizeof one) == 0, "read_frame, unwrap_frame: bytes outside the frame count, or a byte was not written");
    return two;
}

/* Room for a stream, every one in a list: just enough of it is taken, and less is 2, and leaves a refusal of the frame as it is. */
static void test_rooms(const struct found *known, const size_t *rooms, size_t count)
{
    for (size_t k = 0; k < count; k++) {
        int enough = rooms[k] >= stream_size(known->answer);
        uint32_t wanted = known->returned != 0 ? known->returned : enough ? 0 : 2;
        lend(&unwrap.out, rooms[k], 40);
        expect_number(call_unwrap_frame(&unwrap, 0), wanted, "unwrap_frame: room for the stream");
        if (wanted == 0)
            expect(memcmp(bytes_of(&unwrap.out), known->stream, stream_size(known->answer)) == 0, "unwrap_frame: the stream in just its room");
    }
}

/* Starts past the lent file, whatever it holds. */
static void test_bad_starts(size_t size)
{
    const size_t past[] = { size + 1, size + 2, size + HEADER_BYTES, SIZE_MAX / 8, SIZE_MAX / 8 + 1, SIZE_MAX / 2, SIZE_MAX - HEADER_BYTES,
        SIZE_MAX - 1, SIZE_MAX };
    for (size_t k = 0; k < sizeof past / sizeof *past; k++)
        expect_number(read_and_cut(past[k]), 1, "read_frame, unwrap_frame: a start past the file");
}

/* Each output of the two one too short, at a start that is in the file and at one that is not. */
static void test_short_outputs(size_t size)
{
    for (int which = 0; which < 4; which++) {
        lend_outputs(0, 0, 50);
        if (which == 0)
            lend(&frame.lines, (OARCRADLER_SIZE_LINES - 1) * sizeof(int16_t), 51);
        else if (which == 1)
            lend(&frame.factors, OARCRADLER_SIZE_FACTORS - 1, 52);
        else if (which == 2)
            lend(&frame.books, OARCRADLER_SIZE_BOOKS - 1, 53);
        else
            lend(&frame.answer, OARCRADLER_SIZE_FRAME - 1, 54);
        expect_number(call_read_frame(&frame, 0), 2, "read_frame: an output one too short");
        expect_number(call_read_frame(&frame, size), 2, "read_frame: an output one too short at the file's end");
        expect_number(call_read_frame(&frame, size + 1), 1, "read_frame: an output one too short, and a start past the file");
    }
    lend(&unwrap.answer, OARCRADLER_SIZE_FRAME - 1, 55);
    expect_number(call_unwrap_frame(&unwrap, 0), 2, "unwrap_frame: an answer one too short");
    expect_number(call_unwrap_frame(&unwrap, size), 2, "unwrap_frame: an answer one too short at the file's end");
    expect_number(call_unwrap_frame(&unwrap, size + 1), 1, "unwrap_frame: an answer one too short, and a start past the file");
}

/* The lent file, refused in every way that does not go by what it holds. */
static void test_refusals(const struct found *known, size_t size)
{
    size_t needed = stream_size(known->answer);
    const size_t rooms[] = { needed, needed == 0 ? 0 : needed - 1, 0 };
    test_rooms(known, rooms, sizeof rooms / sizeof *rooms);
    test_bad_starts(size);
    expect_number(read_and_cut(size), 10, "read_frame, unwrap_frame: a start at the file's end");
    test_short_outputs(size);
}

/* What read_channel says of a payload, and the bits that it used. */
static struct found read_payload(const uint8_t *payload, size_t size, uint32_t index)
{
    struct found found = { .returned = 0 };
    found.returned = oarcradler_read_channel(payload, size, 0, (uint32_t)size, index, found.lines, OARCRADLER_SIZE_LINES, &found.factors,
        sizeof found.factors, &found.books, sizeof found.books, found.answer, OARCRADLER_SIZE_CHANNEL);
    if (found.returned == 0)
        copy_bits(found.stream, 0, payload, 0, oarcradler_word(found.answer + OARCRADLER_AT_CHANNEL_BITS));
    return found;
}

/* A payload with so many other bytes on either side of it, and room for a frame. */
static void lend_payload(const uint8_t *payload, size_t size, size_t around, size_t room, unsigned seed)
{
    lend(&wrap.buffer, around + size + around, seed);
    memcpy(bytes_of(&wrap.buffer) + around, payload, size);
    lend(&wrap.out, room, seed + 1);
    lend(&wrap.answer, OARCRADLER_SIZE_WRAPPED + around, seed + 2);
}

/* The frame that wraps a payload, which the rules give, in room that is more than enough, enough, and one byte short. */
static void test_wrapping(const uint8_t *payload, size_t size, uint32_t index, const uint8_t *ruled, size_t length)
{
    const size_t rooms[] = { OARCRADLER_MOST_WRAPPED, length };
    expect(length <= OARCRADLER_MOST_WRAPPED, "wrap_stream: a frame longer than any");
    for (size_t k = 0; k < sizeof rooms / sizeof *rooms; k++) {
        size_t around = 3 * k;
        lend_payload(payload, size, around, rooms[k], 60 + (unsigned)k);
        expect_number(call_wrap_stream(&wrap, (uint32_t)around, (uint32_t)(around + size), index), 0, "wrap_stream of an accepted stream");
        expect_number(oarcradler_word(bytes_of(&wrap.answer) + OARCRADLER_AT_WRAPPED_LENGTH), (uint32_t)length, "wrap_stream: the frame's length");
        expect(memcmp(bytes_of(&wrap.out), ruled, length) == 0, "wrap_stream: not the frame of the rules");
    }
    lend_payload(payload, size, 0, length - 1, 62);
    expect_number(call_wrap_stream(&wrap, 0, (uint32_t)size, index), 2, "wrap_stream: room one byte short");
    wrapped++;
}

/* The frame of a payload: read and cut it gives what the payload gave. */
static void test_read_back(const struct found *known, uint32_t index, const uint8_t *ruled, size_t length)
{
    struct found found = read_twice(ruled, length, 70);
    expect_number(found.returned, 0, "read_frame of a frame that wraps a stream");
    expect(memcmp(found.lines, known->lines, sizeof found.lines) == 0, "read_frame: other lines than read_channel");
    expect(memcmp(&found.factors, &known->factors, sizeof found.factors) == 0, "read_frame: other scale factors than read_channel");
    expect(memcmp(&found.books, &known->books, sizeof found.books) == 0, "read_frame: other books than read_channel");
    expect(memcmp(found.answer, known->answer, OARCRADLER_SIZE_CHANNEL) == 0, "read_frame: other numbers than read_channel");
    expect_number(oarcradler_word(found.answer + OARCRADLER_AT_FRAME_LENGTH), (uint32_t)length, "read_frame: the frame's length");
    expect_number(found.answer[OARCRADLER_AT_FRAME_INDEX], index, "read_frame: the sampling index");
    expect(memcmp(found.stream, known->stream, sizeof found.stream) == 0, "unwrap_frame: other bits than the payload's");
    size_t needed = stream_size(found.answer);
    const size_t rooms[] = { needed, needed - 1 };
    test_rooms(&found, rooms, 2);
}

/* The bits of a refused payload, in a frame: refused as they are alone, as much further on as the frame has bits before them. Where bits
 * run out, or are left, it hangs on what follows. */
static void test_refused_in_frame(const uint8_t *payload, size_t size, uint32_t index, uint32_t returned)
{
    static uint8_t ruled[OARCRADLER_MOST_FRAME];
    uint32_t number = oarcradler_number(returned);
    int inside = has_place(number) && number != OARCRADLER_REFUSED_NO_BITS && number != OARCRADLER_REFUSED_BITS_LEFT;
    if (!inside || size > sizeof ruled - HEADER_BYTES - 2)
        return;
    struct found found = read_twice(ruled, ruled_frame(ruled, payload, 8 * size, index), 75);
    expect_returned(found.returned, number, FIRST_BIT + oarcradler_place(returned), "read_frame of a frame that holds a refused stream");
}

/* Ranges, answers and indices at fault, each before the next; no room is judged before them, nor before the payload's own refusal. */
static void test_wrap_refusals(const uint8_t *payload, size_t size, uint32_t index, uint32_t returned)
{
    uint32_t end = (uint32_t)size;
    lend_payload(payload, size, 0, 0, 80);
    expect_number(call_wrap_stream(&wrap, 0, end, index), returned != 0 ? returned : 2, "wrap_stream: no room");
    expect_number(call_wrap_stream(&wrap, 0, end, 259), 3, "wrap_stream: an unknown index");
    expect_number(call_wrap_stream(&wrap, 0, end + 1, index), 1, "wrap_stream: end past the buffer");
    expect_number(call_wrap_stream(&wrap, 1, 0, index), 1, "wrap_stream: start after end");
    expect_number(call_wrap_stream(&wrap, UINT32_MAX, UINT32_MAX, 5), 1, "wrap_stream: start at 2^32 - 1, and no index");
    expect_number(call_wrap_stream(&wrap, PAST_32_BITS, PAST_32_BITS + end, index), 1, "wrap_stream: 2^32 further on");
    lend(&wrap.answer, OARCRADLER_SIZE_WRAPPED - 1, 83);
    expect_number(call_wrap_stream(&wrap, 0, end, 5), 2, "wrap_stream: an answer one too short, and no index");
    expect_number(call_wrap_stream(&wrap, 0, end, index), 2, "wrap_stream: an answer one too short");
    expect_number(call_wrap_stream(&wrap, 1, 0, index), 1, "wrap_stream: an answer one too short, and start after end");
}

void test_wrapped_payload(const uint8_t *payload, size_t size, uint32_t index)
{
    static uint8_t ruled[OARCRADLER_MOST_WRAPPED];
    struct found known = read_payload(payload, size, index);
    if (known.returned == 0) {
        size_t length = ruled_frame(ruled, known.stream, oarcradler_word(known.answer + OARCRADLER_AT_CHANNEL_BITS), index);
        test_wrapping(payload, size, index, ruled, length);
        test_read_back(&known, index, ruled, length);
    }
    test_refused_in_frame(payload, size, index, known.returned);
    test_wrap_refusals(payload, size, index, known.returned);
}

/* A silent stream in a frame, at sampling index 6; and in one with other free bits, tag and gain. */
static const uint8_t silent[] = { 0xff, 0xf1, 0x58, 0x40, 0x01, 0x7f, 0xfc, 0x00, 0xc8, 0x00, 0x07 };
static const uint8_t free_silent[] = { 0xff, 0xf9, 0x5a, 0x7c, 0x01, 0x60, 0x00, 0x1f, 0xfe, 0x00, 0x07 };

/* The silent frame with a byte altered, and its number; the place, in bits, of those refused after the header. */
static const struct {
    size_t byte;
    uint8_t value;
    uint32_t number, place;
} altered[] = { { 0, 0xfe, 50, 0 }, { 0, 0x7f, 50, 0 }, { 1, 0xe1, 50, 0 }, { 1, 0x71, 50, 0 }, { 1, 0xf9, 0, 0 }, { 1, 0xf3, 51, 0 },
    { 1, 0xf5, 51, 0 }, { 1, 0xf7, 51, 0 }, { 1, 0xf0, 51, 0 }, { 2, 0x18, 51, 0 }, { 2, 0x98, 51, 0 }, { 2, 0xd8, 51, 0 },
    { 2, 0x40, 51, 0 }, { 2, 0x44, 51, 0 }, { 2, 0x48, 51, 0 }, { 2, 0x4c, 0, 0 }, { 2, 0x50, 0, 0 }, { 2, 0x54, 51, 0 },
    { 2, 0x5c, 0, 0 }, { 2, 0x60, 51, 0 }, { 2, 0x7c, 51, 0 }, { 2, 0x5a, 0, 0 }, { 2, 0x59, 51, 0 }, { 3, 0x00, 51, 0 },
    { 3, 0x80, 51, 0 }, { 3, 0xc0, 51, 0 }, { 3, 0x7c, 0, 0 }, { 3, 0x41, 52, 0 }, { 3, 0x42, 52, 0 }, { 4, 0x00, 52, 0 },
    { 4, 0x02, 52, 0 }, { 5, 0x9f, 52, 0 }, { 5, 0xff, 52, 0 }, { 5, 0x5f, 10, 75 }, { 5, 0x3f, 10, 72 }, { 5, 0x60, 0, 0 },
    { 6, 0x00, 0, 0 }, { 6, 0xfd, 51, 0 }, { 6, 0xfe, 51, 0 }, { 6, 0xff, 51, 0 }, { 7, 0x1e, 0, 0 }, { 7, 0x20, 53, 56 },
    { 7, 0x60, 53, 56 }, { 7, 0xc0, 53, 56 }, { 7, 0xe0, 53, 56 }, { 8, 0xc9, 13, 71 }, { 9, 0xc0, 0, 0 }, { 10, 0x00, 53, 85 },
    { 10, 0x06, 53, 85 }, { 10, 0x03, 53, 85 }, { 10, 0x47, 20, 81 }, { 10, 0x17, 20, 83 }, { 10, 0x0f, 20, 84 }, { 10, 0x27, 10, 85 } };

static void test_altered(void)
{
    uint8_t copy[sizeof silent];
    for (size_t k = 0; k < sizeof altered / sizeof *altered; k++) {
        memcpy(copy, silent, sizeof copy);
        copy[altered[k].byte] = altered[k].value;
        lend_file(copy, sizeof copy, 0, 0, 90);
        lend_outputs(0, OARCRADLER_MOST_STREAM, 90);
        struct found found = found_frame(read_and_cut(0));
        expect_returned(found.returned, altered[k].number, altered[k].place, "read_frame of a known frame with a byte altered");
        test_refusals(&found, sizeof copy);
    }
}

/* Every length about the least and about the file's, and some that are far past it. A frame of 7 to 10 bytes is refused at the element, the
 * gain, the window sequence, max_sfb. */
static void test_lengths(void)
{
    static const size_t far[] = { 16, 18, 19, 255, 256, 2048, 2059, 4096, 8191 };
    static const uint32_t cut_at[sizeof silent - HEADER_BYTES] = { 56, 63, 72, 75 };
    uint8_t copy[sizeof silent];
    for (size_t k = 0; k < 14 + sizeof far / sizeof *far; k++) {
        size_t length = k < 14 ? k : far[k - 14];
        memcpy(copy, silent, sizeof copy);
        copy[3] = (uint8_t)(0x40 | length >> 11);
        copy[4] = (uint8_t)(length >> 3);
        copy[5] = (uint8_t)(length << 5 | 0x1f);
        lend_file(copy, sizeof copy, 0, 0, 95);
        lend_outputs(0, OARCRADLER_MOST_STREAM, 95);
        uint32_t number = length < HEADER_BYTES || length > sizeof copy ? 52 : length < sizeof copy ? 10 : 0;
        uint32_t place = number == 10 ? cut_at[length - HEADER_BYTES] : 0;
        expect_returned(read_and_cut(0), number, place, "read_frame, unwrap_frame: a frame length");
    }
}

/* A frame that is longer than its block by a byte, whatever that is. */
static void test_longer(void)
{
    uint8_t copy[sizeof silent + 1] = { 0 };
    for (int fill = 0; fill < 256; fill += 51) {
        memcpy(copy, silent, sizeof silent);
        copy[5] = 0x9f;
        copy[sizeof silent] = (uint8_t)fill;
        lend_file(copy, sizeof copy, 0, 0, 100);
        lend_outputs(0, OARCRADLER_MOST_STREAM, 100);
        expect_returned(read_and_cut(0), 12, 8 * sizeof silent, "read_frame, unwrap_frame: eight bits after the end element");
    }
}

/* A file of three frames, the last cut at each byte, read from every start that a frame has. */
static void test_cut_files(void)
{
    uint8_t file[3 * sizeof silent];
    memcpy(file, silent, sizeof silent);
    memcpy(file + sizeof silent, free_silent, sizeof free_silent);
    memcpy(file + 2 * sizeof silent, silent, sizeof silent);
    for (size_t size = 0; size <= sizeof file; size++) {
        lend_file(file, size, 0, 0, 110);
        lend_outputs(0, OARCRADLER_MOST_STREAM, 110);
        for (size_t start = 0; start < sizeof file; start += sizeof silent) {
            size_t left = size - start;
            uint32_t number = start > size ? 1 : left < HEADER_BYTES ? 10 : left < sizeof silent ? 52 : 0;
            expect_returned(read_and_cut(start), number, 0, "read_frame, unwrap_frame of a file that is cut");
        }
    }
}

/* Every start of a file: the bytes before it do not count. */
static void test_starts(void)
{
    uint8_t file[2 * sizeof silent];
    memcpy(file, free_silent, sizeof free_silent);
    memcpy(file + sizeof free_silent, silent, sizeof silent);
    for (size_t start = 0; start <= sizeof file; start++) {
        lend_file(file, sizeof file, 0, 0, 120);
        lend_outputs(0, OARCRADLER_MOST_STREAM, 120);
        struct found inside = found_frame(read_and_cut(start));
        lend_file(file + start, sizeof file - start, 0, 0, 121);
        lend_outputs(0, OARCRADLER_MOST_STREAM, 121);
        struct found alone = found_frame(read_and_cut(0));
        expect(memcmp(&inside, &alone, sizeof inside) == 0, "read_frame, unwrap_frame: bytes before the start count");
        expect((inside.returned == 0) == (start == 0 || start == sizeof silent), "read_frame, unwrap_frame: a start that is no frame's");
    }
}

/* A known frame: its answer, its stream in every room, the payload of that stream in every room. */
static void test_silent(const uint8_t *bytes, const uint8_t *answer, const uint8_t *stream)
{
    struct found found = read_twice(bytes, sizeof silent, 130);
    expect_number(found.returned, 0, "read_frame of silence");
    expect(memcmp(found.answer, answer, sizeof found.answer) == 0, "read_frame: the answer of silence");
    expect(memcmp(found.stream, stream, 3) == 0, "unwrap_frame: the stream of silence");
    for (size_t room = 0; room <= 5; room++)
        test_rooms(&found, &room, 1);
    for (size_t room = 0; room <= sizeof silent + 2; room++) {
        lend_payload(stream, 3, 2, room, 140);
        expect_number(call_wrap_stream(&wrap, 2, 5, 6), room < sizeof silent ? 2 : 0, "wrap_stream: room for the frame");
    }
    test_refusals(&found, sizeof silent);
    test_wrapped_payload(stream, 3, 6);
}

void test_known_frame(void)
{
    static const uint8_t answer[OARCRADLER_SIZE_FRAME] = { 0, 0, 0, 22, 100, 0, 0, 0, 1, 1, 0, 0, 0, 0, 0, 0, 0, 0, 0, 0, 11, 6 };
    static const uint8_t free_answer[OARCRADLER_SIZE_FRAME] = { 0, 0, 0, 22, 255, 0, 0, 0, 1, 1, 0, 0, 0, 0, 0, 0, 0, 0, 0, 0, 11, 6 };
    static const uint8_t stream[] = { 100, 0, 0 }, free_stream[] = { 255, 0, 0 };
    test_silent(silent, answer, stream);
    test_silent(free_silent, free_answer, free_stream);
    test_altered();
    test_lengths();
    test_longer();
    test_cut_files();
    test_starts();
}
