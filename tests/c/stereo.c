/* Stereo payloads: known ones, and those of an image, read, refused, written back and altered. */
#include <string.h>

#include "calls.h"
#include "cases.h"
#include "oarcradler.h"
#include "places.h"

enum { ALTERED = 4, MOST_WRITTEN = 1200, FIRST_CHANCE = 20261115 };

/* What a call of read_stereo left. */
struct reading {
    uint32_t returned;
    uint8_t state[OARCRADLER_SIZE_STATE], answer[OARCRADLER_SIZE_STEREO];
};

static struct stereo_call read;
static struct write_call write;
static uint32_t chance = FIRST_CHANCE;

/* Buffers for a payload: so many other bytes on either side of it, the state's and the answer's so much longer than needed. */
static void lend_read(const uint8_t *state, const uint8_t *payload, size_t size, size_t around, size_t longer, unsigned seed)
{
    lend_bytes(&read.state, OARCRADLER_SIZE_STATE + longer, seed, state, OARCRADLER_SIZE_STATE);
    lend(&read.buffer, around + size + around, seed + 1);
    memcpy(bytes_of(&read.buffer) + around, payload, size);
    lend(&read.answer, OARCRADLER_SIZE_STEREO + longer, seed + 2);
}

/* One reading in such buffers. */
static struct reading read_in(const uint8_t *state, const uint8_t *payload, size_t size, size_t around, size_t longer, unsigned seed)
{
    struct reading r;
    lend_read(state, payload, size, around, longer, seed);
    r.returned = call_read_stereo(&read, (uint32_t)around, (uint32_t)(around + size));
    memcpy(r.state, bytes_of(&read.state), sizeof r.state);
    memcpy(r.answer, bytes_of(&read.answer), sizeof r.answer);
    return r;
}

/* The same whatever stood around the payload and in the answer before, and in longer buffers. */
static struct reading read_twice(const uint8_t *state, const uint8_t *payload, size_t size)
{
    struct reading one = read_in(state, payload, size, 5, 0, 1), two = read_in(state, payload, size, 0, 9, 2);
    expect_number(two.returned, one.returned, "read_stereo: number or place depend on bytes outside the payload");
    expect(memcmp(one.state, two.state, sizeof one.state) == 0, "read_stereo: the state depends on bytes outside the payload");
    if (one.returned == 0)
        expect(memcmp(one.answer, two.answer, sizeof one.answer) == 0, "read_stereo: a byte of the answer was not written");
    return one;
}

/* Where a payload is refused: without the bytes after its first unused bit, it is accepted in step; without those from the field at fault
 * on, bits run out there or, in an announced part, before. 33 may stand at the end of a part that is whole. */
static void test_place(const uint8_t *state, const uint8_t *payload, uint32_t returned)
{
    uint8_t in_step[OARCRADLER_SIZE_STATE];
    uint32_t number = oarcradler_number(returned), place = oarcradler_place(returned);
    expect_number(oarcradler_fresh_state(in_step, sizeof in_step), 0, "fresh_state");
    if (state[OARCRADLER_AT_STATE_IN_STEP])
        memcpy(in_step, state, sizeof in_step);
    if (number == OARCRADLER_REFUSED_BITS_LEFT || number == OARCRADLER_REFUSED_OUT_OF_STEP) {
        struct reading cut = read_in(in_step, payload, (place + 7) / 8, 0, 0, 16);
        expect_number(cut.returned, 0, "read_stereo of a payload without its unused bytes");
        expect_number(oarcradler_word(cut.answer + OARCRADLER_AT_STEREO_BITS), place, "read_stereo: not the first bit unused");
    } else if (has_place(number) && number != OARCRADLER_REFUSED_EXTENSION) {
        uint32_t cut = read_in(in_step, payload, place / 8, 0, 0, 17).returned;
        expect_number(oarcradler_number(cut), 10, "read_stereo of a payload that is cut where it is refused");
        expect(oarcradler_place(cut) <= place, "read_stereo: bits run out after the place of a refusal");
    }
}

/* Ranges outside the buffer, a short answer and a short state, one and then several at once. */
static void test_refused_reads(const uint8_t *state, const uint8_t *payload, size_t size)
{
    uint32_t last = (uint32_t)size;
    lend_read(state, payload, size, 0, 0, 3);
    expect_number(call_read_stereo(&read, 0, last + 1), 1, "read_stereo: end past the buffer");
    expect_number(call_read_stereo(&read, last + 1, last + 1), 1, "read_stereo: start past the buffer");
    expect_number(call_read_stereo(&read, 1, 0), 1, "read_stereo: start after end");
    expect_number(call_read_stereo(&read, 0, UINT32_MAX), 1, "read_stereo: end at 2^32 - 1");
    expect_number(call_read_stereo(&read, UINT32_MAX, UINT32_MAX), 1, "read_stereo: start at 2^32 - 1");
    expect_number(call_read_stereo(&read, UINT32_MAX, 0), 1, "read_stereo: start at 2^32 - 1, end at 0");
    expect_number(call_read_stereo(&read, PAST_32_BITS, PAST_32_BITS + last), 1, "read_stereo: 2^32 further on");
    expect_number(call_read_stereo(&read, 0, PAST_32_BITS + last), 1, "read_stereo: an end 2^32 further on");
    lend(&read.answer, OARCRADLER_SIZE_STEREO - 1, 4);
    expect_number(call_read_stereo(&read, 0, last), 2, "read_stereo: an answer of 581 bytes");
    expect_number(call_read_stereo(&read, 1, 0), 1, "read_stereo: start after end, and an answer of 581 bytes");
    lend_bytes(&read.state, OARCRADLER_SIZE_STATE - 1, 5, state, OARCRADLER_SIZE_STATE - 1);
    expect_number(call_read_stereo(&read, 0, last), 2, "read_stereo: an answer of 581 bytes, and a state of 145");
    lend(&read.answer, OARCRADLER_SIZE_STEREO, 6);
    expect_number(call_read_stereo(&read, 0, last), 4, "read_stereo: a state of 145 bytes");
}

/* Buffers for the writer: contents with another number where the bits stand, an output of so many bytes, and so much longer buffers. */
static void lend_write(const uint8_t *state, const uint8_t *contents, size_t room, size_t longer, unsigned seed)
{
    lend_bytes(&write.state, OARCRADLER_SIZE_STATE + longer, seed, state, OARCRADLER_SIZE_STATE);
    lend(&write.contents, OARCRADLER_SIZE_STEREO + longer, seed + 1);
    memcpy(bytes_of(&write.contents) + 4, contents + 4, OARCRADLER_SIZE_STEREO - 4);
    lend(&write.out, room, seed + 2);
    lend(&write.answer, OARCRADLER_SIZE_WRITTEN + longer, seed + 3);
}

/* What was read is written to the bits that were used, the last byte filled up with zeros, and leaves the state that reading left. */
static void test_written_back(const uint8_t *state, const uint8_t *payload, const struct reading *r, size_t longer)
{
    uint32_t bits = oarcradler_word(r->answer + OARCRADLER_AT_STEREO_BITS);
    size_t size = (bits + 7) / 8;
    uint8_t last = (uint8_t)(payload[size - 1] & 0xff << (size * 8 - bits));
    lend_write(state, r->answer, size + longer, longer, 7);
    expect_number(call_write_stereo(&write), 0, "write_stereo of what was read");
    expect_number(oarcradler_word(bytes_of(&write.answer) + OARCRADLER_AT_WRITTEN_BITS), bits, "write_stereo: the bit count");
    expect(memcmp(bytes_of(&write.out), payload, size - 1) == 0, "write_stereo: not the bytes that were read");
    expect(bytes_of(&write.out)[size - 1] == last, "write_stereo: not the last byte that was read, filled up with zeros");
    expect(memcmp(bytes_of(&write.state), r->state, sizeof r->state) == 0, "write_stereo: not the state that reading left");
}

/* A short output, short contents, a short state, one and then several at once. */
static void test_refused_writes(const uint8_t *state, const struct reading *r)
{
    size_t size = (oarcradler_word(r->answer) + 7) / 8;
    lend_write(state, r->answer, size - 1, 0, 8);
    expect_number(call_write_stereo(&write), 2, "write_stereo: an output one byte too short");
    lend(&write.out, 0, 9);
    expect_number(call_write_stereo(&write), 2, "write_stereo: an output of no bytes");
    lend_bytes(&write.contents, OARCRADLER_SIZE_STEREO - 1, 10, r->answer, OARCRADLER_SIZE_STEREO - 1);
    expect_number(call_write_stereo(&write), 40, "write_stereo: contents of 581 bytes, and no room");
    lend_bytes(&write.state, OARCRADLER_SIZE_STATE - 1, 11, state, OARCRADLER_SIZE_STATE - 1);
    expect_number(call_write_stereo(&write), 4, "write_stereo: a state of 145 bytes, contents of 581, and no room");
    lend(&write.answer, OARCRADLER_SIZE_WRITTEN - 1, 12);
    expect_number(call_write_stereo(&write), 2, "write_stereo: an answer of 3 bytes, a state of 145, contents of 581");
}

/* From the same state out of step: what is a restart is read and written as before, all else refused. */
static void test_out_of_step(const uint8_t *state, const uint8_t *payload, size_t size, const struct reading *r)
{
    uint8_t lost[OARCRADLER_SIZE_STATE];
    memcpy(lost, state, sizeof lost);
    lost[OARCRADLER_AT_STATE_IN_STEP] = 0;
    struct reading again = read_in(lost, payload, size, 0, 0, 12);
    if (again.returned == 0) {
        expect(memcmp(again.answer, r->answer, sizeof again.answer) == 0, "read_stereo: a restart is read otherwise out of step");
        expect(memcmp(again.state, r->state, sizeof again.state) == 0, "read_stereo: a restart leaves another state out of step");
        test_written_back(lost, payload, &again, 0);
        return;
    }
    test_place(lost, payload, again.returned);
    lend_write(lost, r->answer, MOST_WRITTEN, 0, 13);
    uint32_t returned = call_write_stereo(&write);
    expect(returned == 35 || returned == 40, "write_stereo: out of step, what is no restart was written");
}

/* Numbers that look random, the same for an image on every run. */
static unsigned some(unsigned below)
{
    chance ^= chance << 13;
    chance ^= chance >> 17;
    chance ^= chance << 5;
    return chance % below;
}

/* Contents with a byte altered can't be written, or are written to a payload that is read to them. */
static void test_altered_contents(const uint8_t *state, const struct reading *r)
{
    uint8_t contents[OARCRADLER_SIZE_STEREO], out[MOST_WRITTEN];
    size_t place = some(2) ? 4 + some(18) : OARCRADLER_AT_STEREO_FIRST + some(560);
    memcpy(contents, r->answer, sizeof contents);
    contents[place] = (uint8_t)(some(3) ? contents[place] + 1 - 2 * some(2) : some(256));
    lend_write(state, contents, sizeof out, 0, 14);
    uint32_t returned = call_write_stereo(&write);
    expect(returned == 0 || returned == 40 || returned == 35, "write_stereo: altered contents");
    if (returned != 0)
        return;
    memcpy(out, bytes_of(&write.out), sizeof out);
    uint32_t bits = oarcradler_word(bytes_of(&write.answer) + OARCRADLER_AT_WRITTEN_BITS);
    struct reading back = read_in(state, out, (bits + 7) / 8, 0, 0, 15);
    expect_number(back.returned, 0, "read_stereo of altered contents that were written");
    expect_number(oarcradler_word(back.answer), bits, "read_stereo: the bits of altered contents that were written");
    expect(memcmp(back.answer + 4, contents + 4, sizeof contents - 4) == 0, "altered contents were written to a payload of others");
    expect(memcmp(back.state, bytes_of(&write.state), sizeof back.state) == 0, "write_stereo and read_stereo leave different states");
}

void begin_altering(size_t size)
{
    chance = FIRST_CHANCE + (uint32_t)size;
}

void test_stereo_payload(uint8_t *state, const uint8_t *payload, size_t size)
{
    struct reading r = read_twice(state, payload, size);
    test_place(state, payload, r.returned);
    test_refused_reads(state, payload, size);
    if (r.returned == 0) {
        test_written_back(state, payload, &r, 0);
        test_written_back(state, payload, &r, 11);
        written_back++;
        test_refused_writes(state, &r);
        test_out_of_step(state, payload, size, &r);
        for (int k = 0; k < ALTERED; k++)
            test_altered_contents(state, &r);
    }
    memcpy(state, r.state, sizeof r.state);
}

/* Payloads whose numbers and places the rules give, from a fresh state, in step or out of it. The last five are refused in an extension,
 * which starts at bit 11 or, after IID, at bit 25. */
static const struct {
    uint8_t in_step, bytes[5];
    size_t size;
    uint32_t number, place, bits;
} bench[] = { { 1, { 0 }, 1, 0, 0, 4 }, { 1, { 0x90, 0 }, 2, 0, 0, 11 }, { 1, { 0, 0 }, 2, 12, 4, 0 }, { 0, { 0 }, 1, 35, 4, 0 },
    { 1, { 0 }, 0, 10, 0, 0 }, { 1, { 0xf0 }, 1, 13, 2, 0 }, { 1, { 0xc0, 0x5f, 0xfc }, 3, 32, 11, 0 },
    { 1, { 0xc0, 0x5f, 0xfa, 0 }, 4, 32, 22, 0 }, { 1, { 0xc0, 0x5f }, 2, 10, 11, 0 }, { 1, { 0x90, 0x20 }, 2, 10, 11, 0 },
    { 1, { 0x90, 0x24, 0 }, 3, 34, 13, 0 }, { 1, { 0x90, 0x22, 0 }, 3, 13, 14, 0 }, { 1, { 0x90, 0x40, 0, 0 }, 4, 33, 15, 0 },
    { 1, { 0xc2, 0x40, 0, 0x97, 0x80 }, 5, 33, 33, 0 } };

static void test_bench(void)
{
    for (size_t k = 0; k < sizeof bench / sizeof *bench; k++) {
        uint8_t state[OARCRADLER_SIZE_STATE];
        expect_number(oarcradler_fresh_state(state, sizeof state), 0, "fresh_state");
        state[OARCRADLER_AT_STATE_IN_STEP] = bench[k].in_step;
        struct reading r = read_twice(state, bench[k].bytes, bench[k].size);
        expect_returned(r.returned, bench[k].number, bench[k].place, "read_stereo of a bench example");
        expect(r.returned != 0 || oarcradler_word(r.answer) == bench[k].bits, "read_stereo: the bits of a bench example");
        test_stereo_payload(state, bench[k].bytes, bench[k].size);
    }
}

/* A payload coded across time, after one of another mode: refused at its time flag. */
static void test_other_mode(void)
{
    static const uint8_t first[] = { 0xc0, 0x40, 0 }, second[] = { 0xc8, 0x60 };
    uint8_t state[OARCRADLER_SIZE_STATE];
    expect_number(oarcradler_fresh_state(state, sizeof state), 0, "fresh_state");
    test_stereo_payload(state, first, sizeof first);
    expect_returned(read_twice(state, second, sizeof second).returned, 31, 10, "read_stereo across time in another mode");
}

/* A published payload: ICC in mode 1 alone, eleven bands at 5. */
static void test_published(void)
{
    static const uint8_t payload[] = { 0xa4, 0x5f, 0xe0, 0x03, 0xff, 0x80, 0x00 };
    uint8_t state[OARCRADLER_SIZE_STATE], after[OARCRADLER_SIZE_STATE], wanted[OARCRADLER_SIZE_STEREO] = { 0, 0, 0, 50, 1, 0, 0, 1, 1, 0, 0, 1 };
    expect_number(oarcradler_fresh_state(state, sizeof state), 0, "fresh_state");
    memset(wanted + OARCRADLER_AT_STEREO_FIRST + OARCRADLER_AT_ROW_ICC + 1, 5, 11);
    memcpy(after, state, sizeof after);
    after[OARCRADLER_AT_STATE_ICC_ON] = after[OARCRADLER_AT_STATE_ICC_MODE] = after[OARCRADLER_AT_STATE_ICC] = 1;
    memset(after + OARCRADLER_AT_STATE_ICC + 1, 5, 11);
    struct reading r = read_twice(state, payload, sizeof payload);
    expect_number(r.returned, 0, "read_stereo of a published payload");
    expect(memcmp(r.answer, wanted, sizeof wanted) == 0, "read_stereo: the answer of a published payload");
    expect(memcmp(r.state, after, sizeof after) == 0, "read_stereo: the state after a published payload");
    test_stereo_payload(state, payload, sizeof payload);
}

/* Contents that no payload has: a byte of them that is no flag, count, border or index. */
static void test_unwritable(void)
{
    static const struct {
        size_t place;
        uint8_t value;
    } wrong[] = { { OARCRADLER_AT_STEREO_HEADER, 2 }, { OARCRADLER_AT_STEREO_IID_MODE, 1 }, { OARCRADLER_AT_STEREO_ICC_MODE, 6 },
        { OARCRADLER_AT_STEREO_CLASS, 2 }, { OARCRADLER_AT_STEREO_ENVELOPES, 3 }, { OARCRADLER_AT_STEREO_ENVELOPES, 5 }, { OARCRADLER_AT_STEREO_BORDERS, 1 },
        { OARCRADLER_AT_STEREO_EXTENSION, 1 }, { OARCRADLER_AT_STEREO_FILL_COUNT, 1 }, { 57, 2 }, { 57 + 1, 8 }, { 57 + 21, 1 }, { 22 + 1, 1 },
        { 57 + 140, 1 }, { 57 + 141, 5 } };
    static const uint8_t payload[] = { 0xa4, 0x5f, 0xe0, 0x03, 0xff, 0x80, 0x00 };
    uint8_t state[OARCRADLER_SIZE_STATE];
    expect_number(oarcradler_fresh_state(state, sizeof state), 0, "fresh_state");
    struct reading r = read_in(state, payload, sizeof payload, 0, 0, 1);
    for (size_t k = 0; k < sizeof wrong / sizeof *wrong; k++) {
        lend_write(state, r.answer, 0, 0, 2);
        bytes_of(&write.contents)[wrong[k].place] = wrong[k].value;
        expect_number(call_write_stereo(&write), 40, "write_stereo of contents that no payload has");
    }
}

void test_known_stereo(void)
{
    test_bench();
    test_other_mode();
    test_published();
    test_unwritable();
}
