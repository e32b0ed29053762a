/* Tag images: known ones, and those on standard input, header and parts, and each payload handed on. */
#include <string.h>

#include "calls.h"
#include "cases.h"
#include "oarcradler.h"

static struct image_call call;

/* The parts of an image's payloads, as they were found all at once. */
static uint8_t parts[OARCRADLER_MOST_PARTS];

/* An image, and an answer of so many bytes. */
static void lend_image(const uint8_t *image, size_t size, size_t room)
{
    lend_bytes(&call.image, size, 1, image, size);
    lend(&call.answer, room, 2);
}

/* The header of an image, into an answer that is longer than it has to be. */
static uint32_t read_header_of(const uint8_t *image, size_t size)
{
    lend_image(image, size, OARCRADLER_SIZE_HEADER + 9);
    return call_read_header(&call);
}

/* Answers too short, whatever the image is. */
static void test_short_answers(const uint8_t *image, size_t size)
{
    for (size_t room = 0; room < OARCRADLER_SIZE_HEADER; room++) {
        lend_image(image, size, room);
        expect_number(call_read_header(&call), 2, "read_header: an answer too short");
        expect_number(call_find_part(&call, 0), 2, "find_part: an answer too short");
        expect_number(call_find_part(&call, UINT32_MAX), 2, "find_part: an answer too short, and no such payload");
    }
}

/* All parts of an image whose header gives this number: 5 is judged before an answer that is too short, and 3 after it. */
static void test_parts(const uint8_t *image, size_t size, uint32_t number)
{
    size_t whole = number == 5 ? OARCRADLER_MOST_PARTS : OARCRADLER_SIZE_PART * (256 * (size_t)image[0] + image[1]);
    const size_t missing[] = { whole, OARCRADLER_SIZE_PART, OARCRADLER_SIZE_PART / 2, 1 };
    lend_image(image, size, 0);
    for (size_t k = 0; k < sizeof missing / sizeof *missing && whole > 0; k++) {
        lend(&call.answer, whole - missing[k], 2);
        expect_number(call_find_parts(&call), number == 5 ? 5 : 2, "find_parts: an answer too short");
    }
    lend(&call.answer, whole + 9, 2);
    expect_number(call_find_parts(&call), number, "find_parts: not the header's number, with room to spare");
    lend(&call.answer, whole, 3);
    expect_number(call_find_parts(&call), number, "find_parts: not the header's number, with just enough room");
    memcpy(parts, bytes_of(&call.answer), whole);
}

/* The payload k: its part starts where the last one ended, and is the one among all. Its end. */
static uint32_t test_part(const uint8_t *image, size_t size, uint32_t k, uint32_t start, uint32_t index, uint8_t *state)
{
    expect_number(call_find_part(&call, k), 0, "find_part of a payload that is there");
    uint32_t end = oarcradler_word(bytes_of(&call.answer) + OARCRADLER_AT_PART_END);
    expect_number(oarcradler_word(bytes_of(&call.answer) + OARCRADLER_AT_PART_START), start, "find_part: where a part starts");
    expect(start <= end && end <= size, "find_part: a part outside the image");
    expect(memcmp(parts + OARCRADLER_SIZE_PART * k, bytes_of(&call.answer), OARCRADLER_SIZE_PART) == 0, "find_parts: another part");
    payload_number = k;
    if (k % 2 == 0) {
        test_channel_payload(image + start, end - start, index);
        test_wrapped_payload(image + start, end - start, index);
    } else {
        test_stereo_payload(state, image + start, end - start);
    }
    return end;
}

/* Payloads that an image of so many does not have. */
static void test_no_parts(uint32_t count)
{
    const uint32_t none[] = { count, count + 1, 65536, 65537, 16777216, 2147483648u, UINT32_MAX - 1, UINT32_MAX };
    for (size_t k = 0; k < sizeof none / sizeof *none; k++)
        expect_number(call_find_part(&call, none[k]), 1, "find_part of a payload that is not there");
}

void test_image(const uint8_t *image, size_t size)
{
    uint8_t state[OARCRADLER_SIZE_STATE];
    test_short_answers(image, size);
    test_parts(image, size, read_header_of(image, size));
    uint32_t number = read_header_of(image, size);
    if (number != 0) {
        expect_number(call_find_part(&call, 0), number, "find_part: not the header's refusal");
        expect_number(call_find_part(&call, UINT32_MAX), number, "find_part: not the header's refusal of no payload");
        return;
    }
    uint32_t count = oarcradler_word(bytes_of(&call.answer) + OARCRADLER_AT_HEADER_COUNT);
    uint32_t index = oarcradler_word(bytes_of(&call.answer) + OARCRADLER_AT_HEADER_INDEX), end = 6 + 2 * count;
    expect(index == 3 || index == 4 || index == 6 || index == 7, "read_header: an unknown index");
    test_no_parts(count);
    expect_number(oarcradler_fresh_state(state, sizeof state), 0, "fresh_state");
    begin_altering(size);
    for (uint32_t k = 0; k < count; k++)
        end = test_part(image, size, k, end, index, state);
    expect(end == size, "find_part: the last part does not end the image");
}

/* The image of the rules, and the same with a byte altered. */
void test_known_image(void)
{
    static const uint8_t image[] = { 0, 4, 0, 6, 0, 14, 0, 17, 0, 18, 0, 18, 0, 19, 100, 0, 0, 0, 0 };
    static const uint8_t known[4 * OARCRADLER_SIZE_PART] = { 0, 0, 0, 14, 0, 0, 0, 17, 0, 0, 0, 17, 0, 0, 0, 18, 0, 0, 0, 18, 0, 0, 0, 18, 0,
        0, 0, 18, 0, 0, 0, 19 };
    static const struct {
        size_t place;
        uint8_t value;
        uint32_t number;
    } altered[] = { { 1, 3, 5 }, { 0, 8, 5 }, { 1, 2, 5 }, { 3, 5, 3 }, { 3, 3, 0 }, { 2, 1, 3 }, { 5, 13, 5 }, { 7, 13, 5 }, { 9, 16, 5 },
        { 11, 17, 5 }, { 13, 18, 5 }, { 13, 20, 5 }, { 12, 1, 5 }, { 14, 1, 0 } };
    uint8_t copy[sizeof image];
    lend_image(image, sizeof image, OARCRADLER_SIZE_HEADER);
    expect_number(call_read_header(&call), 0, "read_header of the rules' image");
    expect_number(oarcradler_word(bytes_of(&call.answer) + OARCRADLER_AT_HEADER_COUNT), 4, "read_header: the payload count");
    expect_number(oarcradler_word(bytes_of(&call.answer) + OARCRADLER_AT_HEADER_INDEX), 6, "read_header: the sampling index");
    test_image(image, sizeof image);
    expect(memcmp(parts, known, sizeof known) == 0, "find_parts of the rules' image");
    for (size_t k = 0; k < sizeof altered / sizeof *altered; k++) {
        memcpy(copy, image, sizeof copy);
        copy[altered[k].place] = altered[k].value;
        lend_image(copy, sizeof copy, OARCRADLER_SIZE_HEADER);
        expect_number(call_read_header(&call), altered[k].number, "read_header of the rules' image with a byte altered");
        test_image(copy, sizeof copy);
    }
    for (size_t size = 0; size < sizeof image; size++) {
        lend_image(image, size, OARCRADLER_SIZE_HEADER);
        expect_number(call_read_header(&call), 5, "read_header of the rules' image, cut");
    }
}
