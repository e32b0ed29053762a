/* The header's face: its constants add up, and its lengths have 64 bits on every processor. It is C and C++, and no compiler warns of it. */
#include "cases.h"
#include "lent.h"
#include "oarcradler.h"

/* Each function as the header has to declare it, which is so where this compiles. */
struct face {
    uint32_t (*version)(void);
    uint32_t (*number)(uint32_t);
    uint32_t (*place)(uint32_t);
    uint32_t (*fresh)(uint8_t *, uint64_t);
    uint32_t (*missing)(uint8_t *, uint64_t);
    uint32_t (*header)(const uint8_t *, uint64_t, uint8_t *, uint64_t);
    uint32_t (*part)(const uint8_t *, uint64_t, uint32_t, uint8_t *, uint64_t);
    uint32_t (*parts)(const uint8_t *, uint64_t, uint8_t *, uint64_t);
    uint32_t (*write)(uint8_t *, uint64_t, const uint8_t *, uint64_t, uint8_t *, uint64_t, uint8_t *, uint64_t);
    uint32_t (*stereo)(uint8_t *, uint64_t, const uint8_t *, uint64_t, uint64_t, uint64_t, uint8_t *, uint64_t);
    uint32_t (*channel)(const uint8_t *, uint64_t, uint64_t, uint64_t, uint32_t, int16_t *, uint64_t, struct oarcradler_factors *, uint64_t,
        struct oarcradler_books *, uint64_t, uint8_t *, uint64_t);
    uint32_t (*frame)(const uint8_t *, uint64_t, uint64_t, int16_t *, uint64_t, struct oarcradler_factors *, uint64_t,
        struct oarcradler_books *, uint64_t, uint8_t *, uint64_t);
    uint32_t (*unwrap)(const uint8_t *, uint64_t, uint64_t, uint8_t *, uint64_t, uint8_t *, uint64_t);
    uint32_t (*wrap)(const uint8_t *, uint64_t, uint64_t, uint64_t, uint32_t, uint8_t *, uint64_t, uint8_t *, uint64_t);
};

static const struct face face = { oarcradler_version, oarcradler_number, oarcradler_place, oarcradler_fresh_state,
    oarcradler_report_missing, oarcradler_read_header, oarcradler_find_part, oarcradler_find_parts, oarcradler_write_stereo,
    oarcradler_read_stereo, oarcradler_read_channel, oarcradler_read_frame, oarcradler_unwrap_frame, oarcradler_wrap_stream };

/* Every number, and places up to the last, are taken out of what is returned as they were put there; a number with no place is returned as
 * it is. */
static void test_taken_out(void)
{
    static const uint32_t places[] = { 0, 1, 255, 256, OARCRADLER_MOST_PLACE };
    for (uint32_t number = 0; number < 256; number++)
        for (size_t k = 0; k < sizeof places / sizeof *places; k++) {
            uint32_t returned = number + 256 * places[k];
            expect(face.number(returned) == number && face.place(returned) == places[k], "a number or a place is not what was returned");
        }
    expect(OARCRADLER_MOST_PLACE == 8 * OARCRADLER_MOST_FRAME, "the last place is not the end of the longest frame");
}

void test_face(void)
{
    expect(face.fresh != 0 && face.wrap != 0, "a function is not there");
    test_taken_out();
    expect_number(face.version(), 10000 * OARCRADLER_VERSION_MAJOR + 100 * OARCRADLER_VERSION_MINOR + OARCRADLER_VERSION_PATCH,
        "the archive has another version than the header");
    expect(OARCRADLER_AT_STATE_IID + 4 * OARCRADLER_SIZE_RECORD == OARCRADLER_SIZE_STATE, "the state's parts are not its size");
    expect(OARCRADLER_AT_STEREO_FIRST + OARCRADLER_MOST_ENVELOPES * OARCRADLER_SIZE_ENVELOPE == OARCRADLER_SIZE_STEREO,
        "the stereo answer's parts are not its size");
    expect(OARCRADLER_AT_ROW_OPD + OARCRADLER_SIZE_ROW == OARCRADLER_SIZE_ENVELOPE, "an envelope's rows are not its size");
    expect(1 + OARCRADLER_SIZE_INDICES == OARCRADLER_SIZE_ROW && OARCRADLER_SIZE_ROW == OARCRADLER_SIZE_RECORD, "a row is no record");
    expect(OARCRADLER_AT_STEREO_BORDERS + OARCRADLER_MOST_ENVELOPES == OARCRADLER_AT_STEREO_EXTENSION, "borders are not the envelopes'");
    expect(OARCRADLER_AT_CHANNEL_GROUPS + OARCRADLER_MOST_GROUPS == OARCRADLER_SIZE_CHANNEL, "the groups do not end the channel answer");
    expect(OARCRADLER_MOST_PAYLOADS * OARCRADLER_SIZE_PART == OARCRADLER_MOST_PARTS, "the most parts have other bytes than their parts");
    expect(OARCRADLER_SIZE_CHANNEL == OARCRADLER_AT_FRAME_LENGTH, "a frame's answer does not begin as a channel answer");
    expect(OARCRADLER_AT_FRAME_INDEX + 1 == OARCRADLER_SIZE_FRAME, "the index does not end a frame's answer");
    expect(sizeof(struct oarcradler_factors) == OARCRADLER_SIZE_FACTORS, "scale factors have other bytes around them");
    expect(sizeof(struct oarcradler_books) == OARCRADLER_SIZE_BOOKS, "books have other bytes around them");
}
