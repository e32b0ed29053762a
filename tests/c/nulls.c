/* A buffer of length 0 may be a null pointer: each buffer of each function in turn, and what it answers then. */
#include "cases.h"
#include "lent.h"
#include "oarcradler.h"

static uint8_t state[OARCRADLER_SIZE_STATE], stereo[OARCRADLER_SIZE_STEREO], answer[OARCRADLER_SIZE_FRAME], out[16];
static int16_t lines[OARCRADLER_SIZE_LINES];
static struct oarcradler_factors factors;
static struct oarcradler_books books;
static const uint8_t silence[] = { 100, 0, 0 };

/* Images of two payloads with no bytes, and of none. */
static const uint8_t two[] = { 0, 2, 0, 3, 0, 10, 0, 10, 0, 10 }, none[] = { 0, 0, 0, 3, 0, 6 };

/* What a call with a null pointer returned: a number, whose place is 0. */
static void expect_null(uint32_t said, uint32_t wanted, const char *what)
{
    called(said);
    expect_number(said, wanted, what);
}

/* The state's functions and the reader of stereo. */
static void test_stereo_nulls(void)
{
    expect_null(oarcradler_fresh_state(0, 0), 2, "fresh_state of no state");
    expect_null(oarcradler_report_missing(0, 0), 4, "report_missing of no state");
    expect_null(oarcradler_fresh_state(state, sizeof state), 0, "fresh_state");
    expect_null(oarcradler_read_stereo(0, 0, silence, 1, 0, 1, stereo, sizeof stereo), 4, "read_stereo with no state");
    expect_null(oarcradler_read_stereo(state, sizeof state, silence, 1, 0, 1, 0, 0), 2, "read_stereo with no answer");
    expect_null(oarcradler_read_stereo(state, sizeof state, 0, 0, 0, 1, stereo, sizeof stereo), 1, "read_stereo past no buffer");
    expect_null(oarcradler_read_stereo(state, sizeof state, 0, 0, 0, 0, stereo, sizeof stereo), 10, "read_stereo of no buffer");
}

/* The writer of stereo: contents of no header and no envelope take a byte. */
static void test_writer_nulls(void)
{
    static const uint8_t keep[] = { 0 };
    uint8_t written[OARCRADLER_SIZE_WRITTEN];
    expect_null(oarcradler_fresh_state(state, sizeof state), 0, "fresh_state");
    expect_null(oarcradler_read_stereo(state, sizeof state, keep, sizeof keep, 0, 1, stereo, sizeof stereo), 0, "read_stereo");
    expect_null(oarcradler_write_stereo(0, 0, stereo, sizeof stereo, out, sizeof out, written, sizeof written), 4, "write_stereo with no state");
    expect_null(oarcradler_write_stereo(state, sizeof state, 0, 0, out, sizeof out, written, sizeof written), 40, "write_stereo of no contents");
    expect_null(oarcradler_write_stereo(state, sizeof state, stereo, sizeof stereo, 0, 0, written, sizeof written), 2,
        "write_stereo to no output");
    expect_null(oarcradler_write_stereo(state, sizeof state, stereo, sizeof stereo, out, sizeof out, 0, 0), 2, "write_stereo with no answer");
}

/* The reader of channel streams. */
static void test_channel_nulls(void)
{
    expect_null(oarcradler_read_channel(0, 0, 0, 0, 4, lines, OARCRADLER_SIZE_LINES, &factors, sizeof factors, &books, sizeof books, answer,
                    sizeof answer), 10, "read_channel of no buffer");
    expect_null(oarcradler_read_channel(silence, sizeof silence, 0, 3, 4, 0, 0, &factors, sizeof factors, &books, sizeof books, answer,
                    sizeof answer), 2, "read_channel with no lines");
    expect_null(oarcradler_read_channel(silence, sizeof silence, 0, 3, 4, lines, OARCRADLER_SIZE_LINES, 0, 0, &books, sizeof books, answer,
                    sizeof answer), 2, "read_channel with no scale factors");
    expect_null(oarcradler_read_channel(silence, sizeof silence, 0, 3, 4, lines, OARCRADLER_SIZE_LINES, &factors, sizeof factors, 0, 0, answer,
                    sizeof answer), 2, "read_channel with no books");
    expect_null(oarcradler_read_channel(silence, sizeof silence, 0, 3, 4, lines, OARCRADLER_SIZE_LINES, &factors, sizeof factors, &books,
                    sizeof books, 0, 0), 2, "read_channel with no answer");
}

/* Images and ADTS frames. */
static void test_file_nulls(void)
{
    expect_null(oarcradler_read_header(0, 0, answer, sizeof answer), 5, "read_header of no image");
    expect_null(oarcradler_read_header(silence, sizeof silence, 0, 0), 2, "read_header with no answer");
    expect_null(oarcradler_find_part(0, 0, 0, answer, sizeof answer), 5, "find_part of no image");
    expect_null(oarcradler_find_part(silence, sizeof silence, 0, 0, 0), 2, "find_part with no answer");
    expect_null(oarcradler_find_parts(0, 0, answer, sizeof answer), 5, "find_parts of no image");
    expect_null(oarcradler_find_parts(two, sizeof two, 0, 0), 2, "find_parts with no answer");
    expect_null(oarcradler_find_parts(none, sizeof none, 0, 0), 0, "find_parts of an image with no payloads, with no answer");
    expect_null(oarcradler_read_frame(0, 0, 0, lines, OARCRADLER_SIZE_LINES, &factors, sizeof factors, &books, sizeof books, answer,
                    sizeof answer), 10, "read_frame of no file");
    expect_null(oarcradler_unwrap_frame(0, 0, 0, out, sizeof out, answer, sizeof answer), 10, "unwrap_frame of no file");
    expect_null(oarcradler_wrap_stream(0, 0, 0, 0, 4, out, sizeof out, answer, sizeof answer), 10, "wrap_stream of no buffer");
    expect_null(oarcradler_wrap_stream(silence, sizeof silence, 0, 3, 4, 0, 0, answer, sizeof answer), 2, "wrap_stream to no output");
    expect_null(oarcradler_wrap_stream(silence, sizeof silence, 0, 3, 4, out, sizeof out, answer, sizeof answer), 0, "wrap_stream");
    expect_null(oarcradler_unwrap_frame(out, oarcradler_word(answer), 0, 0, 0, answer, sizeof answer), 2, "unwrap_frame to no output");
}

void test_nulls(void)
{
    test_stereo_nulls();
    test_writer_nulls();
    test_channel_nulls();
    test_file_nulls();
}
