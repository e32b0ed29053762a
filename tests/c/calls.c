#include "calls.h"

#include "oarcradler.h"
#include "places.h"

/* The last bit at which a stereo payload, and a channel stream, is refused. */
enum { MOST_STEREO_PLACE = 8200, MOST_CHANNEL_PLACE = 38008 };

/* Whether a number is in a list that 0 ends; 0 itself is. */
static int is_one_of(uint32_t number, const uint32_t *list)
{
    while (*list != 0 && *list != number)
        list++;
    return *list == number;
}

/* The bits of a range; none where it starts after its end. */
static uint64_t bits_in(uint64_t start, uint64_t end)
{
    return start <= end ? 8 * (end - start) : 0;
}

/* What a call returned is counted and checked. The function judges so many bits, and refuses none past a last one: a number in a list that
 * 0 ends came back, with a place among those bits. A success, and a refusal that judges no bit, have the place 0. */
static void check_returned(const char *function, uint32_t returned, const uint32_t *numbers, uint64_t bits, uint32_t last)
{
    uint32_t number = oarcradler_number(returned), place = oarcradler_place(returned);
    called(returned);
    expect_of(function, is_one_of(number, numbers), "a number that it never gives");
    expect_of(function, place == 0 || has_place(number), "a place where no bit is judged");
    expect_of(function, place <= bits && place <= last, "a place past the bits that are there, or past the last of all");
}

/* The same of a function that judges no bit. */
static void check_placeless(const char *function, uint32_t returned, const uint32_t *numbers)
{
    check_returned(function, returned, numbers, 0, 0);
}

/* A lent buffer as scale factors, and as books. */
static struct oarcradler_factors *factors_of(struct lent *lent)
{
    return (struct oarcradler_factors *)bytes_of(lent);
}

static struct oarcradler_books *books_of(struct lent *lent)
{
    return (struct oarcradler_books *)bytes_of(lent);
}

uint32_t call_fresh(struct lent *state)
{
    static const uint32_t numbers[] = { 2, 0 };
    remember(state);
    uint32_t returned = oarcradler_fresh_state(bytes_of(state), state->size);
    check_placeless("fresh_state", returned, numbers);
    expect(same_but(state, 0, returned == 0 ? OARCRADLER_SIZE_STATE : 0), "fresh_state: a byte was changed that is not its own");
    return returned;
}

uint32_t call_missing(struct lent *state)
{
    static const uint32_t numbers[] = { 4, 0 };
    remember(state);
    uint32_t returned = oarcradler_report_missing(bytes_of(state), state->size);
    check_placeless("report_missing", returned, numbers);
    if (returned == 0) {
        expect(same_but(state, 5, 6), "report_missing: a byte besides the mark was changed");
        expect(bytes_of(state)[5] == 0, "report_missing: the mark is not out of step");
    } else {
        expect(same(state), "report_missing: a refusal touched the state");
    }
    return returned;
}

uint32_t call_read_stereo(struct stereo_call *call, uint64_t start, uint64_t end)
{
    static const uint32_t numbers[] = { 1, 2, 4, 10, 12, 13, 31, 32, 33, 34, 35, 0 };
    remember(&call->state), remember(&call->buffer), remember(&call->answer);
    uint32_t returned = oarcradler_read_stereo(bytes_of(&call->state), call->state.size, bytes_of(&call->buffer), call->buffer.size, start,
        end, bytes_of(&call->answer), call->answer.size);
    check_returned("read_stereo", returned, numbers, bits_in(start, end), MOST_STEREO_PLACE);
    expect(same(&call->buffer), "read_stereo: the buffer was changed");
    if (returned == 0) {
        expect(same_but(&call->state, 0, OARCRADLER_SIZE_STATE), "read_stereo: a byte outside the state was changed");
        expect(same_but(&call->answer, 0, OARCRADLER_SIZE_STEREO), "read_stereo: a byte outside the answer was changed");
        return returned;
    }
    expect(same(&call->answer), "read_stereo: a refusal touched the answer");
    if (!has_place(oarcradler_number(returned))) {
        expect(same(&call->state), "read_stereo: a refused call touched the state");
    } else {
        expect(same_but(&call->state, 5, 6), "read_stereo: a refused payload touched more than the mark");
        expect(bytes_of(&call->state)[5] == 0, "read_stereo: a refused payload left the state in step");
    }
    return returned;
}

uint32_t call_write_stereo(struct write_call *call)
{
    static const uint32_t numbers[] = { 2, 4, 35, 40, 0 };
    remember(&call->state), remember(&call->contents), remember(&call->out), remember(&call->answer);
    uint32_t returned = oarcradler_write_stereo(bytes_of(&call->state), call->state.size, bytes_of(&call->contents), call->contents.size,
        bytes_of(&call->out), call->out.size, bytes_of(&call->answer), call->answer.size);
    check_placeless("write_stereo", returned, numbers);
    expect(same(&call->contents), "write_stereo: the contents were changed");
    if (returned == 0) {
        size_t size = (oarcradler_word(bytes_of(&call->answer) + OARCRADLER_AT_WRITTEN_BITS) + 7) / 8;
        expect(size <= call->out.size, "write_stereo: more bits than the output holds");
        expect(same_but(&call->state, 0, OARCRADLER_SIZE_STATE), "write_stereo: a byte outside the state was changed");
        expect(same_but(&call->answer, 0, OARCRADLER_SIZE_WRITTEN), "write_stereo: a byte outside the answer was changed");
        expect(same_but(&call->out, 0, size), "write_stereo: a byte past the payload was changed");
    } else {
        expect(same(&call->state) && same(&call->out) && same(&call->answer), "write_stereo: a refusal touched a buffer");
    }
    return returned;
}

uint32_t call_read_channel(struct channel_call *call, uint64_t start, uint64_t end, uint32_t index)
{
    static const uint32_t numbers[] = { 1, 2, 3, 10, 12, 13, 20, 21, 22, 23, 24, 25, 26, 0 };
    remember(&call->buffer), remember(&call->lines), remember(&call->factors), remember(&call->books), remember(&call->answer);
    uint32_t returned = oarcradler_read_channel(bytes_of(&call->buffer), call->buffer.size, start, end, index,
        (int16_t *)(void *)bytes_of(&call->lines), call->lines.size / sizeof(int16_t), factors_of(&call->factors), call->factors.size,
        books_of(&call->books), call->books.size, bytes_of(&call->answer), call->answer.size);
    int done = returned == 0;
    check_returned("read_channel", returned, numbers, bits_in(start, end), MOST_CHANNEL_PLACE);
    expect(same(&call->buffer), "read_channel: the buffer was changed");
    expect(same_but(&call->lines, 0, done ? OARCRADLER_SIZE_LINES * sizeof(int16_t) : 0), "read_channel: a byte was changed that is no line");
    expect(same_but(&call->factors, 0, done ? OARCRADLER_SIZE_FACTORS : 0), "read_channel: a byte was changed that is no scale factor");
    expect(same_but(&call->books, 0, done ? OARCRADLER_SIZE_BOOKS : 0), "read_channel: a byte was changed that is no book");
    expect(same_but(&call->answer, 0, done ? OARCRADLER_SIZE_CHANNEL : 0), "read_channel: a byte was changed that is not the answer's");
    return returned;
}

uint32_t call_read_header(struct image_call *call)
{
    static const uint32_t numbers[] = { 2, 3, 5, 0 };
    remember(&call->image), remember(&call->answer);
    uint32_t returned = oarcradler_read_header(bytes_of(&call->image), call->image.size, bytes_of(&call->answer), call->answer.size);
    size_t written = returned == 0 ? OARCRADLER_SIZE_HEADER : 0;
    check_placeless("read_header", returned, numbers);
    expect(same(&call->image), "read_header: the image was changed");
    expect(same_but(&call->answer, 0, written), "read_header: a byte was changed that is not the answer's");
    return returned;
}

uint32_t call_find_part(struct image_call *call, uint32_t k)
{
    static const uint32_t numbers[] = { 1, 2, 3, 5, 0 };
    remember(&call->image), remember(&call->answer);
    uint32_t returned = oarcradler_find_part(bytes_of(&call->image), call->image.size, k, bytes_of(&call->answer), call->answer.size);
    size_t written = returned == 0 ? OARCRADLER_SIZE_PART : 0;
    check_placeless("find_part", returned, numbers);
    expect(same(&call->image), "find_part: the image was changed");
    expect(same_but(&call->answer, 0, written), "find_part: a byte was changed that is not the answer's");
    return returned;
}

uint32_t call_find_parts(struct image_call *call)
{
    static const uint32_t numbers[] = { 2, 3, 5, 0 };
    const uint8_t *image = bytes_of(&call->image);
    remember(&call->image), remember(&call->answer);
    uint32_t returned = oarcradler_find_parts(image, call->image.size, bytes_of(&call->answer), call->answer.size);
    size_t written = returned == 0 ? OARCRADLER_SIZE_PART * (256 * (size_t)image[0] + image[1]) : 0;
    check_placeless("find_parts", returned, numbers);
    expect(same(&call->image), "find_parts: the image was changed");
    expect(written <= call->answer.size && same_but(&call->answer, 0, written), "find_parts: a byte was changed that is not the answer's");
    return returned;
}

/* The numbers of a frame, in the order of their size. */
static const uint32_t frame_numbers[] = { 1, 2, 10, 12, 13, 20, 21, 22, 23, 24, 25, 26, 50, 51, 52, 53, 0 };

uint32_t call_read_frame(struct frame_call *call, size_t start)
{
    remember(&call->file), remember(&call->lines), remember(&call->factors), remember(&call->books), remember(&call->answer);
    uint32_t returned = oarcradler_read_frame(bytes_of(&call->file), call->file.size, start, (int16_t *)(void *)bytes_of(&call->lines),
        call->lines.size / sizeof(int16_t), factors_of(&call->factors), call->factors.size, books_of(&call->books), call->books.size,
        bytes_of(&call->answer), call->answer.size);
    int done = returned == 0;
    check_returned("read_frame", returned, frame_numbers, bits_in(start, call->file.size), OARCRADLER_MOST_PLACE);
    expect(same(&call->file), "read_frame: the file was changed");
    expect(same_but(&call->lines, 0, done ? OARCRADLER_SIZE_LINES * sizeof(int16_t) : 0), "read_frame: a byte was changed that is no line");
    expect(same_but(&call->factors, 0, done ? OARCRADLER_SIZE_FACTORS : 0), "read_frame: a byte was changed that is no scale factor");
    expect(same_but(&call->books, 0, done ? OARCRADLER_SIZE_BOOKS : 0), "read_frame: a byte was changed that is no book");
    expect(same_but(&call->answer, 0, done ? OARCRADLER_SIZE_FRAME : 0), "read_frame: a byte was changed that is not the answer's");
    return returned;
}

uint32_t call_unwrap_frame(struct unwrap_call *call, size_t start)
{
    remember(&call->file), remember(&call->out), remember(&call->answer);
    uint32_t returned = oarcradler_unwrap_frame(bytes_of(&call->file), call->file.size, start, bytes_of(&call->out), call->out.size,
        bytes_of(&call->answer), call->answer.size);
    check_returned("unwrap_frame", returned, frame_numbers, bits_in(start, call->file.size), OARCRADLER_MOST_PLACE);
    expect(same(&call->file), "unwrap_frame: the file was changed");
    if (returned == 0) {
        size_t size = (oarcradler_word(bytes_of(&call->answer) + OARCRADLER_AT_CHANNEL_BITS) + 7) / 8;
        expect(size <= call->out.size, "unwrap_frame: more bits than the output holds");
        expect(same_but(&call->out, 0, size), "unwrap_frame: a byte past the stream was changed");
        expect(same_but(&call->answer, 0, OARCRADLER_SIZE_FRAME), "unwrap_frame: a byte outside the answer was changed");
    } else {
        expect(same(&call->out) && same(&call->answer), "unwrap_frame: a refusal touched a buffer");
    }
    return returned;
}

uint32_t call_wrap_stream(struct wrap_call *call, uint64_t start, uint64_t end, uint32_t index)
{
    static const uint32_t numbers[] = { 1, 2, 3, 10, 12, 13, 20, 21, 22, 23, 24, 25, 26, 0 };
    remember(&call->buffer), remember(&call->out), remember(&call->answer);
    uint32_t returned = oarcradler_wrap_stream(bytes_of(&call->buffer), call->buffer.size, start, end, index, bytes_of(&call->out),
        call->out.size, bytes_of(&call->answer), call->answer.size);
    check_returned("wrap_stream", returned, numbers, bits_in(start, end), MOST_CHANNEL_PLACE);
    expect(same(&call->buffer), "wrap_stream: the buffer was changed");
    if (returned == 0) {
        size_t size = oarcradler_word(bytes_of(&call->answer) + OARCRADLER_AT_WRAPPED_LENGTH);
        expect(size <= call->out.size, "wrap_stream: more bytes than the output holds");
        expect(same_but(&call->out, 0, size), "wrap_stream: a byte past the frame was changed");
        expect(same_but(&call->answer, 0, OARCRADLER_SIZE_WRAPPED), "wrap_stream: a byte outside the answer was changed");
    } else {
        expect(same(&call->out) && same(&call->answer), "wrap_stream: a refusal touched a buffer");
    }
    return returned;
}
