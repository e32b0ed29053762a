/* Each function called over lent buffers. After every call it is checked that one of the function's numbers came back, with a place where
 * it may have one; and that nothing but what the promise lets change has changed: not the bytes around a buffer, not those past the layout,
 * not what a refusal leaves alone. What was returned is handed on, number and place. */
#ifndef CALLS_H
#define CALLS_H

#include "lent.h"

/* An offset that 32 bits would cut to 0. */
#define PAST_32_BITS ((uint64_t)1 << 32)

struct stereo_call {
    struct lent state, buffer, answer;
};

struct write_call {
    struct lent state, contents, out, answer;
};

struct channel_call {
    struct lent buffer, lines, factors, books, answer;
};

struct image_call {
    struct lent image, answer;
};

struct frame_call {
    struct lent file, lines, factors, books, answer;
};

struct unwrap_call {
    struct lent file, out, answer;
};

struct wrap_call {
    struct lent buffer, out, answer;
};

/* A fresh state is put in a lent one. */
uint32_t call_fresh(struct lent *state);
/* A payload is reported missing. */
uint32_t call_missing(struct lent *state);
/* A stereo payload is read from start to end of the lent buffer. */
uint32_t call_read_stereo(struct stereo_call *call, uint64_t start, uint64_t end);
/* Lent contents are written. */
uint32_t call_write_stereo(struct write_call *call);
/* A channel stream is read from start to end of the lent buffer. */
uint32_t call_read_channel(struct channel_call *call, uint64_t start, uint64_t end, uint32_t index);
/* The header of a lent image is read. */
uint32_t call_read_header(struct image_call *call);
/* The payload k of a lent image is found. */
uint32_t call_find_part(struct image_call *call, uint32_t k);
/* All payloads of a lent image are found. */
uint32_t call_find_parts(struct image_call *call);
/* The frame that starts at a byte of a lent file is read. */
uint32_t call_read_frame(struct frame_call *call, size_t start);
/* The stream of the frame that starts at a byte of a lent file is cut out. */
uint32_t call_unwrap_frame(struct unwrap_call *call, size_t start);
/* The stream from start to end of the lent buffer is wrapped. */
uint32_t call_wrap_stream(struct wrap_call *call, uint64_t start, uint64_t end, uint32_t index);

#endif
