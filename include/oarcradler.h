/* Oarcradler for a program in C: a tag's channel streams and stereo payloads read into numbers, stereo payloads written, ADTS frames read,
 * cut and made.
 *
 * Every function takes byte buffers that the caller owns, each as a pointer and a length, and keeps nothing after the call. Buffers of one
 * call must not overlap; a buffer of length 0 may be a null pointer. It returns 0, or a refusal, which is never to be dropped: after a
 * refusal the lent outputs hold what they held before, the last post's numbers. docs/C.md describes every byte.
 *
 * A refusal has a number, which says why, and a place, which says where: the bit at which the payload, or the frame, went bad. What is
 * returned holds both; a function whose comment names no place returns the number alone.
 *
 *     Take the number out first: oarcradler_number(returned) == OARCRADLER_REFUSED_..
 *     What is returned, compared as it is, is a refusal's number only where the place is 0. A success is 0, the whole of it.
 *
 * Names: OARCRADLER_REFUSED_.. is a number that comes back, OARCRADLER_SIZE_.. how much a buffer holds at least, OARCRADLER_AT_.. the place
 * of a byte in a buffer, OARCRADLER_MOST_.. a limit, OARCRADLER_STACK_.. the stack of a call. */
#ifndef OARCRADLER_H
#define OARCRADLER_H

#include <stddef.h>
#include <stdint.h>

#ifdef __cplusplus
extern "C" {
#endif

#define OARCRADLER_VERSION "3.1.0"
#define OARCRADLER_VERSION_MAJOR 3
#define OARCRADLER_VERSION_MINOR 1
#define OARCRADLER_VERSION_PATCH 0

/* The compiler warns where what comes back is dropped. */
#if defined(__cplusplus) && __cplusplus >= 201703L || defined(__STDC_VERSION__) && __STDC_VERSION__ >= 202311L
#define OARCRADLER_NODISCARD [[nodiscard]]
#elif defined(__GNUC__)
#define OARCRADLER_NODISCARD __attribute__((warn_unused_result))
#else
#define OARCRADLER_NODISCARD
#endif

/* Every length, and every place in a buffer, is a uint64_t, also where size_t has 32 bits: what is proved, and what the archive is compiled
 * from, has lengths of 64 bits on every processor. A header that said size_t would link on a processor of 32 bits without a word, and hand
 * over the wrong arguments. No length is ever cut: what a size_t holds, a uint64_t holds, which is checked here. */
typedef char oarcradler_no_length_is_cut[sizeof(uint64_t) == 8 && sizeof(size_t) <= sizeof(uint64_t) ? 1 : -1];

/* How much each buffer holds at least. A longer one is taken, and what stands past the layout is left alone. */
#define OARCRADLER_SIZE_STATE 146    /* bytes of the stereo state */
#define OARCRADLER_SIZE_STEREO 582   /* bytes of a stereo answer, and of contents to write */
#define OARCRADLER_SIZE_WRITTEN 4    /* bytes of a writing's answer */
#define OARCRADLER_SIZE_CHANNEL 17   /* bytes of a channel answer */
#define OARCRADLER_SIZE_LINES 1024   /* lines of a channel stream, an int16_t each */
#define OARCRADLER_SIZE_FACTORS 120  /* bytes of scale factors */
#define OARCRADLER_SIZE_BOOKS 120    /* bytes of books */
#define OARCRADLER_SIZE_HEADER 8     /* bytes of an image header's answer */
#define OARCRADLER_SIZE_PART 8       /* bytes of a part's answer, and of each part where all are answered */
#define OARCRADLER_SIZE_INDICES 34   /* indices of a record, and of a row */
#define OARCRADLER_SIZE_RECORD 35    /* bytes of a record of the state: its mode, its indices */
#define OARCRADLER_SIZE_ROW 35       /* bytes of a row of an envelope: its time flag, its indices */
#define OARCRADLER_SIZE_ENVELOPE 140 /* bytes of an envelope: four rows */
#define OARCRADLER_SIZE_FRAME 22     /* bytes of a frame's answer */
#define OARCRADLER_SIZE_WRAPPED 4    /* bytes of a wrapping's answer */

/* The most there is. */
#define OARCRADLER_MOST_IMAGE 65535  /* bytes of a tag image */
#define OARCRADLER_MOST_PAYLOADS 1024 /* payloads of a tag image */
#define OARCRADLER_MOST_PARTS 8192   /* bytes that are enough for the parts of every tag image */
#define OARCRADLER_MOST_ENVELOPES 4  /* envelopes of a stereo payload */
#define OARCRADLER_MOST_GROUPS 8     /* groups of windows of a channel stream */
#define OARCRADLER_MOST_WRITTEN 1024 /* bytes that are enough for every stereo payload that is written */
#define OARCRADLER_MOST_STREAM 4750  /* bytes that are enough for every stream that is cut out of a frame */
#define OARCRADLER_MOST_WRAPPED 4760 /* bytes that are enough for every frame that wraps a stream */
#define OARCRADLER_MOST_FRAME 8191   /* bytes of a frame of a file */
#define OARCRADLER_MOST_PLACE 65528  /* the last bit at which anything is refused, from the payload's or frame's first */

/* Bytes of stack that are enough for a call, on every processor that there is an archive for, whatever the input. */
#define OARCRADLER_STACK_WRITE_STEREO 11776
#define OARCRADLER_STACK_READ_STEREO 6912
#define OARCRADLER_STACK_READ_FRAME 10496
#define OARCRADLER_STACK_UNWRAP_FRAME 10496
#define OARCRADLER_STACK_WRAP_STREAM 10496
#define OARCRADLER_STACK_READ_CHANNEL 10496
#define OARCRADLER_STACK_REPORT_MISSING 512
#define OARCRADLER_STACK_FRESH_STATE 256
#define OARCRADLER_STACK_READ_HEADER 256
#define OARCRADLER_STACK_FIND_PART 256
#define OARCRADLER_STACK_FIND_PARTS 256
#define OARCRADLER_STACK_VERSION 256

/* The numbers that come back: 0, or a refusal's. They are compared with oarcradler_number(returned), never with what was returned. */
#define OARCRADLER_DONE 0                       /* read, or written */
#define OARCRADLER_REFUSED_BAD_RANGE 1          /* range outside the buffer, or its start after its end; no such payload */
#define OARCRADLER_REFUSED_TOO_SHORT 2          /* a lent output is too short */
#define OARCRADLER_REFUSED_UNKNOWN_INDEX 3      /* sampling index not 3, 4, 6 or 7 */
#define OARCRADLER_REFUSED_UNSOUND_STATE 4      /* stereo state unsound */
#define OARCRADLER_REFUSED_UNSOUND_IMAGE 5      /* image header unsound */
#define OARCRADLER_REFUSED_NO_BITS 10           /* bits ran out */
#define OARCRADLER_REFUSED_NO_WORD 11           /* no code word fits */
#define OARCRADLER_REFUSED_BITS_LEFT 12         /* more than 7 bits left after the payload */
#define OARCRADLER_REFUSED_RESERVED 13          /* reserved bit, mode or extension id used */
#define OARCRADLER_REFUSED_UNUSED_TOOL 20       /* prediction, TNS or gain control flagged */
#define OARCRADLER_REFUSED_MAX_SFB 21           /* max_sfb above the number of bands */
#define OARCRADLER_REFUSED_SECTION 22           /* section of length 0, or past max_sfb */
#define OARCRADLER_REFUSED_BOOK 23              /* book 12, 13, 14 or 15 */
#define OARCRADLER_REFUSED_FACTOR 24            /* scale factor outside 0..255 */
#define OARCRADLER_REFUSED_PULSE 25             /* pulses with short windows, or pulse start or line too high */
#define OARCRADLER_REFUSED_MAGNITUDE 26         /* magnitude above 8191 */
#define OARCRADLER_REFUSED_TIME_CODING 31       /* time coding where the mode differs */
#define OARCRADLER_REFUSED_INDEX 32             /* index outside its range */
#define OARCRADLER_REFUSED_EXTENSION 33         /* extension too small for its contents, or a second v0 in it */
#define OARCRADLER_REFUSED_NO_MODE 34           /* phase data with no IID mode ever sent */
#define OARCRADLER_REFUSED_OUT_OF_STEP 35       /* out of step and not a restart */
#define OARCRADLER_REFUSED_CANNOT_BE_WRITTEN 40 /* contents that can't be written */
#define OARCRADLER_REFUSED_NO_SYNC 50           /* a frame does not begin with the sync word */
#define OARCRADLER_REFUSED_OTHER_FRAME 51       /* a frame with another layer, profile, index or channels, with check words or more blocks */
#define OARCRADLER_REFUSED_FRAME_SIZE 52        /* frame length below 7, or past the bytes there */
#define OARCRADLER_REFUSED_OTHER_ELEMENT 53     /* another element than the channel's or, after it, than the end */

/* Where the bytes of the stereo state stand. Indices are int8_t. */
#define OARCRADLER_AT_STATE_IID_ON 0
#define OARCRADLER_AT_STATE_ICC_ON 1
#define OARCRADLER_AT_STATE_EXTENSION_ON 2
#define OARCRADLER_AT_STATE_IID_MODE 3 /* the last one sent: 0 to 5, OARCRADLER_MODE_NONE for none */
#define OARCRADLER_AT_STATE_ICC_MODE 4
#define OARCRADLER_AT_STATE_IN_STEP 5
#define OARCRADLER_AT_STATE_IID 6 /* a record: its mode, as above, and its indices */
#define OARCRADLER_AT_STATE_ICC 41
#define OARCRADLER_AT_STATE_IPD 76
#define OARCRADLER_AT_STATE_OPD 111
#define OARCRADLER_MODE_NONE 7 /* the mode that stands for none */

/* Where the bytes of a stereo answer, and of contents to write, stand. Indices are int8_t. */
#define OARCRADLER_AT_STEREO_BITS 0   /* a word: the bits used */
#define OARCRADLER_AT_STEREO_HEADER 4 /* 1 where there is a header; the next five are 0 where there is none */
#define OARCRADLER_AT_STEREO_IID_ON 5
#define OARCRADLER_AT_STEREO_IID_MODE 6
#define OARCRADLER_AT_STEREO_ICC_ON 7
#define OARCRADLER_AT_STEREO_ICC_MODE 8
#define OARCRADLER_AT_STEREO_EXTENSION_ON 9
#define OARCRADLER_AT_STEREO_CLASS 10 /* the frame class: 1 where borders are sent */
#define OARCRADLER_AT_STEREO_ENVELOPES 11
#define OARCRADLER_AT_STEREO_BORDERS 12    /* OARCRADLER_MOST_ENVELOPES of them */
#define OARCRADLER_AT_STEREO_EXTENSION 16  /* 1 where there is an extension; the next five are 0 where there is none */
#define OARCRADLER_AT_STEREO_SIZE 17       /* its size in bytes; at 15 the next byte is added */
#define OARCRADLER_AT_STEREO_ESC 18        /* esc_count */
#define OARCRADLER_AT_STEREO_PHASE 19      /* enable_ipdopd */
#define OARCRADLER_AT_STEREO_FILL_COUNT 20 /* how many fill bits */
#define OARCRADLER_AT_STEREO_FILL 21       /* the number that they are */
#define OARCRADLER_AT_STEREO_FIRST 22      /* the first of the envelopes, OARCRADLER_SIZE_ENVELOPE bytes each */
#define OARCRADLER_AT_WRITTEN_BITS 0       /* in a writing's answer, a word: the bits written */
#define OARCRADLER_AT_ROW_IID 0            /* in an envelope, a row: 1 where coded across time, and its indices */
#define OARCRADLER_AT_ROW_ICC 35
#define OARCRADLER_AT_ROW_IPD 70
#define OARCRADLER_AT_ROW_OPD 105

/* Where the bytes of a channel answer stand. */
#define OARCRADLER_AT_CHANNEL_BITS 0 /* a word: the bits used */
#define OARCRADLER_AT_CHANNEL_GAIN 4
#define OARCRADLER_AT_CHANNEL_SEQUENCE 5 /* window sequence; 2 is eight short windows */
#define OARCRADLER_AT_CHANNEL_SHAPE 6
#define OARCRADLER_AT_CHANNEL_MAX_SFB 7
#define OARCRADLER_AT_CHANNEL_GROUP_COUNT 8
#define OARCRADLER_AT_CHANNEL_GROUPS 9 /* the windows of each of OARCRADLER_MOST_GROUPS groups, 0 past the last */

/* Where the words of an image header's answer and of a part's answer stand. Of all parts, that of payload k stands at
 * OARCRADLER_SIZE_PART * k. */
#define OARCRADLER_AT_HEADER_COUNT 0 /* the payload count */
#define OARCRADLER_AT_HEADER_INDEX 4 /* the sampling index */
#define OARCRADLER_AT_PART_START 0   /* the payload's first byte in the image */
#define OARCRADLER_AT_PART_END 4     /* the byte after its last */

/* Where the bytes of a frame's answer and of a wrapping's answer stand. A frame's answer begins as a channel answer. */
#define OARCRADLER_AT_FRAME_LENGTH 17  /* a word: the frame's length in bytes; the next frame starts after so many */
#define OARCRADLER_AT_FRAME_INDEX 21   /* the sampling index */
#define OARCRADLER_AT_WRAPPED_LENGTH 0 /* a word: the length in bytes of the frame that was written */

/* Scale factors and books. They are lent side by side and have one size, so each has a type of its own: the one in the other's place is
 * told by the compiler. */
struct oarcradler_factors {
    uint8_t of[OARCRADLER_SIZE_FACTORS];
};
struct oarcradler_books {
    uint8_t of[OARCRADLER_SIZE_BOOKS];
};

/* A word of an answer: four bytes, the most significant first. */
static inline uint32_t oarcradler_word(const uint8_t *at)
{
    return (uint32_t)at[0] << 24 | (uint32_t)at[1] << 16 | (uint32_t)at[2] << 8 | (uint32_t)at[3];
}

/* The number and the place of what a function returned, which is number + 256 * place. The place is counted in bits from the payload's
 * first, or from the frame's. It is the first bit of the field that was judged, or that is not whole (10), which may be the end; of what
 * is unused (12, 35); of the pulse (26 of a pulse); of the element (53). It is 0 for 1 to 5, 40 and 50 to 52: a frame's header counts as
 * one field, so that its 10 stands at 0 too. No place is above OARCRADLER_MOST_PLACE, so none is cut. */
static inline uint32_t oarcradler_number(uint32_t returned)
{
    return returned % 256;
}

static inline uint32_t oarcradler_place(uint32_t returned)
{
    return returned / 256;
}

/* A number's name, which is that of its constant after OARCRADLER_REFUSED_, and what it means in a sentence, for a log. They take a number,
 * or what a function returned, and pass over the place. They are not in the archive, and not proved: a program that wants them is compiled
 * with oarcradler_names.c, which stands beside this header. */
const char *oarcradler_name(uint32_t returned);
const char *oarcradler_sentence(uint32_t returned);

/* The archive's version: 10,000 times the first number, 100 times the second, and the third. The first two stand in its name, so that a
 * program which calls oarcradler_version links with no archive of another version than this header's. */
uint32_t oarcradler_version_3_1(void);
static inline uint32_t oarcradler_version(void)
{
    return oarcradler_version_3_1();
}

/* The state before any payload is written to a lent state. 2, or 0. */
OARCRADLER_NODISCARD uint32_t oarcradler_fresh_state(uint8_t *state, uint64_t state_size);

/* A stereo payload that never came: the state is out of step. 4, or 0. A refused payload has done so itself. */
OARCRADLER_NODISCARD uint32_t oarcradler_report_missing(uint8_t *state, uint64_t state_size);

/* The stereo payload in bytes start to end (not included) of a buffer: the state is moved on, the answer written. 1, 2, 4, with nothing
 * touched; 10 to 35 and their place, with the state out of step and nothing else touched; or 0. */
OARCRADLER_NODISCARD uint32_t oarcradler_read_stereo(
    uint8_t *state, uint64_t state_size,
    const uint8_t *buffer, uint64_t buffer_size, uint64_t start, uint64_t end,
    uint8_t *answer, uint64_t answer_size);

/* Contents, laid out as a stereo answer, are written as a payload: the state is moved on, and the answer is the bits written as a word. 2
 * for the answer, 4, 40, 35, last 2 where the payload doesn't fit; each with no place and nothing touched; or 0. */
OARCRADLER_NODISCARD uint32_t oarcradler_write_stereo(
    uint8_t *state, uint64_t state_size,
    const uint8_t *contents, uint64_t contents_size,
    uint8_t *out, uint64_t out_size,
    uint8_t *answer, uint64_t answer_size);

/* The channel stream in bytes start to end (not included) of a buffer, for a sampling index: lines, scale factors, books and the answer are
 * written. 1, 2, 3, or 10 to 26 and their place; each with nothing touched; or 0. Lines are counted in elements, all else in bytes. */
OARCRADLER_NODISCARD uint32_t oarcradler_read_channel(
    const uint8_t *buffer, uint64_t buffer_size, uint64_t start, uint64_t end, uint32_t index,
    int16_t *lines, uint64_t line_count,
    struct oarcradler_factors *factors, uint64_t factors_size,
    struct oarcradler_books *books, uint64_t books_size,
    uint8_t *answer, uint64_t answer_size);

/* The header of a tag image: its payload count and sampling index are written as two words. 2, 5, 3, or 0. */
OARCRADLER_NODISCARD uint32_t oarcradler_read_header(
    const uint8_t *image, uint64_t image_size,
    uint8_t *answer, uint64_t answer_size);

/* The payload k of a tag image: where it starts and ends is written as two words. 2, 5, 3, 1 where there is no such payload, or 0. */
OARCRADLER_NODISCARD uint32_t oarcradler_find_part(
    const uint8_t *image, uint64_t image_size, uint32_t k,
    uint8_t *answer, uint64_t answer_size);

/* All payloads of a tag image, whose header is judged once: where each starts and ends is written as two words, OARCRADLER_SIZE_PART bytes
 * for each payload. 5, then 2 where the answer has no room for them, 3, or 0. */
OARCRADLER_NODISCARD uint32_t oarcradler_find_parts(
    const uint8_t *image, uint64_t image_size,
    uint8_t *answer, uint64_t answer_size);

/* The ADTS frame that starts at a byte of a file: lines, scale factors, books and the answer are written. 1 where the start is past the
 * file; 2; 10, 50, 51, 52 of the header; 10 to 26, 53 of the block, 12, and their place in the frame; each with nothing touched; or 0.
 * Lines are counted in elements. */
OARCRADLER_NODISCARD uint32_t oarcradler_read_frame(
    const uint8_t *file, uint64_t file_size, uint64_t start,
    int16_t *lines, uint64_t line_count,
    struct oarcradler_factors *factors, uint64_t factors_size,
    struct oarcradler_books *books, uint64_t books_size,
    uint8_t *answer, uint64_t answer_size);

/* The channel stream of the ADTS frame that starts at a byte of a file is written, its last byte filled up with zero bits, and the frame's
 * answer. 1, 2 for the answer, then as oarcradler_read_frame refuses, with its place, last 2 where the stream doesn't fit; each with
 * nothing touched; or 0. */
OARCRADLER_NODISCARD uint32_t oarcradler_unwrap_frame(
    const uint8_t *file, uint64_t file_size, uint64_t start,
    uint8_t *out, uint64_t out_size,
    uint8_t *answer, uint64_t answer_size);

/* The channel stream in bytes start to end (not included) of a buffer, for a sampling index, is written as one ADTS frame, and the frame's
 * length as a word. 1, 2 for the answer, 3, then 10 to 26, 12 and their place in the payload, last 2 where the frame doesn't fit; each with
 * nothing touched; or 0. */
OARCRADLER_NODISCARD uint32_t oarcradler_wrap_stream(
    const uint8_t *buffer, uint64_t buffer_size, uint64_t start, uint64_t end, uint32_t index,
    uint8_t *out, uint64_t out_size,
    uint8_t *answer, uint64_t answer_size);

#ifdef __cplusplus
}
#endif

#endif
